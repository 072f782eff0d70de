//! Changes that bring one part of a valid model exactly to its limit.
use crate::edit::*;
use crate::plain::format::Model;
use crate::plain::reference::*;
use crate::random::Random;

pub type Change = fn(&mut Model, &mut Random);

pub const LIMITS: &[(&str, Change)] = &[
    ("title of 200", |m, _| m.scenario.title = "T".repeat(200)),
    ("32 entities", |m, _| {
        for n in 0.. {
            if m.scenario.entities.len() >= 32 {
                break;
            }
            m.scenario.entities.insert(format!("e{n}"), switch());
        }
    }),
    ("32 automations", |m, r| {
        while m.rules.len() < 32 {
            let copy = Automation { id: free_id(m, "copy"), ..some_automation(m, r).clone() };
            // A copy without actions if the number of actions would be too great.
            let fits = all_actions(m) + count_actions(&copy.actions) <= 500;
            let actions = if fits { copy.actions } else { vec![] };
            let (unknown, conditions) = (vec![], vec![]);
            let mut triggers = copy.triggers;
            triggers.retain(|t| t.unknown.is_none());
            if triggers.is_empty() {
                triggers.push(trigger(&some_entity(m, r)));
            }
            m.rules.push(Automation { actions, unknown, conditions, triggers, ..copy });
        }
    }),
    ("100 events", |m, r| {
        while m.scenario.events.len() < 100 {
            let input = set_to(m, r);
            add_event(m, input);
        }
    }),
    ("32 invariants", |m, r| {
        while m.scenario.invariants.len() < 32 {
            let (id, conditions) = (free_id(m, "inv"), vec![some_state(m, r)]);
            add_invariant(m, r, Invariant::Never { id, conditions });
        }
    }),
    ("12 inputs", |m, r| {
        while m.scenario.alphabet.len() < 12 {
            let input = set_to(m, r);
            m.scenario.alphabet.push(input);
        }
    }),
    ("4 gaps", |m, _| m.scenario.gaps = vec![2, 1, 2, 5]),
    ("gap of 86400", |m, _| m.scenario.gaps[0] = 86_400),
    ("horizon of 86400", |m, r| {
        m.scenario.limits.horizon = 86_400;
        let input = set_to(m, r);
        if m.scenario.events.len() < 100 {
            m.scenario.events.push(Event { at: 86_400, input });
        }
    }),
    ("event at the horizon", |m, r| {
        let (at, input) = (m.scenario.limits.horizon, set_to(m, r));
        if m.scenario.events.len() < 100 {
            m.scenario.events.push(Event { at, input });
        }
    }),
    ("depth of 5", |m, _| m.scenario.limits.search_depth = 5),
    ("2000 cases", |m, _| m.scenario.limits.max_cases = 2000),
    ("1 case", |m, _| m.scenario.limits.max_cases = 1),
    ("10000 steps", |m, _| m.scenario.limits.max_steps = 10_000),
    ("1 step", |m, _| m.scenario.limits.max_steps = 1),
    ("horizon of 0", |m, _| {
        m.scenario.limits.horizon = 0;
        m.scenario.events.retain(|e| e.at == 0);
    }),
    ("stale after 86400", |m, r| some_stale(m, r, 86_400)),
    ("stale after 0", |m, r| some_stale(m, r, 0)),
    ("entity name of 100", |m, _| {
        if m.scenario.entities.len() < 32 {
            m.scenario.entities.insert("n".repeat(100), switch());
        }
    }),
    ("16 values, one of 100", |m, _| {
        let mut entity = switch();
        entity.domain.extend((0..13).map(|n| format!("v{n}")));
        entity.domain.push("V".repeat(100));
        if m.scenario.entities.len() < 32 {
            m.scenario.entities.insert("many".into(), entity);
        }
    }),
    ("32 predicates in an invariant", |m, r| {
        let (id, list) = (free_id(m, "wide"), (0..32).map(|_| some_state(m, r)).collect());
        if m.scenario.invariants.len() < 32 {
            add_invariant(m, r, Invariant::Never { id, conditions: list });
        }
    }),
    ("32 predicates in a guard", |m, r| {
        let (id, list) = (free_id(m, "guard"), (0..32).map(|_| some_state(m, r)).collect());
        let (entity, value) = (some_entity(m, r), "unknown".into());
        if m.scenario.invariants.len() < 32 {
            add_invariant(m, r, Invariant::Guard { id, entity, value, requires: list });
        }
    }),
    ("response within 86400, id of 100", |m, r| {
        let (id, when, then) = ("I".repeat(100), some_state(m, r), some_state(m, r));
        if m.scenario.invariants.len() < 32 {
            add_invariant(m, r, Invariant::Response { id, when, then, within: 86_400 });
        }
    }),
    ("max of 16", |m, r| some_automation(m, r).max = 16),
    ("16 triggers, 32 conditions", |m, r| {
        let entity = some_entity(m, r);
        let conditions: Vec<_> = (0..32).map(|_| some_state(m, r)).collect();
        let rule = some_automation(m, r);
        rule.triggers.resize(16, trigger(&entity));
        if rule.conditions.is_empty() {
            rule.conditions = conditions;
        }
    }),
    ("automation id of 100", |m, _| {
        if m.rules.len() < 32 && m.scenario.entities.contains_key("a") {
            m.rules
                .push(Automation { triggers: vec![trigger("a")], ..automation(&"R".repeat(100)) });
        }
    }),
    ("empty branch at depth 16", |m, r| deepest(m, r, nested(empty_choose(false), 15, false))),
    ("empty default list at depth 16", |m, r| deepest(m, r, nested(empty_choose(true), 15, true))),
    ("action at depth 16", |m, r| {
        let in_default = r.percent(50);
        deepest(m, r, nested(delay(1), 16, in_default))
    }),
    ("512 actions", |m, r| {
        let effects = [delay(0), Effect::Condition { predicate: some_state(m, r) }];
        let mut missing = 512_usize.saturating_sub(all_actions(m));
        while missing > 0 {
            let part = r.between(1, missing);
            let effect = r.pick(&effects).clone();
            let rule = some_automation(m, r);
            rule.actions.extend((0..part).map(|_| action(effect.clone())));
            missing -= part;
        }
    }),
    ("64 notes", |m, r| {
        if all_actions(m) < 300 {
            fill_notes(m, r, 64);
        }
    }),
    ("delay of 86400", |m, r| {
        if all_actions(m) < 500 {
            add_effect(m, r, delay(86_400));
        }
    }),
    ("timeout of 86400", |m, r| {
        let entity = some_entity(m, r);
        if all_actions(m) < 500 {
            add_effect(m, r, wait(trigger(&entity), 86_400));
        }
    }),
    ("largest sources", |m, r| some_automation(m, r).source = source(4_294_967_295, 65_536)),
];

/// Windows and starts at their limits.
pub const WINDOW_LIMITS: &[(&str, Change)] = &[
    ("weekday 6", |m, _| m.scenario.start.weekday = 6),
    ("second 86399", |m, _| m.scenario.start.second = 86_399),
    ("zeros written", |m, _| m.zeros_written = true),
    ("weekday 0", |m, _| m.scenario.start.weekday = 0),
    ("window of all but a second", |m, r| condition(m, r, window(127, 0, 86_399))),
    ("window up to midnight", |m, r| condition(m, r, window(64, 86_399, 0))),
    ("window over all but a second", |m, r| condition(m, r, window(1, 1, 0))),
    ("window past midnight", |m, r| condition(m, r, window(64, 86_399, 86_398))),
    ("32 windows", |m, r| {
        let rule = some_automation(m, r);
        rule.conditions.resize(32, window(127, 86_399, 86_398));
    }),
    ("window at depth 16", |m, r| {
        let (predicate, in_default) = (window(127, 0, 43_200), r.percent(50));
        deepest(m, r, nested(Effect::Condition { predicate }, 16, in_default))
    }),
    ("branch of windows", |m, r| {
        if all_actions(m) < 500 {
            let conditions = vec![window(127, 0, 86_399); 40];
            add_effect(m, r, branch(conditions, vec![]));
        }
    }),
];

fn condition(model: &mut Model, random: &mut Random, predicate: Predicate) {
    let rule = some_automation(model, random);
    if rule.conditions.len() < 32 {
        rule.conditions.push(predicate);
    }
}
fn set_to(model: &Model, random: &mut Random) -> Input {
    let Predicate::State { entity, value } = some_state(model, random) else { unreachable!() };
    Input::Set { entity, value }
}
fn deepest(model: &mut Model, random: &mut Random, effect: Effect) {
    if all_actions(model) + 17 <= 512 {
        some_automation(model, random).actions.push(action(effect));
    }
}
fn some_stale(model: &mut Model, random: &mut Random, seconds: u64) {
    let name = some_entity(model, random);
    model.scenario.entities.get_mut(&name).unwrap().stale_after = Some(seconds);
}
