//! Faults that validation refuses: for each refusal number all its variants.
use crate::edit::*;
use crate::limits::Change;
use crate::plain::format::Model;
use crate::plain::reference::*;
use crate::random::Random;

/// Refusal number, name, change. The number holds if the model has no other fault.
pub const FAULTS: &[(u8, &str, Change)] = &[
    (1, "version 0", |m, _| m.scenario.version = 0),
    (1, "version 2", |m, _| m.scenario.version = 2),
    (1, "version 2^32-1", |m, _| m.scenario.version = u32::MAX),
    (1, "title of 201", |m, _| m.scenario.title = "T".repeat(201)),
    (1, "title of 255", |m, _| m.scenario.title = "T".repeat(255)),
    (2, "no entity", |m, _| m.scenario.entities.clear()),
    (2, "33 entities", |m, _| more_entities(m, 33)),
    (2, "40 entities", |m, _| more_entities(m, 40)),
    (2, "33 automations", |m, r| {
        while m.rules.len() < 33 {
            let id = free_id(m, "copy");
            let entity = some_entity(m, r);
            m.rules.push(Automation { triggers: vec![trigger(&entity)], ..automation(&id) });
        }
    }),
    (2, "101 events", |m, r| {
        while m.scenario.events.len() < 101 {
            let Predicate::State { entity, value } = some_state(m, r) else { unreachable!() };
            add_event(m, Input::Set { entity, value });
        }
    }),
    (2, "33 invariants", |m, r| {
        while m.scenario.invariants.len() < 33 {
            let (id, conditions) = (free_id(m, "inv"), vec![some_state(m, r)]);
            add_invariant(m, r, Invariant::Never { id, conditions });
        }
    }),
    (3, "horizon 86401", |m, _| m.scenario.limits.horizon = 86_401),
    (3, "horizon 2^32-1", |m, _| m.scenario.limits.horizon = 4_294_967_295),
    (3, "no steps", |m, _| m.scenario.limits.max_steps = 0),
    (3, "10001 steps", |m, _| m.scenario.limits.max_steps = 10_001),
    (3, "depth 6", |m, _| m.scenario.limits.search_depth = 6),
    (3, "depth 2^32-1", |m, _| m.scenario.limits.search_depth = 4_294_967_295),
    (3, "no cases", |m, _| m.scenario.limits.max_cases = 0),
    (3, "2001 cases", |m, _| m.scenario.limits.max_cases = 2001),
    (4, "13 inputs", |m, _| m.scenario.alphabet.resize(13, Input::Restart)),
    (4, "no gap", |m, _| m.scenario.gaps.clear()),
    (4, "5 gaps", |m, _| m.scenario.gaps.resize(5, 1)),
    (4, "gap 86401", |m, _| m.scenario.gaps = vec![86_401]),
    (4, "last gap 86401", |m, _| m.scenario.gaps = vec![1, 2, 3, 86_401]),
    (5, "stale after 86401", |m, r| each_some_entity(m, r, |e| e.stale_after = Some(86_401))),
    (5, "stale after 2^32-2", |m, r| {
        each_some_entity(m, r, |e| e.stale_after = Some(4_294_967_294))
    }),
    (5, "stale before domain", |m, r| {
        each_some_entity(m, r, |e| {
            e.stale_after = Some(86_401);
            e.domain.clear();
        })
    }),
    (6, "empty name", |m, _| insert_entity(m, "", switch())),
    (6, "name of 101", |m, _| insert_entity(m, &"n".repeat(101), switch())),
    (6, "no value", |m, r| each_some_entity(m, r, |e| e.domain.clear())),
    (6, "17 values", |m, r| {
        each_some_entity(m, r, |e| {
            for n in 0.. {
                if e.domain.len() >= 17 {
                    break;
                }
                e.domain.push(format!("v{n}"));
            }
        })
    }),
    (6, "empty value", |m, r| each_some_entity(m, r, |e| e.domain.push("".into()))),
    (6, "value of 101", |m, r| each_some_entity(m, r, |e| e.domain.push("V".repeat(101)))),
    (6, "doubled value", |m, r| {
        each_some_entity(m, r, |e| {
            let value = e.domain.first().cloned().unwrap_or("on".into());
            e.domain.push(value);
        })
    }),
    (6, "doubled value apart", |m, _| {
        insert_entity(
            m,
            "apart",
            Entity {
                domain: vec!["off".into(), "on".into(), "dim".into(), "off".into()],
                ..switch()
            },
        )
    }),
    (6, "domain before initial value", |m, r| {
        each_some_entity(m, r, |e| {
            e.domain.push("".into());
            e.initial = "nowhere".into();
        })
    }),
    (6, "an entity's domain before the next one's stale_after", |m, _| {
        insert_entity(m, "!first", Entity { domain: vec![], ..switch() });
        insert_entity(m, "!second", Entity { stale_after: Some(86_401), ..switch() });
    }),
    (8, "an entity's initial value before the next one's domain", |m, _| {
        insert_entity(m, "!first", Entity { initial: "nowhere".into(), ..switch() });
        insert_entity(m, "!second", Entity { domain: vec![], ..switch() });
    }),
    (7, "undeclared in an event", |m, _| add_event(m, set_input("ghost", "on"))),
    (7, "undeclared at unknown in an event", |m, _| add_event(m, set_input("ghost", "unknown"))),
    (7, "undeclared in the alphabet", |m, _| m.scenario.alphabet.push(set_input("ghost", "on"))),
    (7, "undeclared in an event before a value in the alphabet", |m, r| {
        let entity = some_entity(m, r);
        add_event(m, set_input("ghost", "on"));
        m.scenario.alphabet = vec![set_input(&entity, "nowhere")];
    }),
    (7, "undeclared in a never", |m, r| never(m, r, state("ghost", "on"))),
    (7, "undeclared in a guard's list", |m, r| guard(m, r, None, state("ghost", "on"))),
    (7, "undeclared in a guard", |m, r| {
        let predicate = some_state(m, r);
        guard(m, r, Some(("ghost", "on")), predicate)
    }),
    (7, "undeclared in a transition", |m, r| transition(m, r, "ghost", "on", "off")),
    (7, "undeclared in a response's when", |m, r| {
        let then = some_state(m, r);
        response(m, r, state("ghost", "on"), then, 1)
    }),
    (7, "undeclared in a response's then", |m, r| {
        let when = some_state(m, r);
        response(m, r, when, state("ghost", "on"), 1)
    }),
    (7, "undeclared in a condition", |m, r| {
        some_automation(m, r).conditions.push(state("ghost", "on"))
    }),
    (7, "condition before actions", |m, r| {
        let rule = some_automation(m, r);
        rule.conditions.push(state("ghost", "on"));
        rule.actions.insert(0, action(delay(86_401)));
    }),
    (7, "undeclared in a set", |m, r| add_effect(m, r, set("ghost", "on"))),
    (7, "undeclared in a toggle", |m, r| {
        add_effect(m, r, Effect::Toggle { entity: "ghost".into() })
    }),
    (7, "undeclared in an action condition", |m, r| {
        add_effect(m, r, Effect::Condition { predicate: state("ghost", "on") })
    }),
    (7, "undeclared in a branch", |m, r| {
        add_effect(m, r, branch(vec![state("ghost", "on")], vec![]))
    }),
    (7, "response's predicate before its deadline", |m, r| {
        let when = some_state(m, r);
        response(m, r, when, state("ghost", "on"), 86_401)
    }),
    (7, "branch condition before depth", |m, r| {
        deep(m, r, branch(vec![state("ghost", "on")], vec![]), false)
    }),
    (8, "initial value", |m, r| each_some_entity(m, r, |e| e.initial = "nowhere".into())),
    (8, "empty initial value", |m, r| each_some_entity(m, r, |e| e.initial = "".into())),
    (8, "value in an event", |m, r| {
        let entity = some_entity(m, r);
        add_event(m, set_input(&entity, "nowhere"))
    }),
    (8, "value in the alphabet", |m, r| {
        let entity = some_entity(m, r);
        m.scenario.alphabet.push(set_input(&entity, "nowhere"))
    }),
    (8, "value in the alphabet before event order", |m, r| {
        let entity = some_entity(m, r);
        m.scenario.alphabet = vec![set_input(&entity, "nowhere")];
        m.scenario.events.insert(0, Event { at: 86_401, input: Input::Restart });
    }),
    (8, "value in an event before undeclared in the alphabet", |m, r| {
        let entity = some_entity(m, r);
        add_event(m, set_input(&entity, "nowhere"));
        m.scenario.alphabet = vec![set_input("ghost", "on")];
    }),
    (8, "value in a never", |m, r| {
        let wrong = wrong_state(m, r);
        never(m, r, wrong)
    }),
    (8, "value in a guard's list", |m, r| {
        let wrong = wrong_state(m, r);
        guard(m, r, None, wrong)
    }),
    (8, "value in a guard", |m, r| {
        let (entity, predicate) = (some_entity(m, r), some_state(m, r));
        guard(m, r, Some((&entity, "nowhere")), predicate)
    }),
    (8, "from in a transition", |m, r| {
        let entity = some_entity(m, r);
        transition(m, r, &entity, "nowhere", "unknown")
    }),
    (8, "to in a transition", |m, r| {
        let entity = some_entity(m, r);
        transition(m, r, &entity, "unavailable", "nowhere")
    }),
    (8, "value in a response's when", |m, r| {
        let (when, then) = (wrong_state(m, r), some_state(m, r));
        response(m, r, when, then, 1)
    }),
    (8, "value in a response's then", |m, r| {
        let (when, then) = (some_state(m, r), wrong_state(m, r));
        response(m, r, when, then, 1)
    }),
    (8, "from in a trigger", |m, r| {
        let from = Some("nowhere".into());
        let trigger = Trigger { from, to: Some("unknown".into()), ..trigger(&some_entity(m, r)) };
        some_automation(m, r).triggers.push(trigger)
    }),
    (8, "to in a trigger", |m, r| {
        let trigger = Trigger { to: Some("nowhere".into()), ..trigger(&some_entity(m, r)) };
        some_automation(m, r).triggers.push(trigger)
    }),
    (8, "value in a trigger before a condition", |m, r| {
        let trigger = Trigger { to: Some("nowhere".into()), ..trigger(&some_entity(m, r)) };
        let rule = some_automation(m, r);
        rule.triggers.push(trigger);
        rule.conditions.push(state("ghost", "on"));
    }),
    (8, "value in a condition", |m, r| {
        let wrong = wrong_state(m, r);
        some_automation(m, r).conditions.push(wrong)
    }),
    (8, "value in a set", |m, r| {
        let entity = some_entity(m, r);
        add_effect(m, r, set(&entity, "nowhere"))
    }),
    (8, "toggle without on", |m, r| toggle_of(m, r, &["off"])),
    (8, "toggle without off", |m, r| toggle_of(m, r, &["on", "Off"])),
    (8, "value in an action condition", |m, r| {
        let predicate = wrong_state(m, r);
        add_effect(m, r, Effect::Condition { predicate })
    }),
    (8, "value in a branch", |m, r| {
        let wrong = wrong_state(m, r);
        add_effect(m, r, branch(vec![wrong], vec![]))
    }),
    (8, "value in a wait", |m, r| {
        let trigger = Trigger { to: Some("nowhere".into()), ..trigger(&some_entity(m, r)) };
        add_effect(m, r, wait(trigger, 1))
    }),
    (9, "event after the horizon", |m, r| {
        let (at, entity) = (after_horizon(m), some_entity(m, r));
        m.scenario.events.push(Event { at, input: set_input(&entity, "unknown") })
    }),
    (9, "restart after the horizon", |m, _| {
        let at = after_horizon(m);
        m.scenario.events.push(Event { at, input: Input::Restart })
    }),
    (9, "falling events", |m, _| {
        let horizon = m.scenario.limits.horizon.max(1);
        m.scenario.limits.horizon = horizon;
        m.scenario.events.push(Event { at: horizon, input: Input::Reload });
        m.scenario.events.push(Event { at: horizon - 1, input: Input::Restart });
    }),
    (9, "value before order", |m, _| {
        m.scenario.events.insert(0, Event { at: 4_294_967_295, input: Input::Reload })
    }),
    (10, "empty invariant id", |m, r| {
        let conditions = vec![some_state(m, r)];
        add_invariant(m, r, Invariant::Never { id: "".into(), conditions })
    }),
    (10, "invariant id of 101", |m, r| {
        let conditions = vec![some_state(m, r)];
        add_invariant(m, r, Invariant::Never { id: "I".repeat(101), conditions })
    }),
    (10, "doubled invariant id", |m, r| {
        let id = free_id(m, "twice");
        for _ in 0..2 {
            let conditions = vec![some_state(m, r)];
            add_invariant(m, r, Invariant::Never { id: id.clone(), conditions });
        }
    }),
    (10, "id before predicates", |m, r| {
        add_invariant(m, r, Invariant::Never { id: "".into(), conditions: vec![] })
    }),
    (11, "empty never", |m, r| predicate_list(m, r, false, 0)),
    (11, "never of 33", |m, r| predicate_list(m, r, false, 33)),
    (11, "empty guard", |m, r| predicate_list(m, r, true, 0)),
    (11, "guard of 33", |m, r| predicate_list(m, r, true, 33)),
    (12, "response within 86401", |m, r| {
        let (when, then) = (some_state(m, r), some_state(m, r));
        response(m, r, when, then, 86_401)
    }),
    (12, "response within 2^32-1", |m, r| {
        let (when, then) = (some_state(m, r), some_state(m, r));
        response(m, r, when, then, 4_294_967_295)
    }),
    (12, "response of notes within 86401", |m, r| {
        let note = Predicate::Unknown { reason: "n".into() };
        response(m, r, note.clone(), note, 86_401)
    }),
    (13, "empty automation id", |m, r| some_automation(m, r).id = "".into()),
    (13, "automation id of 101", |m, r| some_automation(m, r).id = "R".repeat(101)),
    (13, "doubled automation id", |m, r| {
        let copy = some_automation(m, r).clone();
        m.rules.push(Automation { actions: vec![], ..copy });
    }),
    (14, "max 0", |m, r| some_automation(m, r).max = 0),
    (14, "max 17", |m, r| some_automation(m, r).max = 17),
    (14, "max 2^32-1", |m, r| some_automation(m, r).max = 4_294_967_295),
    (14, "no trigger", |m, r| some_automation(m, r).triggers.clear()),
    (14, "17 triggers", |m, r| {
        let entity = some_entity(m, r);
        some_automation(m, r).triggers.resize(17, trigger(&entity))
    }),
    (14, "33 conditions", |m, r| {
        let predicate = some_state(m, r);
        some_automation(m, r).conditions.resize(33, predicate)
    }),
    (15, "undeclared in a trigger", |m, r| {
        let rule = some_automation(m, r);
        let place = r.below(rule.triggers.len() + 1);
        rule.triggers.insert(place, trigger("ghost"))
    }),
    (15, "undeclared in a trigger with a value", |m, r| {
        let trigger = Trigger { to: Some("on".into()), ..trigger("ghost") };
        some_automation(m, r).triggers.push(trigger)
    }),
    (15, "trigger before condition", |m, r| {
        let rule = some_automation(m, r);
        rule.triggers.push(trigger("ghost"));
        rule.conditions.push(state("ghost", "on"));
    }),
    (15, "undeclared in a wait", |m, r| add_effect(m, r, wait(trigger("ghost"), 1))),
    (15, "trigger before timeout", |m, r| add_effect(m, r, wait(trigger("ghost"), 86_401))),
    (16, "empty branch at depth 17", |m, r| deep(m, r, empty_choose(false), false)),
    (16, "empty default list at depth 17", |m, r| deep(m, r, empty_choose(true), true)),
    (16, "no branches at depth 17", |m, r| deep(m, r, empty_choose(true), false)),
    (16, "action at depth 17", |m, r| deep(m, r, branch(vec![], vec![action(delay(1))]), true)),
    (17, "513 actions", |m, r| fill_actions(m, r, false)),
    (17, "513 actions over several", |m, r| fill_actions(m, r, true)),
    (17, "513th is wrong in other ways", |m, r| {
        fill_actions(m, r, false);
        let ghost = action(set("ghost", "on"));
        if let Some(rule) = m.rules.iter_mut().rev().find(|rule| !rule.actions.is_empty()) {
            *rule.actions.last_mut().unwrap() = ghost;
        }
    }),
    (17, "513th is a choose at depth 16", |m, r| {
        some_automation(m, r);
        while all_actions(m) < 496 {
            m.rules.last_mut().unwrap().actions.push(action(delay(0)));
        }
        let deep = nested(empty_choose(true), 16, true);
        m.rules.last_mut().unwrap().actions.push(action(deep));
    }),
    (18, "delay 86401", |m, r| add_effect(m, r, delay(86_401))),
    (18, "delay 2^32-1", |m, r| add_effect(m, r, delay(4_294_967_295))),
    (19, "timeout 86401", |m, r| {
        let entity = some_entity(m, r);
        add_effect(m, r, wait(trigger(&entity), 86_401))
    }),
    (18, "delay before the next automation's id", |m, r| {
        some_automation(m, r);
        m.rules[0].actions.push(action(delay(86_401)));
        let copy = m.rules[0].clone();
        m.rules.push(Automation { actions: vec![], ..copy });
    }),
    (19, "timeout before the next automation's id", |m, r| {
        let entity = some_entity(m, r);
        some_automation(m, r);
        m.rules[0].actions.push(action(wait(trigger(&entity), 86_401)));
        let copy = m.rules[0].clone();
        m.rules.push(Automation { actions: vec![], ..copy });
    }),
    (19, "timeout 2^32-1, noted", |m, r| {
        let trigger = Trigger { unknown: Some("n".into()), ..trigger("ghost") };
        add_effect(m, r, wait(trigger, 4_294_967_295))
    }),
];

/// Windows that are refused: an end at the start, a second too great, no weekday, one above 6.
const BAD_WINDOWS: [(u8, u64, u64); 9] = [
    (1, 5, 5),
    (127, 0, 0),
    (127, 86_400, 0),
    (127, 0, 86_400),
    (64, 4_294_967_295, 1),
    (64, 1, 4_294_967_295),
    (0, 1, 2),
    (128, 1, 2),
    (255, 2, 1),
];

/// Faults of windows and of the start.
pub const WINDOW_FAULTS: &[(u8, &str, Change)] = &[
    (3, "weekday 7", |m, _| m.scenario.start.weekday = 7),
    (3, "weekday 2^32-1", |m, _| m.scenario.start.weekday = 4_294_967_295),
    (3, "second 86400", |m, _| m.scenario.start.second = 86_400),
    (3, "second 2^32-1", |m, _| m.scenario.start.second = 4_294_967_295),
    (3, "weekday and second", |m, _| m.scenario.start = Start { weekday: 8, second: 86_401 }),
    (3, "weekday before gaps", |m, _| {
        m.scenario.start.weekday = 7;
        m.scenario.gaps.clear();
    }),
    (3, "second before inputs", |m, _| {
        m.scenario.start.second = 86_400;
        m.scenario.alphabet.resize(13, Input::Restart);
    }),
    (3, "second before a window in an invariant", |m, r| {
        m.scenario.start.second = 86_400;
        never(m, r, window(1, 1, 2));
    }),
    (2, "entities before weekday", |m, _| {
        m.scenario.start.weekday = 7;
        more_entities(m, 33);
    }),
    (1, "version before second", |m, _| {
        m.scenario.start.second = 86_400;
        m.scenario.version = 2;
    }),
    (50, "window in a condition", |m, r| {
        let bad = bad_window(r);
        some_automation(m, r).conditions.push(bad)
    }),
    (50, "window before a state in conditions", |m, r| {
        let (bad, other) = (bad_window(r), wrong_state(m, r));
        some_automation(m, r).conditions.extend([bad, other])
    }),
    (50, "window before an undeclared entity in conditions", |m, r| {
        let bad = bad_window(r);
        some_automation(m, r).conditions.extend([window(1, 1, 2), bad, state("ghost", "on")])
    }),
    (50, "conditions before actions", |m, r| {
        let bad = bad_window(r);
        let rule = some_automation(m, r);
        rule.conditions.push(bad);
        rule.actions.insert(0, action(delay(86_401)));
    }),
    (50, "window in a branch", |m, r| {
        let bad = bad_window(r);
        add_effect(m, r, branch(vec![bad], vec![action(delay(86_401))]))
    }),
    (50, "window before a state in a branch", |m, r| {
        let bad = bad_window(r);
        add_effect(m, r, branch(vec![bad, state("ghost", "on")], vec![]))
    }),
    (50, "window among actions", |m, r| {
        let predicate = bad_window(r);
        add_effect(m, r, Effect::Condition { predicate })
    }),
    (50, "branch condition before depth", |m, r| {
        let bad = bad_window(r);
        deep(m, r, branch(vec![bad], vec![]), false)
    }),
    (50, "window before the next automation's id", |m, r| {
        let bad = bad_window(r);
        some_automation(m, r);
        m.rules[0].conditions.push(bad);
        let copy = m.rules[0].clone();
        m.rules.push(Automation { conditions: vec![], ..copy });
    }),
    (7, "undeclared before a window in conditions", |m, r| {
        let bad = bad_window(r);
        some_automation(m, r).conditions.extend([state("ghost", "on"), bad])
    }),
    (8, "value before a window in conditions", |m, r| {
        let (wrong, bad) = (wrong_state(m, r), bad_window(r));
        some_automation(m, r).conditions.extend([wrong, bad])
    }),
    (8, "value before a window in a branch", |m, r| {
        let (wrong, bad) = (wrong_state(m, r), bad_window(r));
        add_effect(m, r, branch(vec![wrong, bad], vec![]))
    }),
    (15, "trigger before a window", |m, r| {
        let bad = bad_window(r);
        let rule = some_automation(m, r);
        rule.triggers.push(trigger("ghost"));
        rule.conditions.push(bad);
    }),
    (14, "33 conditions before a window", |m, r| {
        let bad = bad_window(r);
        some_automation(m, r).conditions.resize(33, bad)
    }),
    (18, "delay before a window", |m, r| {
        let predicate = bad_window(r);
        let actions = [delay(86_401), Effect::Condition { predicate }].map(action);
        some_automation(m, r).actions.extend(actions)
    }),
    (51, "window in a never", |m, r| {
        let any = any_window(r);
        never(m, r, any)
    }),
    (51, "window before an undeclared entity in a never", |m, r| {
        let (id, any) = (free_id(m, "never"), any_window(r));
        let conditions = vec![any, state("ghost", "on")];
        add_invariant(m, r, Invariant::Never { id, conditions })
    }),
    (51, "window in a guard's list, before its pair", |m, r| {
        let any = any_window(r);
        guard(m, r, None, any)
    }),
    (51, "window in a response's when", |m, r| {
        let any = any_window(r);
        response(m, r, any, state("ghost", "on"), 86_401)
    }),
    (51, "window in a response's then", |m, r| {
        let (when, any) = (some_state(m, r), any_window(r));
        response(m, r, when, any, 86_401)
    }),
    (51, "windows in both of a response", |m, r| {
        let (when, then) = (any_window(r), any_window(r));
        response(m, r, when, then, 1)
    }),
    (51, "window in an invariant before one in an automation", |m, r| {
        let (any, bad) = (any_window(r), bad_window(r));
        never(m, r, any);
        some_automation(m, r).conditions.push(bad);
    }),
    (7, "undeclared before a window in a never", |m, r| {
        let (id, any) = (free_id(m, "never"), any_window(r));
        let conditions = vec![state("ghost", "on"), any];
        add_invariant(m, r, Invariant::Never { id, conditions })
    }),
    (8, "response's when before a window", |m, r| {
        let (when, any) = (wrong_state(m, r), any_window(r));
        response(m, r, when, any, 1)
    }),
    (9, "order of events before a window in an invariant", |m, r| {
        let any = any_window(r);
        never(m, r, any);
        let at = after_horizon(m);
        m.scenario.events.push(Event { at, input: Input::Restart });
    }),
    (10, "id before a window", |m, r| {
        let conditions = vec![any_window(r)];
        add_invariant(m, r, Invariant::Never { id: "".into(), conditions })
    }),
    (11, "33 windows in a guard", |m, r| {
        let (id, entity) = (free_id(m, "guard"), some_entity(m, r));
        let requires = vec![any_window(r); 33];
        add_invariant(m, r, Invariant::Guard { id, entity, value: "unknown".into(), requires })
    }),
];

fn bad_window(r: &mut Random) -> Predicate {
    let (days, start, end) = *r.pick(&BAD_WINDOWS);
    window(days, start, end)
}
/// A window that is refused, or one that is fine outside of invariants.
fn any_window(r: &mut Random) -> Predicate {
    if r.percent(50) { bad_window(r) } else { window(127, 1, 2) }
}
fn set(entity: &str, value: &str) -> Effect {
    Effect::Set { entity: entity.into(), value: value.into() }
}
fn insert_entity(m: &mut Model, name: &str, entity: Entity) {
    m.scenario.entities.insert(name.into(), entity);
}
/// The second after the horizon, if a number can hold it.
fn after_horizon(m: &Model) -> u64 {
    (m.scenario.limits.horizon + 1).min(4_294_967_295)
}
fn more_entities(m: &mut Model, wanted: usize) {
    for n in 0.. {
        if m.scenario.entities.len() >= wanted {
            return;
        }
        insert_entity(m, &format!("e{n}"), switch());
    }
}
fn each_some_entity(m: &mut Model, r: &mut Random, change: impl Fn(&mut Entity)) {
    let name = some_entity(m, r);
    if let Some(entity) = m.scenario.entities.get_mut(&name) {
        change(entity);
    }
}
fn wrong_state(m: &Model, r: &mut Random) -> Predicate {
    state(&some_entity(m, r), "nowhere")
}
fn never(m: &mut Model, r: &mut Random, predicate: Predicate) {
    let mut conditions = vec![some_state(m, r)];
    conditions.insert(r.below(2), predicate);
    let id = free_id(m, "never");
    add_invariant(m, r, Invariant::Never { id, conditions });
}
/// A guard; without a pair it is wrong in its entity too, which comes later.
fn guard(m: &mut Model, r: &mut Random, pair: Option<(&str, &str)>, predicate: Predicate) {
    let id = free_id(m, "guard");
    let (entity, value) = pair.unwrap_or(("phantom", "on"));
    let (entity, value) = (entity.to_string(), value.to_string());
    let requires = vec![predicate];
    add_invariant(m, r, Invariant::Guard { id, entity, value, requires });
}
fn transition(m: &mut Model, r: &mut Random, entity: &str, from: &str, to: &str) {
    let id = free_id(m, "change");
    let (entity, from, to) = (entity.into(), from.into(), to.into());
    add_invariant(m, r, Invariant::Transition { id, entity, from, to });
}
fn response(m: &mut Model, r: &mut Random, when: Predicate, then: Predicate, within: u64) {
    let id = free_id(m, "late");
    add_invariant(m, r, Invariant::Response { id, when, then, within });
}
fn predicate_list(m: &mut Model, r: &mut Random, guard: bool, length: usize) {
    let id = free_id(m, "list");
    // The second predicate is wrong, which comes later.
    let mut list: Vec<_> = (0..length).map(|_| some_state(m, r)).collect();
    if length > 1 {
        list[1] = state("ghost", "on");
    }
    let entity = some_entity(m, r);
    let invariant = if guard {
        Invariant::Guard { id, entity, value: "unknown".into(), requires: list }
    } else {
        Invariant::Never { id, conditions: list }
    };
    add_invariant(m, r, invariant);
}
fn toggle_of(m: &mut Model, r: &mut Random, domain: &[&str]) {
    let domain: Vec<String> = domain.iter().map(|v| v.to_string()).collect();
    let initial = domain[0].clone();
    insert_entity(m, "half", Entity { domain, initial, ..switch() });
    add_effect(m, r, Effect::Toggle { entity: "half".into() });
}
/// A choose in a list at depth 16.
fn deep(m: &mut Model, r: &mut Random, choose: Effect, in_default: bool) {
    let rule = some_automation(m, r);
    let place = r.below(rule.actions.len() + 1);
    rule.actions.insert(place, action(nested(choose, 16, in_default)));
}
/// 513 actions, at the end of one automation or in several.
fn fill_actions(m: &mut Model, r: &mut Random, several: bool) {
    some_automation(m, r);
    while all_actions(m) < 513 {
        let place = if several { r.below(m.rules.len()) } else { m.rules.len() - 1 };
        let inner = if several && all_actions(m) + 3 <= 513 && r.percent(20) {
            branch(vec![], vec![action(delay(0)), action(delay(0))])
        } else {
            delay(0)
        };
        m.rules[place].actions.push(action(inner));
    }
}
