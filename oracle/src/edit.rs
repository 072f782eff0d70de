//! Small changes of models that the limits, the faults and the samples share.
use crate::plain::format::{LONGEST_FILE, Model, encode};
use crate::plain::reference::*;
use crate::random::Random;
use std::collections::BTreeMap;

/// A small valid model: an entity `a` (off, on), an event, an invariant, an automation.
pub fn base() -> Model {
    let mut entities = BTreeMap::new();
    entities.insert("a".to_string(), switch());
    entities.insert(
        "door".to_string(),
        Entity {
            domain: vec!["locked".into(), "unlocked".into()],
            initial: "locked".into(),
            tier: Tier::AccessSafety,
            stale_after: None,
        },
    );
    let scenario = Scenario {
        version: 1,
        title: "base".into(),
        entities,
        events: vec![Event { at: 1, input: set_input("a", "on") }],
        invariants: vec![Invariant::Never {
            id: "nodoor".into(),
            conditions: vec![state("door", "unlocked")],
        }],
        alphabet: vec![set_input("a", "on")],
        gaps: vec![1],
        limits: Limits { horizon: 10, max_steps: 100, search_depth: 1, max_cases: 10 },
        start: Start::default(),
    };
    Model { texts: vec![], scenario, rules: vec![automation("r")], zeros_written: false }
}

pub fn switch() -> Entity {
    Entity {
        domain: vec!["off".into(), "on".into()],
        initial: "off".into(),
        tier: Tier::Comfort,
        stale_after: None,
    }
}
pub fn set_input(entity: &str, value: &str) -> Input {
    Input::Set { entity: entity.into(), value: value.into() }
}
pub fn state(entity: &str, value: &str) -> Predicate {
    Predicate::State { entity: entity.into(), value: value.into() }
}
pub fn window(days: u8, start: u64, end: u64) -> Predicate {
    Predicate::Window { days, start, end }
}
pub fn source(line: usize, column: usize) -> Source {
    Source { line, column }
}
pub fn trigger(entity: &str) -> Trigger {
    Trigger { entity: entity.into(), from: None, to: None, source: source(1, 1), unknown: None }
}
pub fn automation(id: &str) -> Automation {
    Automation {
        id: id.into(),
        mode: Mode::Single,
        max: 1,
        triggers: vec![Trigger { to: Some("on".into()), ..trigger("a") }],
        conditions: vec![],
        actions: vec![],
        source: source(1, 1),
        unknown: vec![],
    }
}
pub fn action(effect: Effect) -> Action {
    Action { source: source(7, 3), effect }
}
pub fn delay(seconds: u64) -> Effect {
    Effect::Delay { seconds }
}
pub fn wait(trigger: Trigger, timeout: u64) -> Effect {
    Effect::Wait { trigger, timeout, continue_on_timeout: true }
}
/// A choose with one branch whose list holds the actions, and an empty default list.
pub fn branch(conditions: Vec<Predicate>, sequence: Vec<Action>) -> Effect {
    Effect::Choose { branches: vec![Branch { conditions, sequence }], default: vec![] }
}
/// The effect inside so many chooses, in branches or in default lists.
pub fn nested(effect: Effect, levels: usize, in_default: bool) -> Effect {
    let mut effect = effect;
    for _ in 0..levels {
        effect = if in_default {
            Effect::Choose { branches: vec![], default: vec![action(effect)] }
        } else {
            branch(vec![], vec![action(effect)])
        };
    }
    effect
}
pub fn empty_choose(in_default: bool) -> Effect {
    if in_default {
        Effect::Choose { branches: vec![], default: vec![] }
    } else {
        branch(vec![], vec![])
    }
}

/// The name of one of the model's entities.
pub fn some_entity(model: &Model, random: &mut Random) -> String {
    let names: Vec<_> = model.scenario.entities.keys().cloned().collect();
    if names.is_empty() { "a".into() } else { random.pick(&names).clone() }
}
/// A state predicate that is valid in the model.
pub fn some_state(model: &Model, random: &mut Random) -> Predicate {
    let entity = some_entity(model, random);
    let value = model.scenario.entities.get(&entity).and_then(|e| e.domain.first().cloned());
    Predicate::State { entity, value: value.unwrap_or("unknown".into()) }
}
/// One of the model's automations; if there is none, one is added.
pub fn some_automation<'a>(model: &'a mut Model, random: &mut Random) -> &'a mut Automation {
    if model.rules.is_empty() {
        let entity = some_entity(model, random);
        model.rules.push(Automation { triggers: vec![trigger(&entity)], ..automation("r") });
    }
    let place = random.below(model.rules.len());
    &mut model.rules[place]
}
/// Puts an effect somewhere into a list of an automation.
pub fn add_effect(model: &mut Model, random: &mut Random, effect: Effect) {
    let levels = *random.pick(&[0, 0, 1, 2]);
    let in_default = random.percent(50);
    let effect = nested(effect, levels, in_default);
    let rule = some_automation(model, random);
    let place = random.below(rule.actions.len() + 1);
    rule.actions.insert(place, action(effect));
}
pub fn add_event(model: &mut Model, input: Input) {
    let at = model.scenario.events.last().map_or(0, |e| e.at);
    model.scenario.events.push(Event { at, input });
}
/// An id that no invariant has.
pub fn free_id(model: &Model, word: &str) -> String {
    let taken = |id: &str| {
        model.scenario.invariants.iter().any(|i| i.id() == id)
            || model.rules.iter().any(|r| r.id == id)
    };
    (0..).map(|n| format!("{word}{n}")).find(|id| !taken(id)).unwrap()
}
pub fn add_invariant(model: &mut Model, random: &mut Random, invariant: Invariant) {
    let place = random.below(model.scenario.invariants.len() + 1);
    model.scenario.invariants.insert(place, invariant);
}
/// The number of actions over all automations, as validation counts them.
pub fn count_actions(actions: &[Action]) -> usize {
    actions
        .iter()
        .map(|a| match &a.effect {
            Effect::Choose { branches, default } => {
                1 + count_actions(default)
                    + branches.iter().map(|b| count_actions(&b.sequence)).sum::<usize>()
            }
            _ => 1,
        })
        .sum()
}
pub fn all_actions(model: &Model) -> usize {
    model.rules.iter().map(|r| count_actions(&r.actions)).sum()
}
/// The number of notes in a model, as the file rules count them.
pub fn count_notes(model: &Model) -> usize {
    fn predicates(ps: &[Predicate]) -> usize {
        ps.iter().filter(|p| matches!(p, Predicate::Unknown { .. })).count()
    }
    fn actions(list: &[Action]) -> usize {
        list.iter()
            .map(|a| match &a.effect {
                Effect::Unknown { .. } => 1,
                Effect::Condition { predicate } => predicates(std::slice::from_ref(predicate)),
                Effect::Wait { trigger, .. } => usize::from(trigger.unknown.is_some()),
                Effect::Choose { branches, default } => {
                    let inner = |b: &Branch| predicates(&b.conditions) + actions(&b.sequence);
                    branches.iter().map(inner).sum::<usize>() + actions(default)
                }
                _ => 0,
            })
            .sum()
    }
    let rules: usize = model
        .rules
        .iter()
        .map(|r| {
            r.unknown.len()
                + r.triggers.iter().filter(|t| t.unknown.is_some()).count()
                + predicates(&r.conditions)
                + actions(&r.actions)
        })
        .sum();
    let invariants: usize = model
        .scenario
        .invariants
        .iter()
        .map(|i| match i {
            Invariant::Never { conditions, .. } => predicates(conditions),
            Invariant::Guard { requires, .. } => predicates(requires),
            Invariant::Transition { .. } => 0,
            Invariant::Response { when, then, .. } => {
                predicates(std::slice::from_ref(when)) + predicates(std::slice::from_ref(then))
            }
        })
        .sum();
    rules + invariants
}
/// Adds notes until the model has so many.
pub fn fill_notes(model: &mut Model, random: &mut Random, wanted: usize) {
    while count_notes(model) < wanted {
        let note = format!("note {}", random.below(20));
        match random.below(4) {
            0 => add_effect(model, random, Effect::Unknown { reason: note }),
            1 => {
                let predicate = Predicate::Unknown { reason: note };
                add_effect(model, random, Effect::Condition { predicate });
            }
            2 => {
                let trigger = Trigger { unknown: Some(note), ..trigger("ghost") };
                add_effect(model, random, wait(trigger, 1));
            }
            _ => some_automation(model, random).unknown.push(note),
        }
    }
}
/// Adds unused texts until the file has exactly so many bytes. A file that is
/// already longer stays as it is.
pub fn pad(model: &mut Model, length: usize) {
    let missing = length.saturating_sub(encode(model).len());
    if missing == 0 {
        return;
    }
    let texts = missing.div_ceil(256);
    for number in 0..texts {
        // The bytes of this text with its length byte.
        let share = missing / texts + usize::from(number < missing % texts);
        let mut text = format!("~{number:03}");
        text.truncate(share - 1);
        let filled = format!("{text:~<width$}", width = share - 1);
        model.texts.push(filled);
    }
}
pub fn pad_full(model: &mut Model) {
    pad(model, LONGEST_FILE);
}

/// Document 01's example for `showcheck`.
pub fn example() -> Model {
    let mut model = base();
    model.scenario.title = "example".into();
    let lamp = model.scenario.entities.remove("a").unwrap();
    model.scenario.entities.insert("lamp".into(), lamp);
    model.scenario.events = vec![Event { at: 5, input: set_input("lamp", "on") }];
    model.scenario.alphabet = vec![set_input("lamp", "on")];
    model.rules = vec![Automation {
        triggers: vec![Trigger { to: Some("on".into()), ..trigger("lamp") }],
        actions: vec![action(Effect::Set { entity: "door".into(), value: "unlocked".into() })],
        ..automation("lampdoor")
    }];
    model
}
