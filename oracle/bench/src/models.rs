//! The models of the rows, made without chance.
use crate::edit::*;
use crate::plain::format::{LONGEST_FILE, Model};
use crate::plain::reference::*;

fn name(n: usize) -> String {
    format!("e{n:02}")
}
fn toggle(n: usize) -> Action {
    action(Effect::Toggle { entity: name(n) })
}
fn set(n: usize, value: &str) -> Action {
    action(Effect::Set { entity: name(n), value: value.into() })
}
/// An automation that any change of an entity starts.
fn rule(id: String, mode: Mode, max: usize, by: usize, actions: Vec<Action>) -> Automation {
    Automation { mode, max, triggers: vec![trigger(&name(by))], actions, ..automation(&id) }
}
/// Events that turn an entity on and off in turn.
fn turns(n: usize, count: usize, seconds: u64) -> Vec<Event> {
    (0..count)
        .map(|k| {
            let value = if k % 2 == 0 { "on" } else { "off" };
            Event { at: k as u64 * seconds, input: set_input(&name(n), value) }
        })
        .collect()
}

/// Entities e00 and so on, and invariants of all four kinds that stay true as
/// long as nothing writes `fault` or the last entity.
fn home(entities: usize, invariants: usize) -> Model {
    let mut model = base();
    let s = &mut model.scenario;
    let domain: Vec<String> = ["off", "on", "fault"].map(String::from).to_vec();
    s.entities =
        (0..entities).map(|n| (name(n), Entity { domain: domain.clone(), ..switch() })).collect();
    let quiet = name(entities - 1);
    s.invariants = (0..invariants)
        .map(|n| {
            let (id, entity) = (format!("i{n:02}"), name(n % (entities - 1)));
            match n % 4 {
                0 => Invariant::Never {
                    id,
                    conditions: vec![state(&quiet, "off"), state(&entity, "fault")],
                },
                1 => {
                    let requires = vec![state(&quiet, "off")];
                    Invariant::Guard { id, entity, value: "on".into(), requires }
                }
                2 => Invariant::Transition { id, entity, from: "on".into(), to: "fault".into() },
                _ => {
                    let (when, then) = (state(&entity, "on"), state(&quiet, "off"));
                    Invariant::Response { id, when, then, within: 60 }
                }
            }
        })
        .collect();
    s.events.clear();
    s.alphabet = vec![set_input("e00", "on")];
    s.limits = Limits { horizon: 86_400, max_steps: 10_000, search_depth: 1, max_cases: 10 };
    model.rules.clear();
    model
}

/// 10,000 steps: 99 events of 101 steps each, and a restart.
pub fn steps() -> Model {
    let mut model = home(32, 32);
    for k in 0..11 {
        let (a, b) = (1 + 2 * k, 2 + 2 * k);
        let actions = vec![toggle(a), toggle(b), toggle(a), toggle(b)];
        model.rules.push(rule(format!("r{k:02}"), Mode::Single, 1, 0, actions));
    }
    model.scenario.events = turns(0, 99, 10);
    model.scenario.events.push(Event { at: 990, input: Input::Restart });
    model
}

/// How time grows: eight automations write two entities, `idle` more ones never start, and the steps are limited.
pub fn grown(steps: usize, entities: usize, idle: usize, invariants: usize) -> Model {
    let mut model = home(entities, invariants);
    for k in 0..8 {
        let actions = vec![toggle(1), toggle(2), toggle(1), toggle(2)];
        model.rules.push(rule(format!("r{k:02}"), Mode::Single, 1, 0, actions));
    }
    for k in 0..idle {
        model.rules.push(rule(format!("z{k:02}"), Mode::Single, 1, entities - 1, vec![]));
    }
    model.scenario.events = turns(0, 100, 10);
    model.scenario.limits.max_steps = steps;
    model
}

/// The same with so many windows in each automation's conditions, all of them open.
pub fn windows(steps: usize, each: usize) -> Model {
    let mut model = grown(steps, 8, 0, 4);
    model.scenario.start = Start { weekday: 6, second: 86_000 };
    for rule in &mut model.rules {
        // Past midnight, and within a day from midnight on; the events come in 1,000 seconds.
        rule.conditions = (0..each)
            .map(|n| if n % 2 == 0 { window(64, 79_200, 21_600) } else { window(127, 1_000, 999) })
            .collect();
    }
    model
}

/// The scope's example with a window, open at its event.
pub fn example_at_night() -> Model {
    let mut model = example();
    model.scenario.start = Start { weekday: 0, second: 79_195 };
    model.rules[0].conditions = vec![window(1, 79_200, 21_600)];
    model
}

/// 10,000 records: events that start 32 automations, of which some are started
/// a second time by what the first one does; restarts fill up the rest.
pub fn records(entities: usize, invariants: usize) -> Model {
    let mut model = home(entities, invariants);
    let automations = 32;
    let plan = (1..=20).find_map(|both| {
        let each = 2 + 3 * automations + 3 * both;
        let (events, restarts) = (9998 / each, 9998 % each);
        (events + restarts <= 100).then_some((both, events, restarts))
    });
    let (both, events, restarts) = plan.expect("a plan for 10,000 records");
    for n in 0..automations {
        let actions = if n == 0 { vec![toggle(1)] } else { vec![] };
        let mut rule = rule(format!("r{n:02}"), Mode::Single, 1, 0, actions);
        if n > 0 && n <= both {
            rule.triggers.push(trigger(&name(1)));
        }
        model.rules.push(rule);
    }
    model.scenario.events = turns(0, events, 10);
    for n in 0..restarts {
        let at = (events + n) as u64 * 10;
        model.scenario.events.push(Event { at, input: Input::Restart });
    }
    model
}

/// 8,100 writes whose expiry lies beyond the horizon. Between neighbouring
/// entities the time to expiry differs by so many seconds.
pub fn expiries(difference: u64) -> Model {
    let mut model = home(32, 8);
    for (n, entity) in model.scenario.entities.values_mut().enumerate() {
        // Neighbours in the order of writing are far apart.
        entity.stale_after = Some(80_000 + (n as u64 * 13 % 32) * difference);
    }
    for k in 0..5 {
        let actions = (0..16).map(|n| set(1 + (k * 6 + n) % 30, "on")).collect();
        model.rules.push(rule(format!("r{k:02}"), Mode::Single, 1, 0, actions));
    }
    model.scenario.events = turns(0, 100, 30);
    model.scenario.limits.horizon = 3_000;
    model
}

/// 512 runs at once: half of them wait, half are delayed.
pub fn crowd() -> Model {
    let mut model = home(32, 8);
    for k in 0..32 {
        let actions = match k % 2 {
            0 => vec![action(wait(trigger(&name(1)), 2_000)), toggle(2 + k % 8)],
            _ => vec![action(delay(350)), toggle(10 + k % 8)],
        };
        model.rules.push(rule(format!("r{k:02}"), Mode::Parallel, 16, 0, actions));
    }
    // Sixteen events that start runs, then one that wakes those that wait.
    let mut on = [false; 2];
    for n in 0..68 {
        let which = usize::from(n % 17 == 16);
        on[which] = !on[which];
        let value = if on[which] { "on" } else { "off" };
        let input = set_input(&name(which), value);
        model.scenario.events.push(Event { at: n * 10, input });
    }
    model.scenario.limits.horizon = 5_000;
    model
}

/// 32 parallel automations of at most 16 runs that one entity sets off: after 16 of the
/// 100 events each has its 16, and every further event meets 512 runs.
pub fn parallel() -> Model {
    let mut model = home(32, 8);
    for k in 0..32 {
        let actions = vec![action(delay(350)), toggle(10 + k % 8)];
        model.rules.push(rule(format!("r{k:02}"), Mode::Parallel, 16, 0, actions));
    }
    for n in 0..100 {
        let input = set_input(&name(0), if n % 2 == 0 { "on" } else { "off" });
        model.scenario.events.push(Event { at: n * 2, input });
    }
    model.scenario.limits.horizon = 5_000;
    model
}

/// A search of 2,000 cases; each input starts a run of so many toggles, if any.
pub fn search(toggles: usize) -> Model {
    let mut model = home(8, 4);
    let s = &mut model.scenario;
    s.alphabet =
        (0..12).map(|n| set_input(&name(n / 2), if n % 2 == 0 { "on" } else { "off" })).collect();
    s.gaps = vec![5];
    s.limits = Limits { horizon: 100, max_steps: 1_000, search_depth: 5, max_cases: 2_000 };
    if toggles > 0 {
        for k in 0..6 {
            let actions = (0..toggles).map(|_| toggle(6)).collect();
            model.rules.push(rule(format!("r{k:02}"), Mode::Single, 1, k, actions));
        }
    }
    model
}

/// 100 events of which only the first is needed; each starts a run of so many
/// toggles, if any.
pub fn reduction(toggles: usize) -> Model {
    let mut model = home(8, 4);
    let needed = Invariant::Never { id: "needed".into(), conditions: vec![state("e05", "on")] };
    model.scenario.invariants.push(needed);
    model.scenario.events = turns(0, 99, 10);
    let first = Event { at: 0, input: set_input("e05", "on") };
    model.scenario.events.insert(0, first);
    if toggles > 0 {
        let actions = (0..toggles).map(|_| toggle(6)).collect();
        model.rules.push(rule("r00".into(), Mode::Single, 1, 0, actions));
    }
    model
}

/// So many automations that toggle one entity so many times each.
pub fn toggles(automations: usize, each: usize) -> Model {
    let mut model = home(2, 1);
    for k in 0..automations {
        let actions =
            (0..each).map(|n| Action { source: source(10 * k + 1, n + 1), ..toggle(0) }).collect();
        model.rules.push(rule(format!("r{k:02}"), Mode::Single, 1, 0, actions));
    }
    model
}

/// 24 automations with conditions, chooses, delays and writes of 30 entities.
pub fn mixed() -> Model {
    let mut model = home(32, 16);
    for (n, entity) in model.scenario.entities.values_mut().enumerate() {
        entity.tier = if n % 3 == 0 { Tier::AccessSafety } else { Tier::Comfort };
        entity.stale_after = (n % 5 == 0).then_some(600);
    }
    for k in 0..24 {
        let any = |n: usize| (k * 7 + n * 5) % 30;
        let inner = vec![set(any(1), "on"), set(any(2), "off")];
        let conditions = vec![state(&name(any(3)), "on"), state(&name(any(4)), "off")];
        let mut actions = vec![action(branch(conditions, inner)), action(delay(5))];
        actions.extend((0..12).map(|n| set(any(5 + n), if n % 2 == 0 { "on" } else { "off" })));
        let mut rule = rule(format!("r{k:02}"), Mode::Queued, 4, any(0), actions);
        rule.conditions = vec![state(&name(any(6)), "on"), state(&name(any(7)), "off")];
        model.rules.push(rule);
    }
    model
}

/// 32,768 bytes, most of them in entities, invariants and automations.
pub fn full() -> Model {
    let mut model = home(32, 32);
    for (k, entity) in model.scenario.entities.values_mut().enumerate() {
        entity.domain.extend((0..13).map(|n| format!("value {:02}", (k + n) % 20)));
    }
    for (n, invariant) in model.scenario.invariants.iter_mut().enumerate() {
        if let Invariant::Never { conditions, .. } | Invariant::Guard { requires: conditions, .. } =
            invariant
        {
            conditions.extend((0..30).map(|k| state(&name((n + k) % 32), "off")));
        }
    }
    model.scenario.events = turns(0, 100, 10);
    for k in 0..32 {
        let actions = (0..16).map(|n| set((k + n) % 32, "on")).collect();
        let mut rule = rule(format!("r{k:02}"), Mode::Parallel, 16, k, actions);
        rule.triggers = (0..16).map(|n| trigger(&name((k + n) % 32))).collect();
        rule.conditions = (0..32).map(|n| state(&name((k + n) % 32), "on")).collect();
        model.rules.push(rule);
    }
    pad(&mut model, LONGEST_FILE);
    model
}

/// The scope's example with unused texts up to 32,768 bytes.
pub fn padded_example() -> Model {
    let mut model = example();
    pad(&mut model, LONGEST_FILE);
    model
}
