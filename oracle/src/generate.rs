//! The seeded generator: which classes of files each entry point gets.
use crate::damage::{DAMAGES, damaged, damaged_windows, wrong_version_and_broken};
use crate::edit::*;
use crate::faults::{FAULTS, WINDOW_FAULTS};
use crate::limits::{LIMITS, WINDOW_LIMITS};
use crate::models::{Style, model};
use crate::plain::format::{LONGEST_FILE, Model, encode};
use crate::plain::reference::*;
use crate::random::Random;
use crate::windows;

/// So many of a hundred models get windows, unless another number is asked for.
pub const WINDOWS: usize = 50;

/// The classes of files.
pub const CLASSES: [&str; 5] = ["valid", "at limits", "invalid", "damaged", "large"];

/// File number `index` of a seed, for an entry point. So many of a hundred models get windows; with 0 the file is the one
/// that there was before windows.
pub fn file(entry: &str, seed: u64, index: u64, windows: usize) -> Vec<u8> {
    classed_file(entry, seed, index, windows).0
}

/// The same with the place of its class in `CLASSES`.
pub fn classed_file(entry: &str, seed: u64, index: u64, windows: usize) -> (Vec<u8>, usize) {
    let random = &mut Random::for_file(seed, entry, index);
    // Out of 1000 files: invalid, damaged, near a limit, many records.
    let (invalid, damages, limits, storms) = match entry {
        "validate" => (300, 250, 150, 0),
        "simulate" | "check" | "fullcheck" => (30, 20, 40, 9),
        "verify" => (30, 20, 15, 1),
        "minimize" => (30, 20, 20, 1),
        "lint" => (40, 30, 60, 4),
        _ => (40, 30, 60, 0),
    };
    let class = random.below(1000);
    // Decided before the rest, so that the models with windows are a fixed share.
    let windows = windows > 0 && random.percent(windows);
    if class < invalid {
        (invalid_file(entry, windows, random), 2)
    } else if class < invalid + damages {
        (damaged_file(entry, windows, random), 3)
    } else if class < invalid + damages + limits {
        (limit_file(entry, windows, random), 1)
    } else if class < invalid + damages + limits + storms {
        let found = large_simulation(entry, random);
        let mut found = with_windows(entry, windows, found, random);
        if random.percent(40) {
            meet_steps(&mut found, random);
        }
        (encode(&found), 4)
    } else {
        (encode(&valid_model(entry, windows, random)), 0)
    }
}

/// A valid model, with windows or without.
pub fn valid_model(entry: &str, windows: bool, random: &mut Random) -> Model {
    let simulated = matches!(entry, "simulate" | "check" | "fullcheck");
    let mut found = match (windows, entry) {
        (true, "verify" | "minimize") if random.percent(50) => relay(random),
        _ => valid(entry, random),
    };
    if simulated && random.percent(3) {
        return with_windows(entry, windows, two_waits(random), random);
    }
    found = with_windows(entry, windows, found, random);
    if simulated && random.percent(8) {
        meet_steps(&mut found, random);
    }
    if entry == "verify" && random.percent(10) {
        meet_cases(&mut found, random);
    }
    found
}

/// The model with windows. For minimize mostly one that still has a violation: up to four are tried.
pub fn with_windows(entry: &str, windows: bool, found: Model, random: &mut Random) -> Model {
    if !windows {
        return found;
    }
    let mut tried = found.clone();
    for _ in 0..4 {
        tried = found.clone();
        windows::add(&mut tried, random);
        let is_violation = |c: Check| c.status == "violation";
        if entry != "minimize" || check(&tried.scenario, &tried.rules).is_ok_and(is_violation) {
            break;
        }
    }
    tried
}

/// Allows just as many steps as the simulation takes, or one more or less.
fn meet_steps(found: &mut Model, random: &mut Random) {
    if let Ok(simulation) = simulate(&found.scenario, &found.rules) {
        let wanted = simulation.processed_steps + random.below(3);
        found.scenario.limits.max_steps = wanted.saturating_sub(1).clamp(1, 10_000);
    }
}

/// Allows just as many cases as the search takes, or one more or less.
fn meet_cases(found: &mut Model, random: &mut Random) {
    if let Ok(verification) = verify(&found.scenario, &found.rules) {
        let wanted = verification.cases + random.below(3);
        found.scenario.limits.max_cases = wanted.saturating_sub(1).clamp(1, 2000);
    }
}

/// A random valid model of the kind that the entry point needs.
pub fn valid(entry: &str, random: &mut Random) -> Model {
    match entry {
        "validate" => {
            let style = if random.percent(60) { Style::small() } else { Style::rich() };
            model(random, &style)
        }
        "unsupported" => {
            let notes = *random.pick(&[0, 5, 15, 30]);
            model(random, &Style { notes, ..Style::rich() })
        }
        "verify" if random.percent(35) => hunt(random),
        "minimize" if random.percent(35) => hunt(random),
        "verify" => {
            let mut style =
                Style { search: true, invariants: (1, 3), events: (0, 2), ..Style::rich() };
            style.automations = (0, 4);
            if random.percent(2) {
                style.invariants = (0, 0);
            }
            if random.percent(70) {
                style = style.clean();
            }
            // Mostly models without a violation before the first event: up to four are tried.
            let mut found = model(random, &style);
            for _ in 0..*random.pick(&[0, 3, 3, 3, 3]) {
                let s = Scenario { events: vec![], ..found.scenario.clone() };
                match check(&s, &found.rules) {
                    Ok(c) if c.status == "violation" => found = model(random, &style),
                    _ => break,
                }
            }
            found
        }
        "minimize" => {
            let most = *random.pick(&[3, 8, 14, 14, 40]);
            let mut style = Style { invariants: (1, 4), events: (0, most), ..Style::rich() };
            if random.percent(75) {
                style = style.clean();
            }
            // Mostly models with a violation: up to five are tried.
            let mut found = model(random, &style);
            for _ in 0..4 {
                match check(&found.scenario, &found.rules) {
                    Ok(c) if c.status != "violation" => found = model(random, &style),
                    _ => break,
                }
            }
            found
        }
        "lint" | "cone" => {
            let mut style = Style { notes: *random.pick(&[0, 3, 10]), ..Style::rich() };
            style.automations = (0, 9);
            if random.percent(15) {
                style.entities = (10, 20);
                style.actions = (0, 14);
                style.choose_depth = 1;
            }
            model(random, &style)
        }
        _ => {
            let mut style = if random.percent(20) { Style::small() } else { Style::rich() };
            if random.percent(45) {
                style = style.clean();
            }
            if random.percent(8) {
                style.notes = 15;
            }
            if random.percent(15) {
                // Few events that start much: the queue grows after the start.
                style.events = (1, 2);
                style.automations = (3, 9);
                style.stale = 60;
            }
            style.long_names = random.percent(3);
            model(random, &style)
        }
    }
}

/// A valid model with some parts at their limits.
fn limit_file(entry: &str, windows: bool, random: &mut Random) -> Vec<u8> {
    let mut style = Style::rich();
    style.long_names = random.percent(30);
    if entry == "verify" || entry == "minimize" {
        style = style.clean();
    }
    let mut found = if random.percent(30) { base() } else { model(random, &style) };
    for _ in 0..random.between(1, 6) {
        let (_, change) = random.pick(&LIMITS);
        change(&mut found, random);
    }
    if windows {
        found = with_windows(entry, true, found, random);
        let (_, change) = random.pick(&WINDOW_LIMITS);
        change(&mut found, random);
    }
    if entry == "verify" && random.percent(80) {
        // Keeps the search short.
        found.scenario.limits.max_cases = found.scenario.limits.max_cases.min(60);
        found.scenario.limits.max_steps = found.scenario.limits.max_steps.min(500);
    }
    match random.below(12) {
        0 => pad_full(&mut found),
        1 => pad(&mut found, LONGEST_FILE - random.below(4)),
        2 => pad(&mut found, LONGEST_FILE - 40),
        _ => {}
    }
    encode(&found)
}

/// One fault, often a second one that comes earlier or later.
fn invalid_file(entry: &str, windows: bool, random: &mut Random) -> Vec<u8> {
    let mut found = if random.percent(40) { base() } else { valid(entry, random) };
    if windows {
        return invalid_windows(entry, found, random);
    }
    // First a refusal number, then one of its variants, so that all are met.
    let number = random.between(1, 19) as u8;
    let variants: Vec<_> = FAULTS.iter().filter(|(n, _, _)| *n == number).collect();
    let (_, _, change) = random.pick(&variants);
    change(&mut found, random);
    while random.percent(40) {
        let (_, _, change) = random.pick(&FAULTS);
        change(&mut found, random);
    }
    encode(&found)
}

/// A fault of windows, of the start, or another one in a model with windows; often further ones.
fn invalid_windows(entry: &str, found: Model, random: &mut Random) -> Vec<u8> {
    let mut found = with_windows(entry, random.percent(70), found, random);
    let numbers = [3, 50, 50, 51, 51];
    let number = if random.percent(80) { *random.pick(&numbers) } else { 0 };
    let mut variants: Vec<_> = WINDOW_FAULTS.iter().filter(|(n, _, _)| *n == number).collect();
    if variants.is_empty() {
        variants = WINDOW_FAULTS.iter().chain(FAULTS).collect();
    }
    (random.pick(&variants).2)(&mut found, random);
    while random.percent(50) {
        let further = if random.percent(40) { WINDOW_FAULTS } else { FAULTS };
        (random.pick(further).2)(&mut found, random);
    }
    encode(&found)
}

fn damaged_file(entry: &str, windows: bool, random: &mut Random) -> Vec<u8> {
    let style = if random.percent(70) { Style::small() } else { Style::rich() };
    let mut found = match random.below(10) {
        0..2 => base(),
        2..8 => model(random, &style),
        _ => valid(entry, random),
    };
    // Windows come first: they are put into valid models only.
    found = with_windows(entry, windows, found, random);
    if random.percent(10) {
        let (_, _, change) = random.pick(&FAULTS);
        change(&mut found, random);
    }
    if windows && random.percent(50) {
        return damaged_windows(&found, random);
    }
    if random.percent(4) {
        return wrong_version_and_broken(&found, random);
    }
    let kind = random.below(DAMAGES.len());
    damaged(&found, kind, random)
}

/// A model whose violation needs several events: all of some switches are on.
fn hunt(random: &mut Random) -> Model {
    let mut found = base();
    let s = &mut found.scenario;
    let switches = *random.pick(&[1, 2, 2, 3, 3, 4, 12]);
    let names: Vec<String> = (0..switches).map(|n| format!("s{n}")).collect();
    for name in &names {
        s.entities.insert(name.clone(), switch());
    }
    let all_on = names.iter().map(|name| state(name, "on")).collect();
    s.invariants.push(Invariant::Never { id: "all".into(), conditions: all_on });
    if random.percent(50) {
        s.invariants.reverse();
    }
    s.limits.horizon = *random.pick(&[10, 20, 60]);
    s.limits.search_depth = switches.min(if switches > 2 { 3 } else { 5 });
    s.limits.max_cases = *random.pick(&[2000, 2000, 200, 30]);
    s.gaps = random.pick(&[vec![1], vec![0], vec![5, 0], vec![10], vec![2, 3]]).clone();
    s.alphabet = names.iter().take(3).map(|name| set_input(name, "on")).collect();
    if random.percent(40) {
        s.alphabet.insert(0, Input::Restart);
    }
    // The needed events, others between them.
    s.events.clear();
    let more = *random.pick(&[0, 2, 5, 10, 30, 80]);
    let mut inputs: Vec<_> = names.iter().map(|name| set_input(name, "on")).collect();
    for _ in 0..more {
        let value = *random.pick(&["on", "on", "off"]);
        let name = random.pick(&names).clone();
        let other = [set_input("a", value), set_input(&name, "on"), Input::Reload];
        let place = random.below(inputs.len() + 1);
        inputs.insert(place, random.pick(&other).clone());
    }
    for input in inputs {
        add_event(&mut found, input);
    }
    for _ in 0..random.below(3) {
        // An automation that does one of the switches itself, or undoes it.
        let (entity, value) = (random.pick(&names).clone(), random.pick(&["on", "on", "off"]));
        let effect = Effect::Set { entity, value: value.to_string() };
        let pause = action(delay(random.below(3) as u64));
        let id = free_id(&found, "h");
        let from = some_entity(&found, random);
        let actions = vec![pause, action(effect)];
        found.rules.push(Automation { triggers: vec![trigger(&from)], actions, ..automation(&id) });
    }
    found
}

/// Automations that each turn on a switch if they may; when all are on, an invariant fails. With windows in them, the
/// violation depends on the seconds of the events.
fn relay(random: &mut Random) -> Model {
    let mut found = base();
    let s = &mut found.scenario;
    let names: Vec<String> = (0..random.between(1, 3)).map(|n| format!("s{n}")).collect();
    let all_on = names.iter().map(|name| state(name, "on")).collect();
    s.invariants = vec![Invariant::Never { id: "all".into(), conditions: all_on }];
    s.entities.extend(names.iter().map(|name| (name.clone(), switch())));
    s.alphabet = vec![set_input("a", "on"), set_input("a", "off")];
    s.gaps = random.pick(&[vec![1], vec![5, 2], vec![3, 10], vec![10]]).clone();
    s.limits =
        Limits { horizon: 60, max_steps: 300, search_depth: random.between(1, 4), max_cases: 200 };
    s.events.clear();
    let mut at = 0;
    for n in 0..random.between(1, 9) {
        at += *random.pick(&s.gaps);
        let value = if n % 2 == 0 { "on" } else { "off" };
        s.events.push(Event { at: at.min(60), input: set_input("a", value) });
    }
    found.rules.clear();
    for name in names {
        let to = random.pick(&[None, Some("on".to_string()), Some("off".to_string())]).clone();
        let set = Effect::Set { entity: name.clone(), value: "on".into() };
        let mut actions = vec![action(set)];
        if random.percent(60) {
            actions.insert(0, action(delay(random.below(12) as u64)));
        }
        let mode = random.pick(&[Mode::Single, Mode::Restart, Mode::Parallel]).clone();
        let triggers = vec![Trigger { to, ..trigger("a") }];
        found.rules.push(Automation {
            mode,
            max: 2,
            triggers,
            actions,
            ..automation(&format!("r{name}"))
        });
    }
    found
}

/// A model with many records, steps or runs; for lint one with many findings.
fn large_simulation(entry: &str, random: &mut Random) -> Model {
    if entry == "lint" {
        return many_writes(random);
    }
    match random.below(4) {
        1.. if entry == "verify" => storm(entry, random),
        0 => storm(entry, random),
        1 => crowd(random),
        _ => brim(random),
    }
}

/// Automations that start each other without end: reaches 10,000 records or steps.
fn storm(entry: &str, random: &mut Random) -> Model {
    let mut found = base();
    found.rules.clear();
    let s = &mut found.scenario;
    s.limits.max_steps = *random.pick(&[3000, 10_000, 10_000]);
    if entry == "verify" {
        // Up to 63 cases: the steps of all cases can pass 200,000.
        s.limits.search_depth = 5;
        s.limits.max_cases = 100;
        s.alphabet = vec![set_input("a", "on"); 2];
    }
    let most = if entry == "verify" { 5 } else { 32 };
    for n in 0..random.between(2, most) {
        let modes = [Mode::Parallel, Mode::Parallel, Mode::Queued, Mode::Restart];
        let effect = match random.below(3) {
            0 => delay(random.below(2) as u64),
            _ => Effect::Toggle { entity: "a".into() },
        };
        found.rules.push(Automation {
            mode: random.pick(&modes).clone(),
            max: *random.pick(&[1, 4, 16]),
            triggers: vec![trigger("a")],
            actions: vec![action(effect)],
            ..automation(&format!("s{n}"))
        });
    }
    found
}

/// A simulation that comes to an end at 9,999, 10,000 or 10,001 records: each
/// event gives the same number of records, and restarts fill up the rest.
fn brim(random: &mut Random) -> Model {
    // Numbers of automations, of those that b starts too, of events, of restarts.
    let mut plans = vec![];
    for automations in 25..=32 {
        for both in 1..=20 {
            // The event's, three for each automation, the toggle's, three for each that b starts.
            let records = 2 + 3 * automations + 3 * both;
            let events = 9998 / records;
            let restarts = 9998 - events * records;
            if events + restarts + 2 <= 100 {
                plans.push((automations, both, events, restarts));
            }
        }
    }
    let (automations, both, events, restarts) = *random.pick(&plans);
    let restarts = restarts + random.below(3);
    let mut found = base();
    // Sometimes work beyond the horizon is left.
    let stale_after = random.percent(60).then_some(1000);
    found.scenario.entities.insert("b".into(), Entity { stale_after, ..switch() });
    found.rules.clear();
    for n in 0..automations {
        let mut triggers = vec![trigger("a")];
        let mut actions = vec![];
        if n == 0 {
            actions.push(action(Effect::Toggle { entity: "b".into() }));
        } else if n <= both {
            triggers.push(trigger("b"));
        }
        found.rules.push(Automation { triggers, actions, ..automation(&format!("s{n}")) });
    }
    found.scenario.events.clear();
    for n in 0..events + restarts {
        let value = if n % 2 == 0 { "on" } else { "off" };
        let input = if n < events { set_input("a", value) } else { Input::Restart };
        found.scenario.events.push(Event { at: n as u64, input });
    }
    found.scenario.limits = Limits { horizon: 100, max_steps: 10_000, ..found.scenario.limits };
    found
}

/// Up to 512 runs at once, which wait and are then woken together.
fn crowd(random: &mut Random) -> Model {
    let mut found = base();
    found.scenario.entities.insert("b".into(), switch());
    found.rules.clear();
    let modes = [Mode::Parallel, Mode::Parallel, Mode::Queued];
    for n in 0..random.between(10, 32) {
        let mode = random.pick(&modes).clone();
        let actions = vec![action(wait(trigger("b"), random.between(10, 40) as u64))];
        let triggers = vec![trigger("a")];
        found.rules.push(Automation {
            mode,
            max: 16,
            triggers,
            actions,
            ..automation(&format!("c{n}"))
        });
    }
    found.scenario.events.clear();
    for n in 0..random.between(10, 20) {
        let value = if n % 2 == 0 { "on" } else { "off" };
        found.scenario.events.push(Event { at: n as u64, input: set_input("a", value) });
    }
    if random.percent(60) {
        let input = if random.percent(80) { set_input("b", "on") } else { Input::Restart };
        found.scenario.events.push(Event { at: 25, input });
    }
    found.scenario.limits = Limits { horizon: 90, max_steps: 10_000, ..found.scenario.limits };
    found
}

/// Up to 512 writes of few entities: many findings and interactions.
fn many_writes(random: &mut Random) -> Model {
    let mut found = base();
    found.rules.clear();
    let automations = random.between(2, 32);
    let writes = *random.pick(&[60, 130, 250, 512]);
    let toggles = *random.pick(&[5, 50, 100]);
    for n in 0..automations {
        let share = writes / automations + usize::from(n < writes % automations);
        let mut actions = vec![];
        for _ in 0..share {
            let value = random.pick(&["on", "off"]).to_string();
            let effect = match random.percent(toggles) {
                true => Effect::Toggle { entity: "a".into() },
                false => Effect::Set { entity: "a".into(), value },
            };
            actions.push(Action { source: source(random.below(50), n), effect });
        }
        let to = random.pick(&[None, Some("on".to_string()), Some("off".to_string())]).clone();
        let triggers = vec![Trigger { to, ..trigger("a") }];
        found.rules.push(Automation { triggers, actions, ..automation(&format!("w{n}")) });
    }
    found
}

/// A run waits twice, often up to the same second, so that the first wait's
/// timeout can end the second; another run acts in that second.
fn two_waits(random: &mut Random) -> Model {
    let mut found = base();
    found.scenario.entities.insert("b".into(), switch());
    found.scenario.entities.insert("c".into(), switch());
    let deadline = random.between(2, 8);
    let woken = random.between(1, deadline);
    let other = random.between(0, woken);
    let off_by = *random.pick(&[0, 0, 0, 1]);
    let waits = [(deadline, random.percent(50)), (deadline - woken + off_by, random.percent(50))];
    let mut actions: Vec<_> = waits
        .map(|(timeout, continue_on_timeout)| {
            let timeout = timeout as u64;
            action(Effect::Wait { trigger: trigger("b"), timeout, continue_on_timeout })
        })
        .into();
    actions.push(action(Effect::Toggle { entity: "c".into() }));
    let mode = random.pick(&[Mode::Single, Mode::Queued, Mode::Parallel]).clone();
    found.rules = vec![Automation { mode, max: 2, actions, ..automation("r") }];
    let written = random.pick(&["b", "c", "a"]).to_string();
    let pause = action(delay((deadline - other) as u64));
    found.rules.push(Automation {
        triggers: vec![trigger("c")],
        actions: vec![pause, action(Effect::Toggle { entity: written })],
        ..automation("q")
    });
    let mut inputs = vec![(0, "a", "on"), (other, "c", "on"), (woken, "b", "on")];
    if random.percent(30) {
        inputs.push((deadline, *random.pick(&["b", "c"]), "off"));
    }
    found.scenario.events = inputs
        .into_iter()
        .map(|(at, entity, value)| Event { at: at as u64, input: set_input(entity, value) })
        .collect();
    found
}
