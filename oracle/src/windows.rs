//! Windows put into valid models, near the seconds at which conditions are read, and a start near midnight.
use crate::edit::*;
use crate::plain::added::window_of;
use crate::plain::format::{Decoded, Model, decode};
use crate::plain::reference::*;
use crate::random::Random;

const DAY: u64 = 86_400;
const MOST_CONDITIONS: usize = 32;
const MOST_ACTIONS: usize = 512;

/// Gives the model a start, and windows in conditions of automations, of branches and among actions.
pub fn add(m: &mut Model, random: &mut Random) {
    if random.percent(40) {
        stretch(m, *random.pick(&[60, 600, 1440, 3600]));
    }
    m.zeros_written = random.percent(30);
    some_automation(m, random);
    let moments = moments(m, random);
    if random.percent(90) {
        m.scenario.start = some_start(random.pick(&moments).1, random);
    }
    for _ in 0..*random.pick(&[1, 2, 2, 3, 4, 6]) {
        let (rule, second) = *random.pick(&moments);
        let window = some_window(m.scenario.start, second, random);
        put(m, rule, window, random);
    }
}

/// Puts a window into an automation.
pub fn put_one(m: &mut Model, rule: usize, random: &mut Random) {
    let near = random.below(m.scenario.limits.horizon as usize + 1) as u64;
    let window = some_window(m.scenario.start, near, random);
    put(m, rule, window, random);
}

/// All times so many times as long, up to a day.
fn stretch(m: &mut Model, factor: u64) {
    let longer = |seconds: &mut u64| *seconds = (*seconds * factor).min(DAY);
    let s = &mut m.scenario;
    longer(&mut s.limits.horizon);
    s.events.iter_mut().for_each(|e| longer(&mut e.at));
    s.gaps.iter_mut().for_each(longer);
    s.entities.values_mut().filter_map(|e| e.stale_after.as_mut()).for_each(longer);
    for invariant in &mut s.invariants {
        if let Invariant::Response { within, .. } = invariant {
            longer(within);
        }
    }
    each_list(&mut m.rules, &mut |list| {
        for action in list {
            match &mut action.effect {
                Effect::Delay { seconds } | Effect::Wait { timeout: seconds, .. } => {
                    longer(seconds)
                }
                _ => {}
            }
        }
    });
}

/// Automations and seconds at which they do something, each once, in the simulation and in one with events of a search.
fn moments(m: &Model, random: &mut Random) -> Vec<(usize, u64)> {
    let mut out = vec![];
    for scenario in [&m.scenario, &searched(&m.scenario, random)] {
        let trace = simulate(scenario, &m.rules).map_or(vec![], |simulation| simulation.trace);
        for record in trace {
            let rule = m.rules.iter().position(|r| record.automation.as_ref() == Some(&r.id));
            out.extend(rule.map(|rule| (rule, record.at)));
        }
    }
    if out.is_empty() {
        let rule = random.below(m.rules.len());
        out.extend([(rule, 0), (rule, m.scenario.limits.horizon)]);
    }
    out.sort();
    out.dedup();
    out
}

/// The scenario with events as a search makes them.
fn searched(s: &Scenario, random: &mut Random) -> Scenario {
    let mut out = Scenario { events: vec![], ..s.clone() };
    let mut at = 0;
    for _ in 0..s.limits.search_depth.min(5) {
        if s.alphabet.is_empty() || s.gaps.is_empty() {
            break;
        }
        at += *random.pick(&s.gaps);
        if at <= s.limits.horizon {
            out.events.push(Event { at, input: random.pick(&s.alphabet).clone() });
        }
    }
    out
}

/// Often midnight comes at the given second of the model or beside it, and the week's end with it.
fn some_start(near: u64, random: &mut Random) -> Start {
    let weekday = *random.pick(&[0, 1, 3, 5, 6, 6, 6]);
    let second = match random.below(10) {
        0 => 0,
        1 => DAY - 1,
        2..8 => (2 * DAY + 1 - near - random.below(3) as u64) % DAY,
        _ => random.below(DAY as usize) as u64,
    };
    Start { weekday, second }
}

/// A window one of whose ends lies at the given second of the model or beside it.
fn some_window(start: Start, near: u64, random: &mut Random) -> Predicate {
    let total = start.second + near;
    let today = (start.weekday + total / DAY) % 7;
    let edge = (total + DAY - 1 + random.below(3) as u64) % DAY;
    let length = match random.below(4) {
        0 => random.between(1, DAY as usize - 1) as u64,
        _ => *random.pick(&[1, 2, 3, 5, 60, 3600, 28_800, 43_200, DAY - 1]),
    };
    let other = (edge + if random.percent(50) { length } else { DAY - length }) % DAY;
    let (day, before) = (1 << today, 1 << ((today + 6) % 7));
    let days = match random.below(12) {
        0..4 => 127,
        4..6 => day,
        6..8 => before,
        8 => day | before,
        9 => 127 ^ day,
        10 => 127 ^ before,
        _ => random.between(1, 127) as u8,
    };
    if random.percent(50) { window(days, edge, other) } else { window(days, other, edge) }
}

/// Puts a predicate into an automation's conditions, a branch's, or among its actions.
fn put(m: &mut Model, rule: usize, predicate: Predicate, random: &mut Random) {
    let room = all_actions(m) + 1 < MOST_ACTIONS;
    let notes = count_notes(m);
    let beside = match notes > 0 && notes < 64 && random.percent(10) {
        true => Predicate::Unknown { reason: "beside".into() },
        false => some_state(m, random),
    };
    let rule = std::slice::from_mut(&mut m.rules[rule]);
    match random.below(10) {
        0..2 if room => {
            let mut lists = 0;
            each_list(rule, &mut |_| lists += 1);
            let mut ahead = random.below(lists);
            each_list(rule, &mut |list| {
                if ahead == 0 {
                    let effect = Effect::Condition { predicate: predicate.clone() };
                    list.insert(random.below(list.len() + 1), action(effect));
                }
                ahead = ahead.wrapping_sub(1);
            });
        }
        2..4 if room => wrap(&mut rule[0], predicate, random),
        4..6 => insert(&mut condition_lists(rule), predicate, random),
        _ => {
            if random.percent(20) {
                insert(&mut [&mut rule[0].conditions], beside, random);
            }
            insert(&mut [&mut rule[0].conditions], predicate, random);
        }
    }
}

fn insert(lists: &mut [&mut Vec<Predicate>], predicate: Predicate, random: &mut Random) {
    let chosen = random.below(lists.len());
    if lists[chosen].len() < MOST_CONDITIONS {
        let place = random.below(lists[chosen].len() + 1);
        lists[chosen].insert(place, predicate);
    }
}

/// One of an automation's actions becomes a choose with it in a branch or in the default list.
fn wrap(rule: &mut Automation, predicate: Predicate, random: &mut Random) {
    if rule.actions.is_empty() {
        rule.actions.push(action(branch(vec![predicate], vec![])));
        return;
    }
    let place = random.below(rule.actions.len());
    let old = rule.actions[place].clone();
    if matches!(old.effect, Effect::Choose { .. }) {
        return insert(&mut [&mut rule.conditions], predicate, random);
    }
    let inside = random.percent(70);
    let (sequence, default) = if inside { (vec![old], vec![]) } else { (vec![], vec![old]) };
    let branches = vec![Branch { conditions: vec![predicate], sequence }];
    rule.actions[place] = action(Effect::Choose { branches, default });
}

/// The conditions of automations and of their branches.
fn condition_lists(rules: &mut [Automation]) -> Vec<&mut Vec<Predicate>> {
    fn inner<'a>(list: &'a mut [Action], out: &mut Vec<&'a mut Vec<Predicate>>) {
        for action in list {
            if let Effect::Choose { branches, default } = &mut action.effect {
                for branch in branches {
                    out.push(&mut branch.conditions);
                    inner(&mut branch.sequence, out);
                }
                inner(default, out);
            }
        }
    }
    let mut out = vec![];
    for rule in rules {
        out.push(&mut rule.conditions);
        inner(&mut rule.actions, &mut out);
    }
    out
}

/// Shows all lists of actions, an outer one before those inside.
fn each_list(rules: &mut [Automation], see: &mut dyn FnMut(&mut Vec<Action>)) {
    fn inner(list: &mut Vec<Action>, see: &mut dyn FnMut(&mut Vec<Action>)) {
        see(list);
        for action in list {
            if let Effect::Choose { branches, default } = &mut action.effect {
                for branch in branches {
                    inner(&mut branch.sequence, see);
                }
                inner(default, see);
            }
        }
    }
    for rule in rules {
        inner(&mut rule.actions, see);
    }
}

fn is_window(predicate: &Predicate) -> bool {
    window_of(predicate).is_some()
}
fn is_window_action(action: &Action) -> bool {
    matches!(&action.effect, Effect::Condition { predicate } if is_window(predicate))
}

/// How many windows an automation holds somewhere.
pub fn count(model: &Model) -> usize {
    let mut rules = model.rules.clone();
    let lists = condition_lists(&mut rules);
    let mut found = lists.iter().flat_map(|l| l.iter()).filter(|p| is_window(p)).count();
    each_list(&mut rules, &mut |list| found += list.iter().filter(|a| is_window_action(a)).count());
    found
}

/// Whether a file is read and an automation of it holds a window.
pub fn are_in(bytes: &[u8]) -> bool {
    matches!(decode(bytes), Ok(Decoded { model, .. }) if count(&model) > 0)
}

/// The model without its windows and its start, as a file without new parts has it.
pub fn without(model: &Model) -> Model {
    let mut m = Model { zeros_written: false, ..model.clone() };
    m.scenario.start = Start::default();
    take_out(&mut m.rules);
    m
}

/// Takes all windows out of automations.
pub fn take_out(rules: &mut [Automation]) {
    for list in condition_lists(rules) {
        list.retain(|p| !is_window(p));
    }
    each_list(rules, &mut |list| list.retain(|a| !is_window_action(a)));
}
