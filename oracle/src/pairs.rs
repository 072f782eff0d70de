//! Pairs of models that are alike in invariants, horizon, start and cone: the claim about what lies outside a cone, tried on
//! the reference. The second model is the first with other things outside: automations taken out, put in or changed, entities
//! put in or changed, windows put in or taken out, events taken out or put in, other limits of steps, another title.
use crate::edit::{action, automation, delay, set_input, source, switch, trigger};
use crate::generate;
use crate::models::{Style, model};
use crate::plain::cone::Cone;
use crate::plain::cone::named_in;
use crate::plain::format::{Model, encode};
use crate::plain::reference::*;
use crate::random::Random;
use crate::windows;
use std::collections::BTreeSet;

#[derive(Default)]
struct Counts {
    alike: u64,
    different: u64,
    /// With a window in the cone, and with other windows outside.
    windows_inside: u64,
    windows_outside: u64,
    checks: u64,
    failing: u64,
    searches: u64,
    witnesses: u64,
    differed: u64,
}

/// The clauses of the cone, and the equal start; one of them may be left out, to see what breaks.
pub const CLAUSES: [&str; 9] = [
    "start",
    "triggers",
    "conditions",
    "action-conditions",
    "choose-conditions",
    "waits",
    "noted-waits",
    "toggles",
    "toggle-writes",
];

/// Tries so many pairs and says whether none differed.
pub fn pairs(seed: u64, count: u64, left_out: &str, folder: Option<&str>) -> bool {
    let mut counts = Counts::default();
    for index in 0..count {
        let random = &mut Random::for_file(seed, "pairs", index);
        let entry = if random.percent(30) { "verify" } else { "minimize" };
        let first = first_model(entry, random);
        let inside = cone_without(&first, left_out);
        let mut second = other_outside(&first, &inside, random);
        if left_out == "start" {
            second.scenario.start = Start { weekday: 2, second: random.below(86_400) as u64 };
        }
        if !alike(&first, &second, left_out) {
            continue;
        }
        counts.alike += 1;
        counts.different += u64::from(different(&first, &second));
        counts.windows_inside += u64::from(windows_inside(&first, &inside) > 0);
        counts.windows_outside += u64::from(windows::count(&first) != windows::count(&second));
        let same = same_checks(&first, &second, &mut counts)
            && (entry != "verify" || same_searches(&first, &second, &mut counts));
        if !same {
            counts.differed += 1;
            if counts.differed == 1 {
                println!("pair {index} of seed {seed} differs");
                keep(folder, &first, &second);
            }
        }
    }
    println!("pairs {count} seed {seed}");
    print(&counts);
    counts.differed == 0
}

fn first_model(entry: &str, random: &mut Random) -> Model {
    let (windows, valid) = (random.percent(60), random.percent(50));
    match valid {
        true => generate::valid_model(entry, windows, random),
        false => generate::with_windows(entry, windows, wide(random), random),
    }
}

fn print(counts: &Counts) {
    println!(
        "alike {}, with other automations, entities or events outside {}",
        counts.alike, counts.different
    );
    println!(
        "with a window inside the cone {}, with another number of windows outside {}",
        counts.windows_inside, counts.windows_outside
    );
    println!("both checks complete {}, with a violation {}", counts.checks, counts.failing);
    println!(
        "both searches without reasons {}, with a witness {}",
        counts.searches, counts.witnesses
    );
    println!("differed {}", counts.differed);
}

/// How many windows the automations of the cone hold.
fn windows_inside(m: &Model, inside: &Cone) -> usize {
    let rules = inside.automations.iter().map(|place| m.rules[*place].clone()).collect();
    windows::count(&Model { rules, ..m.clone() })
}

/// Many entities, few of them named in invariants, and no notes: much may lie outside.
fn wide(random: &mut Random) -> Model {
    let mut style = Style { invariants: (1, 2), events: (1, 8), ..Style::rich() }.clean();
    style.entities = (4, 9);
    style.automations = (2, 7);
    style.actions = (1, 4);
    model(random, &style)
}

fn keep(folder: Option<&str>, first: &Model, second: &Model) {
    if let Some(folder) = folder {
        std::fs::create_dir_all(folder).expect("making the folder");
        std::fs::write(format!("{folder}/first.bin"), encode(first)).expect("writing");
        std::fs::write(format!("{folder}/second.bin"), encode(second)).expect("writing");
    }
}

// ---- the cone, from the scope's words, without a clause

fn cone_without(m: &Model, left_out: &str) -> Cone {
    let mut entities: BTreeSet<String> = BTreeSet::new();
    for invariant in &m.scenario.invariants {
        named_in(invariant, &mut entities);
    }
    let mut automations = BTreeSet::new();
    loop {
        let size = (entities.len(), automations.len());
        for (place, rule) in m.rules.iter().enumerate() {
            let mut found = Touched::default();
            touched(rule, left_out, &mut found);
            if found.writes.iter().any(|entity| entities.contains(entity)) {
                automations.insert(place);
                entities.extend(found.needs);
            }
        }
        if size == (entities.len(), automations.len()) {
            return Cone { entities, automations };
        }
    }
}

#[derive(Default)]
struct Touched {
    writes: BTreeSet<String>,
    needs: BTreeSet<String>,
}

fn touched(rule: &Automation, left_out: &str, out: &mut Touched) {
    if left_out != "triggers" {
        let supported = rule.triggers.iter().filter(|t| t.unknown.is_none());
        out.needs.extend(supported.map(|t| t.entity.clone()));
    }
    if left_out != "conditions" {
        predicates(&rule.conditions, &mut out.needs);
    }
    actions(&rule.actions, left_out, out);
}

fn actions(list: &[Action], left_out: &str, out: &mut Touched) {
    for action in list {
        match &action.effect {
            Effect::Set { entity, .. } => {
                out.writes.insert(entity.clone());
            }
            Effect::Toggle { entity } => {
                if left_out != "toggle-writes" {
                    out.writes.insert(entity.clone());
                }
                if left_out != "toggles" {
                    out.needs.insert(entity.clone());
                }
            }
            Effect::Condition { predicate } => {
                if left_out != "action-conditions" {
                    predicates(std::slice::from_ref(predicate), &mut out.needs);
                }
            }
            Effect::Choose { branches, default } => {
                for branch in branches {
                    if left_out != "choose-conditions" {
                        predicates(&branch.conditions, &mut out.needs);
                    }
                    actions(&branch.sequence, left_out, out);
                }
                actions(default, left_out, out);
            }
            Effect::Wait { trigger, .. } => {
                let clause = if trigger.unknown.is_some() { "noted-waits" } else { "waits" };
                if left_out != clause {
                    out.needs.insert(trigger.entity.clone());
                }
            }
            _ => {}
        }
    }
}

fn predicates(list: &[Predicate], out: &mut BTreeSet<String>) {
    for predicate in list {
        if let Predicate::State { entity, .. } = predicate {
            out.insert(entity.clone());
        }
    }
}

// ---- the second model

fn other_outside(first: &Model, inside: &Cone, random: &mut Random) -> Model {
    let mut m = first.clone();
    m.scenario.title = format!("{} {}", random.pick(&["a", "other", "z"]), m.scenario.title);
    m.scenario.limits.max_steps = (m.scenario.limits.max_steps + random.below(400)).min(10_000);
    m.zeros_written = random.percent(30);
    take_out(&mut m, first, inside, random);
    change_entities(&mut m, inside, random);
    put_in(&mut m, inside, random);
    let ids: BTreeSet<_> = inside.automations.iter().map(|place| &first.rules[*place].id).collect();
    for place in 0..m.rules.len() {
        if ids.contains(&m.rules[place].id) {
            continue;
        }
        match random.below(10) {
            0..3 => windows::put_one(&mut m, place, random),
            3..5 => windows::take_out(std::slice::from_mut(&mut m.rules[place])),
            _ => {}
        }
    }
    m
}

fn take_out(m: &mut Model, first: &Model, inside: &Cone, random: &mut Random) {
    let mut kept = vec![];
    for (place, rule) in first.rules.iter().enumerate() {
        if inside.automations.contains(&place) || random.percent(50) {
            kept.push(rule.clone());
        }
    }
    m.rules = kept;
    m.scenario.events.retain(|event| match &event.input {
        Input::Set { entity, .. } => inside.entities.contains(entity) || random.percent(50),
        _ => true,
    });
}

fn change_entities(m: &mut Model, inside: &Cone, random: &mut Random) {
    for (name, entity) in m.scenario.entities.iter_mut() {
        if !inside.entities.contains(name) && random.percent(50) {
            entity.initial = random.pick(&entity.domain).clone();
            entity.stale_after = *random.pick(&[None, Some(0), Some(3)]);
        }
    }
}

/// New entities outside, automations that write only outside, and events on the new entities.
fn put_in(m: &mut Model, inside: &Cone, random: &mut Random) {
    let mut outside: Vec<String> = vec![];
    for name in ["Zlamp", "blind", "zblind"] {
        if !m.scenario.entities.contains_key(name) && random.percent(60) {
            m.scenario.entities.insert(name.into(), switch());
            outside.push(name.into());
        }
    }
    if outside.is_empty() {
        return;
    }
    let names: Vec<String> = m.scenario.entities.keys().cloned().collect();
    for id in ["Anew", "new", "znew"] {
        if m.rules.iter().all(|r| r.id != id) && random.percent(60) {
            let rule = new_rule(id, &names, &outside, random);
            let place = random.below(m.rules.len() + 1);
            m.rules.insert(place, rule);
        }
    }
    for _ in 0..random.below(4) {
        let at = random.below(m.scenario.limits.horizon as usize + 1) as u64;
        let value = *random.pick(&["on", "off", "unknown"]);
        let event = Event { at, input: set_input(random.pick(&outside).as_str(), value) };
        let first_later = m.scenario.events.iter().position(|e| e.at > at);
        let place = first_later.unwrap_or(m.scenario.events.len());
        m.scenario.events.insert(place, event);
    }
    assert!(outside.iter().all(|name| !inside.entities.contains(name)));
}

/// Reads anything, writes only what is outside.
fn new_rule(id: &str, names: &[String], outside: &[String], random: &mut Random) -> Automation {
    let mut actions = vec![];
    for _ in 0..random.between(1, 3) {
        let entity = random.pick(outside).clone();
        let value = random.pick(&["on", "off"]).to_string();
        let effect = match random.below(4) {
            0 => Effect::Toggle { entity },
            1 => delay(random.below(5) as u64),
            _ => Effect::Set { entity, value },
        };
        actions.push(action(effect));
    }
    let mode = match random.below(4) {
        0 => Mode::Single,
        1 => Mode::Restart,
        2 => Mode::Queued,
        _ => Mode::Parallel,
    };
    Automation {
        mode,
        max: random.between(1, 3),
        triggers: vec![trigger(random.pick(names).as_str())],
        actions,
        source: source(random.between(1, 30), random.between(1, 9)),
        ..automation(id)
    }
}

// ---- alike, by the scope's words

fn alike(a: &Model, b: &Model, left_out: &str) -> bool {
    let (s, t) = (&a.scenario, &b.scenario);
    let accepted = validate(s, &a.rules).is_ok() && validate(t, &b.rules).is_ok();
    let (c, d) = (cone_without(a, left_out), cone_without(b, left_out));
    let rules = |m: &Model, c: &Cone| -> Vec<String> {
        c.automations.iter().map(|place| format!("{:?}", m.rules[*place])).collect()
    };
    let declared = |m: &Model, c: &Cone| -> Vec<String> {
        c.entities.iter().map(|e| format!("{e} {:?}", m.scenario.entities.get(e))).collect()
    };
    let events = |m: &Model, c: &Cone| -> Vec<String> {
        let inside = |e: &&Event| match &e.input {
            Input::Set { entity, .. } => c.entities.contains(entity),
            _ => true,
        };
        m.scenario.events.iter().filter(inside).map(|e| format!("{e:?}")).collect()
    };
    accepted
        && c.entities == d.entities
        && declared(a, &c) == declared(b, &d)
        && rules(a, &c) == rules(b, &d)
        && events(a, &c) == events(b, &d)
        && format!("{:?}", s.invariants) == format!("{:?}", t.invariants)
        && s.limits.horizon == t.limits.horizon
        && (s.start == t.start || left_out == "start")
}

fn different(a: &Model, b: &Model) -> bool {
    let parts =
        |m: &Model| format!("{:?} {:?} {:?}", m.rules, m.scenario.entities, m.scenario.events);
    parts(a) != parts(b)
}

// ---- the claim

/// What a check tells of an invariant: a missed deadline, a failure with its second and source, or nothing; and its own
/// unknown reasons unless a response failed.
fn told(c: &Check, id: &str, elsewhere: &[String]) -> String {
    let failure = c.violations.iter().find(|v| v.invariant == id);
    if let Some(v) = failure {
        if v.message.starts_with("response deadline") {
            return v.message.clone();
        }
    }
    let own: Vec<String> = [
        "unknown state predicate",
        "unknown action guard",
        "unknown response at deadline",
        "unknown temporal predicate",
    ]
    .iter()
    .map(|words| format!("{id}: {words}"))
    .filter(|reason| c.unknown.contains(reason) && !elsewhere.contains(reason))
    .collect();
    format!("{:?} {own:?}", failure.map(|v| (v.at, v.source.clone())))
}

fn same_checks(a: &Model, b: &Model, counts: &mut Counts) -> bool {
    let (Ok(c), Ok(d)) = (check(&a.scenario, &a.rules), check(&b.scenario, &b.rules)) else {
        return true;
    };
    if !c.simulation.incomplete.is_empty() || !d.simulation.incomplete.is_empty() {
        return true;
    }
    counts.checks += 1;
    counts.failing += u64::from(!c.violations.is_empty());
    let mut elsewhere = unsupported(&a.rules);
    elsewhere.extend(unsupported(&b.rules));
    let same = |i: &Invariant| told(&c, i.id(), &elsewhere) == told(&d, i.id(), &elsewhere);
    a.scenario.invariants.iter().all(same)
}

fn same_searches(a: &Model, b: &Model, counts: &mut Counts) -> bool {
    let (Ok(v), Ok(w)) = (verify(&a.scenario, &a.rules), verify(&b.scenario, &b.rules)) else {
        return true;
    };
    let clear = |v: &Verification| {
        v.reasons.is_empty() && v.check.as_ref().is_none_or(|c| c.incomplete.is_empty())
    };
    if !clear(&v) || !clear(&w) {
        return true;
    }
    counts.searches += 1;
    counts.witnesses += u64::from(v.witness.is_some());
    let events = |v: &Verification| v.witness.as_ref().map(|s| format!("{:?}", s.events));
    v.status == w.status && v.cases == w.cases && events(&v) == events(&w)
}
