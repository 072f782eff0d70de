//! Models with windows that a careless program answers wrongly, with answers worked out by hand from the request.
use crate::edit::*;
use crate::plain::format::Model;
use crate::plain::reference::*;

/// A model, an entry point, and what its lines have to be or to contain.
pub struct Trap {
    pub model: Model,
    pub entry: &'static str,
    pub says: &'static str,
}

/// Days, start, end; weekday, second; the second of the event; whether the window is open then.
type Moment = ((u8, u64, u64), (u64, u64), u64, bool);

const SUNDAY: u8 = 64;
const NIGHT: (u8, u64, u64) = (1, 79_200, 21_600);
const MOMENTS: [Moment; 34] = [
    (NIGHT, (0, 79_199), 0, false),
    (NIGHT, (0, 79_199), 1, true),
    (NIGHT, (0, 79_199), 7_200, true),
    (NIGHT, (0, 79_199), 7_201, true),
    (NIGHT, (0, 79_199), 28_800, true),
    (NIGHT, (0, 79_199), 28_801, false),
    (NIGHT, (0, 0), 0, false),
    (NIGHT, (0, 0), 21_599, false),
    (NIGHT, (0, 0), 79_200, true),
    (NIGHT, (0, 0), 86_400, true),
    (NIGHT, (1, 0), 0, true),
    (NIGHT, (1, 0), 21_599, true),
    (NIGHT, (1, 0), 21_600, false),
    (NIGHT, (1, 0), 79_200, false),
    ((SUNDAY, 79_200, 21_600), (6, 86_000), 400, true),
    ((SUNDAY, 79_200, 21_600), (0, 0), 0, true),
    ((SUNDAY, 79_200, 21_600), (6, 0), 0, false),
    // Within a day: from the start up to, but not at, the end.
    ((4, 100, 200), (2, 99), 0, false),
    ((4, 100, 200), (2, 99), 1, true),
    ((4, 100, 200), (2, 99), 100, true),
    ((4, 100, 200), (2, 99), 101, false),
    ((4, 100, 200), (2, 86_399), 101, false),
    ((8, 100, 200), (2, 86_399), 101, true),
    // The week's end, and the last second of the longest model.
    ((1, 0, 1), (6, 86_399), 1, true),
    ((SUNDAY, 86_399, 1), (6, 86_399), 0, true),
    ((SUNDAY, 86_399, 1), (6, 86_399), 1, true),
    ((SUNDAY, 86_399, 1), (6, 86_399), 2, false),
    ((1, 86_399, 0), (6, 86_399), 86_400, true),
    ((1, 0, 86_399), (6, 86_399), 86_400, false),
    ((SUNDAY, 86_399, 0), (6, 86_399), 86_400, false),
    // Up to midnight and from midnight on.
    ((1, 43_200, 0), (0, 86_399), 0, true),
    ((1, 43_200, 0), (0, 86_399), 1, false),
    ((127, 1, 0), (3, 86_399), 1, false),
    ((127, 1, 0), (3, 86_399), 2, true),
];

pub fn traps() -> Vec<Trap> {
    let mut out = vec![];
    for ((days, from, to), start, at, open) in MOMENTS {
        let model = started(start, at, vec![window(days, from, to)], vec![]);
        let says = if open { "\"conditions Yes\"\n" } else { "\"conditions No\"\n" };
        out.push(Trap { model, entry: "simulate", says });
    }
    out.extend(lists());
    out.extend(runs());
    out.extend(example_at_night());
    out.extend(lints());
    out
}

/// An automation that an event at a second starts; nothing is unknown but `dark`.
fn started(start: (u64, u64), at: u64, conditions: Vec<Predicate>, actions: Vec<Action>) -> Model {
    let mut m = base();
    let (weekday, second) = start;
    m.scenario.start = Start { weekday, second };
    m.scenario.limits.horizon = 86_400;
    m.scenario.events = vec![Event { at, input: set_input("a", "on") }];
    m.scenario.entities.insert("dark".into(), Entity { initial: "unknown".into(), ..switch() });
    m.rules = vec![Automation { conditions, actions, ..automation("r") }];
    m
}

/// A window among others: No wins over Unknown wherever it stands, and an open window decides nothing.
fn lists() -> Vec<Trap> {
    let (open, shut) = (window(1, 10, 20), window(1, 20, 10));
    let (dark, on, off) = (state("dark", "on"), state("a", "on"), state("a", "off"));
    let note = Predicate::Unknown { reason: "n".into() };
    let cases = [
        (vec![dark.clone(), shut.clone()], "\"conditions No\"\nrecord 3"),
        (vec![shut.clone(), dark.clone()], "\"conditions No\"\nrecord 3"),
        (vec![note.clone(), shut.clone()], "\"conditions No\"\nrecord 3"),
        (vec![dark.clone(), open.clone()], "sim-unknown \"r: unknown trigger condition\"\n"),
        (vec![open.clone(), note], "sim-unknown \"r: unknown trigger condition\"\n"),
        (vec![open.clone(), off], "\"conditions No\"\n"),
        (vec![open.clone(), on.clone(), open.clone()], "\"conditions Yes\"\n"),
        (vec![open, on, shut, dark], "\"conditions No\"\nrecord 3"),
    ];
    let simulated = |(conditions, says)| {
        let model = started((0, 0), 15, conditions, vec![]);
        Trap { model, entry: "simulate", says }
    };
    cases.into_iter().map(simulated).collect()
}

/// Choose and action conditions are read at the second at which the run goes on.
fn runs() -> Vec<Trap> {
    let open = window(1, 10, 20);
    let seen =
        |predicate: Predicate| vec![action(delay(5)), action(Effect::Condition { predicate })];
    let set = action(Effect::Set { entity: "door".into(), value: "unlocked".into() });
    let chosen = |w: Predicate| vec![action(delay(5)), action(branch(vec![w], vec![set.clone()]))];
    let dark = branch(vec![state("dark", "on"), window(1, 20, 10)], vec![set.clone()]);
    let cases = [
        (4, vec![], seen(open.clone()), "condition \"r\" 7:3 - - - \"No\"\n"),
        (5, vec![], seen(open.clone()), "condition \"r\" 7:3 - - - \"Yes\"\n"),
        (14, vec![], seen(open.clone()), "condition \"r\" 7:3 - - - \"Yes\"\n"),
        (15, vec![open.clone()], seen(open.clone()), "condition \"r\" 7:3 - - - \"No\"\n"),
        (4, vec![], chosen(open.clone()), "final \"door\" \"locked\"\n"),
        (5, vec![], chosen(open.clone()), "final \"door\" \"unlocked\"\n"),
        (14, vec![open.clone()], chosen(open.clone()), "final \"door\" \"unlocked\"\n"),
        (15, vec![open.clone()], chosen(open.clone()), "final \"door\" \"locked\"\n"),
        (15, vec![], vec![action(dark)], "choose \"r\" 7:3 - - - \"selected branch\"\n"),
        // Shut at the event, open when the run goes on: it never starts.
        (9, vec![open.clone()], seen(open), "\"conditions No\"\nrecord 3"),
    ];
    let simulated = |(at, conditions, actions, says)| {
        let model = started((0, 0), at, conditions, actions);
        Trap { model, entry: "simulate", says }
    };
    cases.into_iter().map(simulated).collect()
}

/// The scope's example with the night as its automation's condition; its event is at second 5.
fn example_at_night() -> Vec<Trap> {
    let violation = "status violation\nsteps 5\nrecords 7\nviolated nodoor 5 4 7:3\n";
    let quiet = "status no_violation_in_trace\nsteps 2\nrecords 4\n";
    let cases =
        [(0, 79_195, violation), (0, 79_194, quiet), (1, 21_594, violation), (1, 21_595, quiet)];
    let checked = |(weekday, second, says)| {
        let mut model = example();
        model.rules[0].conditions = vec![window(NIGHT.0, NIGHT.1, NIGHT.2)];
        model.scenario.start = Start { weekday, second };
        Trap { model, entry: "check", says }
    };
    cases.map(checked).into()
}

/// A window clashes with nothing and hides no clash of others; it reads nothing.
fn lints() -> Vec<Trap> {
    let (first, second) = (window(1, 10, 20), window(2, 30, 40));
    let clash = vec![state("a", "on"), first.clone(), state("a", "off")];
    let quiet = "findings 0 interactions 0 components 0\nreads \"r\" 1 \"a\"\nwrites \"r\" 0\n";
    let unreachable = "finding unreachable_conditions static observational \
        \"Admission conditions require contradictory states\" automations 1 \"r\" sources 1 1:1\n";
    let branches = "findings 1 interactions 0 components 0\n\
        finding unreachable_branch static observational \
        \"Choose branch has contradictory state predicates\" automations 1 \"r\" sources 1 7:3\n\
        reads \"r\" 1 \"a\"\nwrites \"r\" 0\n";
    let windows = vec![first.clone(), second.clone(), first.clone()];
    let among = vec![action(Effect::Condition { predicate: second.clone() })];
    let chosen = vec![action(branch(windows.clone(), vec![]))];
    let cases = [
        (windows, vec![], quiet),
        (vec![], among, quiet),
        (vec![second], chosen, quiet),
        (clash.clone(), vec![], unreachable),
        (vec![first], vec![action(branch(clash, vec![]))], branches),
    ];
    let linted = |(conditions, actions, says)| {
        let model = started((0, 0), 15, conditions, actions);
        Trap { model, entry: "lint", says }
    };
    cases.into_iter().map(linted).collect()
}
