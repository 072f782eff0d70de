//! Whether the two answers to a row agree: each side's answer as a list of facts. Those of the Rust are in `theirs.rs`.
use crate::ours::*;
use crate::rows::Row;

const RECORD_KINDS: [&str; 19] = [
    "initial",
    "external",
    "action",
    "stale",
    "restart",
    "cancel",
    "ignored",
    "ignored",
    "choose",
    "horizon",
    "trigger",
    "condition",
    "start",
    "queued",
    "complete",
    "delay",
    "wait",
    "timeout",
    "unknown",
];
const FINDING_CODES: [&str; 10] = [
    "unreachable_conditions",
    "trigger_condition_mismatch",
    "delayed_write",
    "unreachable_branch",
    "high_fanout",
    "trigger_cycle",
    "freshness_assumption",
    "missing_safety_guard",
    "opposing_writes",
    "unsupported",
];
const CHECKS: [&str; 5] =
    ["refused", "unknown", "violation", "incomplete", "no_violation_in_trace"];
const VERIFICATIONS: [&str; 4] =
    ["refused", "no_counterexample_within_bounds", "counterexample", "inconclusive"];

#[derive(Default)]
pub struct Facts(Vec<(String, String)>);

impl Facts {
    pub fn add(&mut self, name: impl Into<String>, value: impl ToString) {
        self.0.push((name.into(), value.to_string()));
    }
}

/// The first fact in which the two differ.
pub fn difference(theirs: &Facts, ours: &Facts) -> Option<String> {
    for place in 0..theirs.0.len().max(ours.0.len()) {
        let (t, o) = (theirs.0.get(place), ours.0.get(place));
        if t != o {
            let text = |fact: Option<&(String, String)>| match fact {
                Some((name, value)) => {
                    format!("{name}: {}", value.chars().take(200).collect::<String>())
                }
                None => "nothing".into(),
            };
            return Some(format!("Rust says {}, ours says {}", text(t), text(o)));
        }
    }
    None
}

// ---- our answer

pub fn ours(row: &Row, refused: u32, lent: &Lent) -> Facts {
    let mut facts = Facts::default();
    facts.add("refused", refused);
    if refused != 0 {
        return facts;
    }
    let a = &lent.answer[..];
    match row.entry {
        "simulate" => our_simulation(&mut facts, row, a, Some(&lent.words[1])),
        "check" => our_check(&mut facts, row, a, Some(&lent.words[1])),
        "verify" => {
            facts.add("status", VERIFICATIONS.get(a[0] as usize).unwrap_or(&"no status"));
            facts.add("cases", a[1]);
            facts.add("total steps", a[2]);
            facts.add("reasons", a[9]);
            facts.add("shortest", a[10]);
            if a[0] == 2 {
                our_events(&mut facts, row, &a[VERIFY_WORDS..], a[11], &lent.output, a[12]);
                our_check(&mut facts, row, &a[VERIFY_CHECK..], None);
            }
        }
        "minimize" => {
            facts.add("invariant", text(row, a[0]));
            facts.add("original events", a[1]);
            facts.add("attempts", a[2]);
            facts.add("minimal", a[3]);
            our_events(&mut facts, row, &a[MINIMIZE_WORDS..], a[4], &lent.output, a[5]);
            our_check(&mut facts, row, &a[MINIMIZE_CHECK..], None);
        }
        "lint" => our_lint(&mut facts, row, a, lent),
        "cone" => {
            facts.add("entities", u64::from(a[0].count_ones()) + a[2]);
            facts.add("automations", a[1].count_ones());
        }
        _ => {}
    }
    facts
}

/// The text at a place of the file.
fn text(row: &Row, place: u64) -> &str {
    row.model.texts.get(place as usize).map_or("no text", |text| text)
}

fn our_simulation(facts: &mut Facts, row: &Row, a: &[u64], records: Option<&[u32]>) {
    facts.add("steps", a[0]);
    facts.add("records", a[1]);
    facts.add("horizon", a[2]);
    facts.add("unknown", a[3]);
    facts.add("incomplete", u64::from(a[4] != 0) + a[5]);
    for n in 0..row.model.scenario.entities.len() {
        facts.add("value at the end", text(row, a[SIMULATE_VALUES + n]));
    }
    let entries = records.into_iter().flat_map(|area| area.chunks_exact(RECORD_ENTRY));
    for r in entries.take(a[1] as usize) {
        let kind = RECORD_KINDS.get(r[1] as usize).unwrap_or(&"no kind");
        let place = |n: usize| text(row, r[n].into());
        let change = match r[9] {
            0 => String::new(),
            _ => format!("{} {} {}", place(10), place(11), place(12)),
        };
        facts.add("record", format!("{} {kind} {change}", r[0]));
    }
}

fn our_check(facts: &mut Facts, row: &Row, a: &[u64], records: Option<&[u32]>) {
    facts.add("status", CHECKS.get(a[0] as usize).unwrap_or(&"no status"));
    facts.add("violations", a[1]);
    for v in a[CHECK_VIOLATED..].chunks_exact(8).take(a[1].min(32) as usize) {
        facts.add("violation", format!("{} {} {}", text(row, v[0]), v[1], v[2]));
    }
    facts.add("reasons for unknown", a[2]);
    facts.add("reasons for incomplete", a[3]);
    our_simulation(facts, row, &a[CHECK_SIMULATION..], records);
}

fn our_events(facts: &mut Facts, row: &Row, words: &[u64], count: u64, output: &[u8], n: u64) {
    facts.add("events", count);
    for e in words.chunks_exact(4).take(count.min(100) as usize) {
        let input = match e[1] {
            0 => format!("0 {} {}", text(row, e[2]), text(row, e[3])),
            kind => kind.to_string(),
        };
        facts.add("event", format!("{} {input}", e[0]));
    }
    facts.add("file", format!("{:?}", &output[..output.len().min(n as usize)]));
}

fn our_lint(facts: &mut Facts, row: &Row, a: &[u64], lent: &Lent) {
    facts.add("findings", a[0]);
    facts.add("interactions", a[1]);
    facts.add("components", a[2]);
    let rules = &row.model.rules;
    let id = |n: u32| rules.get(n as usize).map_or("no automation", |rule| &rule.id);
    for f in lent.words[0].chunks_exact(FINDING_ENTRY).take(a[0] as usize) {
        let code = FINDING_CODES.get(f[0] as usize).unwrap_or(&"no code");
        let set: Vec<_> = (0..32).filter(|n| f[4] >> n & 1 == 1).map(id).collect();
        let at = match f[0] {
            5 | 9 => String::new(),
            _ => format!("{}:{}", f[5], f[6]),
        };
        facts.add("finding", format!("{code} {} {at}", set.join(" ")));
    }
    let names: Vec<_> = row.model.scenario.entities.keys().collect();
    for i in lent.words[1].chunks_exact(INTERACTION_ENTRY).take(a[1] as usize) {
        let entity = names.get(i[2] as usize).map_or("no entity", |name| name);
        facts.add("interaction", format!("{} {} {entity}", id(i[0]), id(i[1])));
    }
}
