//! The Rust's side of a row. Built twice: over the unchanged reference, and over the copy with the requests built in.
use super::cone::{Cone, cone};
use super::format::{Model, decode, with_events};
use super::reference::*;
use super::refusals;
use crate::Side;
use crate::agree::Facts;
use crate::rows::Row;
use std::hint::black_box;

/// Answers a row once, and says how it is answered and read again; nothing if this copy can't read the row's file.
pub fn side(row: &Row) -> Option<Side<'_>> {
    let model = decode(&row.file).ok()?.model;
    let answer = call(row.entry, &model);
    let (facts, counts) = (facts(row, &answer), counts(row, &answer));
    drop(answer);
    let call = move || drop(black_box(call(black_box(row.entry), black_box(&model))));
    let decoding = || drop(black_box(decode(black_box(&row.file))));
    Some(Side { facts, counts, call: Box::new(call), decoding: Box::new(decoding) })
}

enum Answer {
    Validate,
    Simulate(Simulation),
    Check(Check),
    Verify(Verification),
    Minimize(Minimized),
    Lint(Lint),
    /// The reference has no cone: this is the oracle's.
    Cone(Cone),
}

fn call(entry: &str, model: &Model) -> std::result::Result<Answer, String> {
    let (s, rules) = (&model.scenario, &model.rules[..]);
    Ok(match entry {
        "validate" => validate(s, rules).map(|()| Answer::Validate)?,
        "simulate" => Answer::Simulate(simulate(s, rules)?),
        "check" => Answer::Check(check(s, rules)?),
        "verify" => Answer::Verify(verify(s, rules)?),
        "minimize" => Answer::Minimize(minimize(s, rules)?),
        "lint" => Answer::Lint(lint(s, rules)?),
        "cone" => Answer::Cone(cone(s, rules)?),
        _ => panic!("no entry of this name: {entry}"),
    })
}

/// What comes of the row.
fn counts(row: &Row, answer: &std::result::Result<Answer, String>) -> Vec<(usize, &'static str)> {
    let simulated = |s: &Simulation| vec![(s.processed_steps, "steps"), (s.trace.len(), "records")];
    match answer {
        Err(_) | Ok(Answer::Validate) => vec![],
        Ok(Answer::Simulate(simulation)) => simulated(simulation),
        Ok(Answer::Check(check)) => {
            let invariants = (row.model.scenario.invariants.len(), "invariants");
            [simulated(&check.simulation), vec![invariants]].concat()
        }
        Ok(Answer::Verify(v)) => vec![(v.cases, "cases"), (v.total_steps, "steps in all")],
        Ok(Answer::Minimize(m)) => vec![
            (m.original_events, "events"),
            (m.attempts, "attempts"),
            (m.scenario.events.len(), "events left"),
        ],
        Ok(Answer::Lint(lint)) => {
            vec![(lint.findings.len(), "findings"), (lint.interactions.len(), "interactions")]
        }
        Ok(Answer::Cone(cone)) => {
            vec![(cone.entities.len(), "entities"), (cone.automations.len(), "automations")]
        }
    }
}

fn facts(row: &Row, answer: &std::result::Result<Answer, String>) -> Facts {
    let mut facts = Facts::default();
    let answer = match answer {
        Ok(answer) => answer,
        Err(text) => {
            facts.add("refused", refusals::number(text));
            return facts;
        }
    };
    facts.add("refused", 0);
    match answer {
        Answer::Validate => {}
        Answer::Simulate(s) => their_simulation(&mut facts, s, true),
        Answer::Check(c) => their_check(&mut facts, c, true),
        Answer::Verify(v) => {
            facts.add("status", &v.status);
            facts.add("cases", v.cases);
            facts.add("total steps", v.total_steps);
            facts.add("reasons", v.reasons.len());
            facts.add("shortest", u64::from(v.shortest_by_event_count));
            if let (Some(witness), Some(check)) = (&v.witness, &v.check) {
                their_events(&mut facts, row, &witness.events);
                their_check(&mut facts, check, false);
            }
        }
        Answer::Minimize(m) => {
            facts.add("invariant", &m.invariant);
            facts.add("original events", m.original_events);
            facts.add("attempts", m.attempts);
            facts.add("minimal", u64::from(m.deletion_minimal));
            their_events(&mut facts, row, &m.scenario.events);
            their_check(&mut facts, &m.check, false);
        }
        Answer::Lint(l) => {
            facts.add("findings", l.findings.len());
            facts.add("interactions", l.interactions.len());
            facts.add("components", l.components.len());
            for f in &l.findings {
                let at = match f.code.as_str() {
                    "trigger_cycle" => String::new(),
                    "unsupported" => String::new(),
                    _ => format!("{}:{}", f.sources[0].line, f.sources[0].column),
                };
                facts.add("finding", format!("{} {} {at}", f.code, f.automations.join(" ")));
            }
            for i in &l.interactions {
                facts.add("interaction", format!("{} {} {}", i.from, i.to, i.entity));
            }
        }
        Answer::Cone(c) => {
            facts.add("entities", c.entities.len());
            facts.add("automations", c.automations.len());
        }
    }
    facts
}

fn their_simulation(facts: &mut Facts, s: &Simulation, with_records: bool) {
    facts.add("steps", s.processed_steps);
    facts.add("records", s.trace.len());
    facts.add("horizon", s.horizon);
    facts.add("unknown", s.unknown.len());
    facts.add("incomplete", s.incomplete.len());
    for value in s.final_state.values() {
        facts.add("value at the end", value);
    }
    if with_records {
        for t in &s.trace {
            let change = match (&t.entity, &t.before, &t.after) {
                (Some(entity), Some(before), Some(after)) => format!("{entity} {before} {after}"),
                _ => String::new(),
            };
            facts.add("record", format!("{} {} {change}", t.at, t.kind));
        }
    }
}

fn their_check(facts: &mut Facts, c: &Check, with_records: bool) {
    facts.add("status", &c.status);
    facts.add("violations", c.violations.len());
    for v in &c.violations {
        facts.add("violation", format!("{} {} {}", v.invariant, v.at, v.trace_index));
    }
    facts.add("reasons for unknown", c.unknown.len());
    facts.add("reasons for incomplete", c.incomplete.len());
    their_simulation(facts, &c.simulation, with_records);
}

fn their_events(facts: &mut Facts, row: &Row, events: &[Event]) {
    facts.add("events", events.len());
    for event in events {
        let input = match &event.input {
            Input::Set { entity, value } => format!("0 {entity} {value}"),
            Input::Restart => "1".into(),
            Input::Reload => "2".into(),
        };
        facts.add("event", format!("{} {input}", event.at));
    }
    let decoded = decode(&row.file).expect("a whole file");
    let file = with_events(&row.file, &decoded, events);
    facts.add("file", format!("{file:?}"));
}
