//! A readable dump of a model file, for people.
use crate::plain::format::{Decoded, Model, decode};
use crate::plain::reference::*;
use crate::plain::show::{input, quoted};
use std::fmt::Write;

pub fn describe(bytes: &[u8]) -> String {
    let mut out = format!("{} bytes\n", bytes.len());
    match decode(bytes) {
        Err(number) => writeln!(out, "refused {number}").unwrap(),
        Ok(Decoded { model, events_start, events_end }) => {
            writeln!(out, "events section from {events_start} up to {events_end}").unwrap();
            describe_model(&model, &mut out).unwrap();
        }
    }
    out
}

fn describe_model(model: &Model, out: &mut String) -> std::fmt::Result {
    let s = &model.scenario;
    writeln!(out, "version {} title {}", s.version, quoted(&s.title))?;
    writeln!(out, "texts {:?}", model.texts)?;
    writeln!(out, "{:?} gaps {:?}", s.limits, s.gaps)?;
    writeln!(out, "{:?}{}", s.start, if model.zeros_written { ", written" } else { "" })?;
    for (name, e) in &s.entities {
        let (domain, initial) = (&e.domain, &e.initial);
        writeln!(out, "entity {name:?} {domain:?} {initial:?} {:?} {:?}", e.tier, e.stale_after)?;
    }
    for e in &s.events {
        writeln!(out, "event {} {}", e.at, input(&e.input))?;
    }
    for i in &s.invariants {
        writeln!(out, "invariant {i:?}")?;
    }
    for i in &s.alphabet {
        writeln!(out, "alphabet {}", input(i))?;
    }
    for r in &model.rules {
        let source = &r.source;
        writeln!(
            out,
            "automation {:?} {:?} max {} at {}:{}",
            r.id, r.mode, r.max, source.line, source.column
        )?;
        for note in &r.unknown {
            writeln!(out, "    note {note:?}")?;
        }
        for t in &r.triggers {
            writeln!(out, "    trigger {}", trigger(t))?;
        }
        for p in &r.conditions {
            writeln!(out, "    condition {}", predicate(p))?;
        }
        actions(&r.actions, 1, out)?;
    }
    Ok(())
}

fn trigger(t: &Trigger) -> String {
    let note = t.unknown.as_ref().map_or(String::new(), |n| format!(" note {n:?}"));
    let (from, to) = (t.from.as_deref().unwrap_or("any"), t.to.as_deref().unwrap_or("any"));
    format!("{:?} from {from} to {to} at {}:{}{note}", t.entity, t.source.line, t.source.column)
}
fn predicate(p: &Predicate) -> String {
    match p {
        Predicate::State { entity, value } => format!("{entity:?} is {value:?}"),
        Predicate::Unknown { reason } => format!("note {reason:?}"),
        Predicate::Window { days, start, end } => format!("window {days:07b} {start} to {end}"),
    }
}
fn actions(list: &[Action], level: usize, out: &mut String) -> std::fmt::Result {
    let space = "    ".repeat(level);
    for a in list {
        write!(out, "{space}{}:{} ", a.source.line, a.source.column)?;
        match &a.effect {
            Effect::Set { entity, value } => writeln!(out, "set {entity:?} {value:?}")?,
            Effect::Toggle { entity } => writeln!(out, "toggle {entity:?}")?,
            Effect::Delay { seconds } => writeln!(out, "delay {seconds}")?,
            Effect::Condition { predicate: p } => writeln!(out, "condition {}", predicate(p))?,
            Effect::Wait { trigger: t, timeout, continue_on_timeout: go_on } => {
                writeln!(out, "wait {} timeout {timeout} continue {go_on}", trigger(t))?
            }
            Effect::Unknown { reason } => writeln!(out, "note {reason:?}")?,
            Effect::Choose { branches, default } => {
                writeln!(out, "choose")?;
                for b in branches {
                    let conditions: Vec<_> = b.conditions.iter().map(predicate).collect();
                    writeln!(out, "{space}  branch if {conditions:?}")?;
                    actions(&b.sequence, level + 1, out)?;
                }
                writeln!(out, "{space}  default")?;
                actions(default, level + 1, out)?;
            }
        }
    }
    Ok(())
}
