//! The cone of a model, from the scope. It is not in the reference; it rests
//! on the reads and writes of the reference's `lint`.
use super::reference::*;
use std::collections::BTreeSet;

pub struct Cone {
    pub entities: BTreeSet<String>,
    /// Places of automations in the file, from 0.
    pub automations: BTreeSet<usize>,
}

pub fn cone(s: &Scenario, rules: &[Automation]) -> std::result::Result<Cone, String> {
    let lint = lint(s, rules)?;
    let mut entities = BTreeSet::new();
    for invariant in &s.invariants {
        named_in(invariant, &mut entities);
    }
    let mut automations = BTreeSet::new();
    loop {
        let size = (entities.len(), automations.len());
        for (place, rule) in rules.iter().enumerate() {
            if lint.writes[&rule.id].iter().any(|entity| entities.contains(entity)) {
                automations.insert(place);
                entities.extend(lint.reads[&rule.id].iter().cloned());
                toggled(&rule.actions, &mut entities);
            }
        }
        if size == (entities.len(), automations.len()) {
            return Ok(Cone { entities, automations });
        }
    }
}

pub fn named_in(invariant: &Invariant, out: &mut BTreeSet<String>) {
    let mut predicates: Vec<&Predicate> = vec![];
    match invariant {
        Invariant::Never { conditions, .. } => predicates.extend(conditions),
        Invariant::Guard { entity, requires, .. } => {
            out.insert(entity.clone());
            predicates.extend(requires);
        }
        Invariant::Transition { entity, .. } => {
            out.insert(entity.clone());
        }
        Invariant::Response { when, then, .. } => predicates.extend([when, then]),
    }
    for predicate in predicates {
        if let Predicate::State { entity, .. } = predicate {
            out.insert(entity.clone());
        }
    }
}

fn toggled(actions: &[Action], out: &mut BTreeSet<String>) {
    for action in actions {
        match &action.effect {
            Effect::Toggle { entity } => {
                out.insert(entity.clone());
            }
            Effect::Choose { branches, default } => {
                for branch in branches {
                    toggled(&branch.sequence, out);
                }
                toggled(default, out);
            }
            _ => {}
        }
    }
}
