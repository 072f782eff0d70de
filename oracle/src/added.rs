//! What the requests add to models, over a copy of the reference that has it.
use super::reference::{Limits, Predicate, Scenario};

/// Weekday, from 0, and second of the day at second 0 of the model.
pub type Start = (u64, u64);
/// Days (bit n for weekday n), start and end.
pub type Window = (u8, u64, u64);
/// The bytes of a start in a file.
pub const START_BYTES: usize = 8;

pub fn window((days, start, end): Window) -> Option<Predicate> {
    Some(Predicate::Window { days, start, end })
}
pub fn window_of(predicate: &Predicate) -> Option<Window> {
    match predicate {
        Predicate::Window { days, start, end } => Some((*days, *start, *end)),
        _ => None,
    }
}
pub fn start_of(s: &Scenario) -> Start {
    (s.start.weekday, s.start.second)
}
/// An empty scenario with this start.
pub fn scenario((weekday, second): Start) -> Scenario {
    Scenario {
        version: 1,
        title: String::new(),
        entities: Default::default(),
        events: vec![],
        invariants: vec![],
        alphabet: vec![],
        gaps: vec![],
        limits: Limits { horizon: 0, max_steps: 1, search_depth: 0, max_cases: 1 },
        start: super::reference::Start { weekday, second },
    }
}
