//! In the place of `added.rs` over the unchanged reference, which has neither windows nor a start.
use super::reference::{Limits, Predicate, Scenario};

pub type Start = (u64, u64);
pub type Window = (u8, u64, u64);
/// A file ends with the automations.
pub const START_BYTES: usize = 0;

pub fn window(_: Window) -> Option<Predicate> {
    None
}
pub fn window_of(_: &Predicate) -> Option<Window> {
    None
}
pub fn start_of(_: &Scenario) -> Start {
    (0, 0)
}
/// An empty scenario.
pub fn scenario(_: Start) -> Scenario {
    Scenario {
        version: 1,
        title: String::new(),
        entities: Default::default(),
        events: vec![],
        invariants: vec![],
        alphabet: vec![],
        gaps: vec![],
        limits: Limits { horizon: 0, max_steps: 1, search_depth: 0, max_cases: 1 },
    }
}
