//! Random valid models. Few names and values, so that automations meet each other.
use crate::plain::format::Model;
use crate::plain::reference::*;
use crate::random::Random;
use std::collections::BTreeMap;

const NAMES: [&str; 12] = [
    "a", "b", "c", "door", "lamp", "lock", "fan", "heater", "siren", "motion", "x \"y\"", "back\\w",
];
const DOMAINS: [&[&str]; 12] = [
    &["on", "off"],
    &["off", "on"],
    &["off", "on"],
    &["on", "off", "dim"],
    &["locked", "unlocked"],
    &["open", "closed", "on"],
    &["low", "mid", "high", "on", "off"],
    &["on"],
    &["on", "off", "unknown"],
    &["off", "unavailable", "on"],
    &["*", "on", "off"],
    &["say \"hi\"", "a\\b", "off", "on"],
];
const IDS: [&str; 14] = [
    "r", "r!", "r 2", "auto1", "auto2", "lampdoor", "z", "A", "r:", "10", "9", "quote\"", "b\\",
    "~",
];
const INVARIANT_IDS: [&str; 10] =
    ["nodoor", "i1", "i2", "safe", "r", "r!", "late", "zz", "say\"", "10"];
const NOTES: [&str; 12] = [
    "n",
    "template",
    "sun",
    "",
    "x: y",
    "!",
    "unsupported wait trigger",
    "r: unknown trigger condition",
    "r: n",
    "step budget exhausted",
    "unknown trigger condition",
    "i1: unknown state predicate",
];

/// What kind of model is wanted. Percentages and greatest numbers.
#[derive(Clone)]
pub struct Style {
    pub entities: (usize, usize),
    pub automations: (usize, usize),
    pub events: (usize, usize),
    pub invariants: (usize, usize),
    pub actions: (usize, usize),
    pub notes: usize,
    pub unknown_values: usize,
    pub stale: usize,
    pub choose_depth: usize,
    pub long_names: bool,
    pub search: bool,
}

impl Style {
    pub fn small() -> Self {
        Style {
            entities: (1, 3),
            automations: (0, 2),
            events: (0, 3),
            invariants: (0, 2),
            actions: (0, 3),
            notes: 3,
            unknown_values: 4,
            stale: 15,
            choose_depth: 1,
            long_names: false,
            search: false,
        }
    }
    pub fn rich() -> Self {
        Style {
            entities: (2, 5),
            automations: (1, 6),
            events: (1, 14),
            invariants: (0, 5),
            actions: (0, 6),
            notes: 4,
            unknown_values: 4,
            stale: 25,
            choose_depth: 3,
            long_names: false,
            search: false,
        }
    }
    /// Without notes, expiries and unknown values, so that violations show.
    pub fn clean(self) -> Self {
        Style { notes: 0, unknown_values: 0, stale: 0, ..self }
    }
}

pub fn model(random: &mut Random, style: &Style) -> Model {
    Maker { random, style, entities: vec![], notes_left: 60, actions_left: 500 }.model()
}

struct Maker<'a> {
    random: &'a mut Random,
    style: &'a Style,
    /// Name and values of each entity.
    entities: Vec<(String, Vec<String>)>,
    notes_left: usize,
    actions_left: usize,
}

impl Maker<'_> {
    fn size(&mut self, range: (usize, usize)) -> usize {
        self.random.between(range.0, range.1)
    }
    fn name(&mut self, names: &[&str], taken: &[String]) -> String {
        loop {
            let mut name = self.random.pick(names).to_string();
            if taken.contains(&name) {
                name += &self.random.below(100).to_string();
            }
            if self.style.long_names && self.random.percent(60) {
                name = format!("{name:x<100}");
            }
            if !taken.contains(&name) {
                return name;
            }
        }
    }
    fn model(mut self) -> Model {
        let mut entities = BTreeMap::new();
        for _ in 0..self.size(self.style.entities) {
            let taken: Vec<_> = entities.keys().cloned().collect();
            let name = self.name(&NAMES, &taken);
            let mut domain: Vec<String> =
                self.random.pick(&DOMAINS).iter().map(|v| v.to_string()).collect();
            if self.style.unknown_values == 0 {
                domain.retain(|v| v != "unknown" && v != "unavailable");
            }
            if self.style.long_names && self.random.percent(30) {
                domain.push(format!("{:v<100}", "val"));
            }
            self.entities.push((name.clone(), domain.clone()));
            let initial = if self.random.percent(self.style.unknown_values) {
                "unknown".into()
            } else {
                self.random.pick(&domain).clone()
            };
            let tiers = [Tier::Observational, Tier::Comfort, Tier::Property, Tier::AccessSafety];
            let tier = self.random.pick(&tiers).clone();
            let stale = self.random.percent(self.style.stale);
            let stale_after = stale.then(|| self.random.below(8) as u64);
            entities.insert(name, Entity { domain, initial, tier, stale_after });
        }
        let horizon = *self.random.pick(&[0, 1, 5, 10, 10, 20, 20, 30, 60]);
        let mut at = 0;
        let mut events = vec![];
        for _ in 0..self.size(self.style.events) {
            at += *self.random.pick(&[0, 0, 0, 1, 1, 2, 3, 5]);
            if at > horizon {
                break;
            }
            events.push(Event { at, input: self.input() });
        }
        if self.random.percent(5) {
            events.push(Event { at: horizon, input: self.input() });
        }
        let mut rules = vec![];
        let mut taken = vec![];
        for _ in 0..self.size(self.style.automations) {
            let id = self.name(&IDS, &taken);
            taken.push(id.clone());
            rules.push(self.automation(id));
        }
        let mut invariants = vec![];
        let mut taken = vec![];
        for _ in 0..self.size(self.style.invariants) {
            let id = self.name(&INVARIANT_IDS, &taken);
            taken.push(id.clone());
            invariants.push(self.invariant(id));
        }
        let (alphabet, gaps) = if self.style.search {
            (self.random.between(0, 4), self.random.between(1, 2))
        } else {
            (self.random.below(3), 1)
        };
        let alphabet: Vec<_> = (0..alphabet).map(|_| self.input()).collect();
        let gaps: Vec<_> = (0..gaps).map(|_| *self.random.pick(&[0, 1, 1, 2, 3, 5, 10])).collect();
        let max_steps = match self.random.below(20) {
            0 => self.random.between(1, 12),
            1..4 => self.random.between(10, 60),
            4 => 1000,
            _ => 200,
        };
        let branches = alphabet.len() * gaps.len();
        let search_depth = match branches {
            0 | 1 => self.random.below(6),
            2 => self.random.below(5),
            3..5 => self.random.below(4),
            _ => self.random.below(3),
        };
        let max_cases = if self.random.percent(20) { self.random.between(1, 20) } else { 2000 };
        let title = self.random.pick(&["", "t", "home", "say \"x\" \\ y"]).to_string();
        let limits = Limits { horizon, max_steps, search_depth, max_cases };
        let start = Start::default();
        #[rustfmt::skip]
        let scenario =
            Scenario { version: 1, title, entities, events, invariants, alphabet, gaps, limits, start };
        let mut texts = vec![];
        if self.random.percent(15) {
            texts = vec!["".into(), "unused".into(), "~~".into()];
        }
        Model { texts, scenario, rules, zeros_written: false }
    }
    fn entity(&mut self) -> (String, Vec<String>) {
        self.random.pick(&self.entities).clone()
    }
    fn value(&mut self, values: &[String]) -> String {
        if self.random.percent(self.style.unknown_values) {
            self.random.pick(&["unknown", "unavailable"]).to_string()
        } else {
            self.random.pick(values).clone()
        }
    }
    /// An entity and one of its values.
    fn pair(&mut self) -> (String, String) {
        let (entity, values) = self.entity();
        let value = self.value(&values);
        (entity, value)
    }
    fn note(&mut self) -> Option<String> {
        if self.notes_left == 0 || !self.random.percent(self.style.notes) {
            return None;
        }
        self.notes_left -= 1;
        Some(self.random.pick(&NOTES).to_string())
    }
    fn input(&mut self) -> Input {
        match self.random.below(24) {
            0 => Input::Restart,
            1 => Input::Reload,
            _ => {
                let (entity, value) = self.pair();
                Input::Set { entity, value }
            }
        }
    }
    fn source(&mut self) -> Source {
        let numbers = [0, 1, 2, 3, 7, 9, 10, 11, 99, 100, 4_294_967_295];
        let line = *self.random.pick(&numbers);
        let column = *self.random.pick(&numbers[..8]);
        Source { line, column }
    }
    fn predicate(&mut self) -> Predicate {
        if let Some(reason) = self.note() {
            return Predicate::Unknown { reason };
        }
        let (entity, value) = self.pair();
        Predicate::State { entity, value }
    }
    fn predicates(&mut self, first: usize, last: usize) -> Vec<Predicate> {
        (0..self.random.between(first, last)).map(|_| self.predicate()).collect()
    }
    fn trigger(&mut self) -> Trigger {
        let (mut entity, values) = self.entity();
        let from = self.random.percent(20).then(|| self.value(&values));
        let to = self.random.percent(65).then(|| self.value(&values));
        let source = self.source();
        let unknown = self.note();
        if unknown.is_some() && self.random.percent(40) {
            entity = self.random.pick(&["ghost", "zzz", "aaa"]).to_string();
        }
        Trigger { entity, from, to, source, unknown }
    }
    fn automation(&mut self, id: String) -> Automation {
        let modes = [Mode::Single, Mode::Restart, Mode::Queued, Mode::Parallel];
        let mode = self.random.pick(&modes).clone();
        let max = *self.random.pick(&[1, 1, 2, 2, 3, 16]);
        let triggers = *self.random.pick(&[1, 1, 1, 2, 3]);
        let triggers = (0..triggers).map(|_| self.trigger()).collect();
        let last = *self.random.pick(&[0, 0, 0, 1, 1, 2, 2, 4]);
        let conditions = self.predicates(0, last);
        let actions = self.actions(self.style.choose_depth);
        let source = self.source();
        let unknown = self.note().into_iter().collect();
        Automation { id, mode, max, triggers, conditions, actions, source, unknown }
    }
    fn actions(&mut self, depth_left: usize) -> Vec<Action> {
        let mut out = vec![];
        for _ in 0..self.size(self.style.actions) {
            if self.actions_left > 0 {
                self.actions_left -= 1;
                let source = self.source();
                let effect = self.effect(depth_left);
                out.push(Action { source, effect });
            }
        }
        out
    }
    fn effect(&mut self, depth_left: usize) -> Effect {
        if let Some(reason) = self.note() {
            return Effect::Unknown { reason };
        }
        match self.random.below(20) {
            0..3 => {
                let switches: Vec<_> = self
                    .entities
                    .iter()
                    .filter(|(_, values)| {
                        values.iter().any(|v| v == "on") && values.iter().any(|v| v == "off")
                    })
                    .map(|(name, _)| name.clone())
                    .collect();
                if !switches.is_empty() {
                    return Effect::Toggle { entity: self.random.pick(&switches).clone() };
                }
            }
            3..6 => {
                let seconds = *self.random.pick(&[0, 0, 1, 1, 2, 3, 5]);
                return Effect::Delay { seconds };
            }
            6..8 => return Effect::Condition { predicate: self.predicate() },
            8..10 if depth_left > 0 => {
                let last = *self.random.pick(&[1, 2, 2, 4]);
                let branches = (0..self.random.below(4))
                    .map(|_| Branch {
                        conditions: self.predicates(0, last),
                        sequence: self.actions(depth_left - 1),
                    })
                    .collect();
                return Effect::Choose { branches, default: self.actions(depth_left - 1) };
            }
            10..13 => {
                let trigger = self.trigger();
                let timeout = *self.random.pick(&[0, 1, 2, 2, 3, 5, 10]);
                let continue_on_timeout = self.random.percent(50);
                return Effect::Wait { trigger, timeout, continue_on_timeout };
            }
            _ => {}
        }
        let (entity, value) = self.pair();
        Effect::Set { entity, value }
    }
    fn invariant(&mut self, id: String) -> Invariant {
        match self.random.below(4) {
            0 => Invariant::Never { id, conditions: self.predicates(1, 2) },
            1 => {
                let (entity, value) = self.pair();
                Invariant::Guard { id, entity, value, requires: self.predicates(1, 2) }
            }
            2 => {
                let (entity, values) = self.entity();
                let (from, mut to) = (self.value(&values), self.value(&values));
                if self.style.stale > 0 && self.random.percent(15) {
                    // As an expiry does it.
                    to = "unknown".into();
                }
                Invariant::Transition { id, entity, from, to }
            }
            _ => {
                let within = *self.random.pick(&[0, 1, 2, 3, 5, 10, 30]);
                Invariant::Response { id, when: self.predicate(), then: self.predicate(), within }
            }
        }
    }
}
