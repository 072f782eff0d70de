//! The model file: encoder and decoder, written from the scope.
//! Little-endian; numbers are u32, counts u16, kinds and flags u8.
use super::added::{self, START_BYTES, Start, Window};
use super::reference::*;
use std::collections::{BTreeMap, BTreeSet, HashMap};

pub const LONGEST_FILE: usize = 32_768;
pub const FIXED_TEXTS: [&str; 4] = ["on", "off", "unknown", "unavailable"];
const NO_TEXT: u16 = 65_535;
const NO_NUMBER: u32 = 4_294_967_295;
const MOST_NOTES: usize = 64;
const DEEPEST_LIST: usize = 17;

/// A model with the texts of its file. For the encoder `texts` lists texts
/// that the file has beside the needed ones.
#[derive(Clone, Debug)]
pub struct Model {
    pub texts: Vec<String>,
    pub scenario: Scenario,
    pub rules: Vec<Automation>,
    /// Whether the file has a start though it is zeros. One that isn't zeros always stands there.
    pub zeros_written: bool,
}

/// What stands at an offset of an encoded file. Used for aimed damage.
#[derive(Clone, Copy, Debug, PartialEq)]
pub enum Mark {
    TextLength,
    Place,
    OptionalPlace,
    /// A kind; the number is the first illegal value. For a state and a note it is a window's, which has more bytes.
    Kind(u8),
    Flag,
    Count,
    Number,
    Entity,
    EntitiesEnd,
    /// A window's kind.
    Window,
}

pub struct Encoded {
    pub bytes: Vec<u8>,
    pub marks: Vec<(usize, Mark)>,
}

pub fn encode(model: &Model) -> Vec<u8> {
    encode_with(model, &texts_of(model)).bytes
}

/// The texts of a model's file: those it needs, the fixed ones and its further ones.
pub fn texts_of(model: &Model) -> Vec<String> {
    let mut found = BTreeSet::new();
    let mut writer = Writer::new(&[]);
    writer.used = Some(BTreeSet::new());
    writer.model(model);
    found.extend(writer.used.take().unwrap());
    found.extend(FIXED_TEXTS.map(String::from));
    found.extend(model.texts.iter().cloned());
    found.into_iter().collect()
}

/// Writes a model with the given list of texts, whatever its order. A text
/// that is not in the list gets place 0.
pub fn encode_with(model: &Model, texts: &[String]) -> Encoded {
    let mut writer = Writer::new(texts);
    writer.number(model.scenario.version.into());
    writer.count(texts.len());
    for text in texts {
        writer.mark(Mark::TextLength);
        writer.bytes.push(u8::try_from(text.len()).expect("a text has at most 255 bytes"));
        writer.bytes.extend(text.as_bytes());
    }
    writer.model(model);
    Encoded { bytes: writer.bytes, marks: writer.marks }
}

struct Writer {
    bytes: Vec<u8>,
    marks: Vec<(usize, Mark)>,
    places: HashMap<String, u16>,
    /// If present, the texts met so far.
    used: Option<BTreeSet<String>>,
}

impl Writer {
    fn new(texts: &[String]) -> Self {
        let places = texts.iter().enumerate().map(|(i, t)| (t.clone(), i as u16)).collect();
        Writer { bytes: vec![], marks: vec![], places, used: None }
    }
    fn mark(&mut self, mark: Mark) {
        self.marks.push((self.bytes.len(), mark));
    }
    fn number(&mut self, value: u64) {
        self.mark(Mark::Number);
        let value = u32::try_from(value).expect("a number fits in 32 bits");
        self.bytes.extend(value.to_le_bytes());
    }
    fn count(&mut self, value: usize) {
        self.mark(Mark::Count);
        let value = u16::try_from(value).expect("a count fits in 16 bits");
        self.bytes.extend(value.to_le_bytes());
    }
    fn kind(&mut self, value: u8, first_illegal: u8) {
        self.mark(Mark::Kind(first_illegal));
        self.bytes.push(value);
    }
    fn find(&mut self, text: &str) -> u16 {
        if let Some(used) = &mut self.used {
            used.insert(text.to_string());
        }
        self.places.get(text).copied().unwrap_or(0)
    }
    fn place(&mut self, text: &str) {
        self.mark(Mark::Place);
        let place = self.find(text);
        self.bytes.extend(place.to_le_bytes());
    }
    fn optional_place(&mut self, text: &Option<String>) {
        self.mark(Mark::OptionalPlace);
        let place = text.as_ref().map_or(NO_TEXT, |text| self.find(text));
        self.bytes.extend(place.to_le_bytes());
    }
    fn source(&mut self, source: &Source) {
        self.number(source.line as u64);
        self.number(source.column as u64);
    }

    /// Everything from the title on.
    fn model(&mut self, model: &Model) {
        let s = &model.scenario;
        self.place(&s.title);
        self.count(s.entities.len());
        for (name, entity) in &s.entities {
            self.mark(Mark::Entity);
            self.place(name);
            self.count(entity.domain.len());
            for value in &entity.domain {
                self.place(value);
            }
            self.place(&entity.initial);
            let tier = match entity.tier {
                Tier::Observational => 0,
                Tier::Comfort => 1,
                Tier::Property => 2,
                Tier::AccessSafety => 3,
            };
            self.kind(tier, 4);
            self.number(entity.stale_after.unwrap_or(NO_NUMBER.into()));
        }
        self.mark(Mark::EntitiesEnd);
        self.events(&s.events);
        self.count(s.invariants.len());
        for invariant in &s.invariants {
            self.invariant(invariant);
        }
        self.count(s.alphabet.len());
        for input in &s.alphabet {
            self.input(input);
        }
        self.count(s.gaps.len());
        for gap in &s.gaps {
            self.number(*gap);
        }
        self.number(s.limits.horizon);
        self.number(s.limits.max_steps as u64);
        self.number(s.limits.search_depth as u64);
        self.number(s.limits.max_cases as u64);
        self.count(model.rules.len());
        for rule in &model.rules {
            self.automation(rule);
        }
        self.start(added::start_of(s), model.zeros_written);
    }
    fn start(&mut self, start: Start, zeros_written: bool) {
        if start != Start::default() || zeros_written {
            self.number(start.0);
            self.number(start.1);
        }
    }
    fn events(&mut self, events: &[Event]) {
        self.count(events.len());
        for event in events {
            self.number(event.at);
            self.input(&event.input);
        }
    }
    fn input(&mut self, input: &Input) {
        match input {
            Input::Set { entity, value } => {
                self.kind(0, 3);
                self.place(entity);
                self.place(value);
            }
            Input::Restart => self.kind(1, 3),
            Input::Reload => self.kind(2, 3),
        }
    }
    fn predicate(&mut self, predicate: &Predicate) {
        match predicate {
            Predicate::State { entity, value } => {
                self.kind(0, 2);
                self.place(entity);
                self.place(value);
            }
            Predicate::Unknown { reason } => {
                self.kind(1, 2);
                self.place(reason);
            }
            #[allow(unreachable_patterns)]
            other => self.window(added::window_of(other).expect("a window")),
        }
    }
    fn window(&mut self, (days, start, end): Window) {
        self.mark(Mark::Window);
        self.kind(2, 3);
        self.bytes.push(days);
        self.number(start);
        self.number(end);
    }
    fn predicates(&mut self, predicates: &[Predicate]) {
        self.count(predicates.len());
        for predicate in predicates {
            self.predicate(predicate);
        }
    }
    fn invariant(&mut self, invariant: &Invariant) {
        match invariant {
            Invariant::Never { id, conditions } => {
                self.kind(0, 4);
                self.place(id);
                self.predicates(conditions);
            }
            Invariant::Guard { id, entity, value, requires } => {
                self.kind(1, 4);
                self.place(id);
                self.place(entity);
                self.place(value);
                self.predicates(requires);
            }
            Invariant::Transition { id, entity, from, to } => {
                self.kind(2, 4);
                for text in [id, entity, from, to] {
                    self.place(text);
                }
            }
            Invariant::Response { id, when, then, within } => {
                self.kind(3, 4);
                self.place(id);
                self.predicate(when);
                self.predicate(then);
                self.number(*within);
            }
        }
    }
    fn trigger(&mut self, trigger: &Trigger) {
        self.place(&trigger.entity);
        self.optional_place(&trigger.from);
        self.optional_place(&trigger.to);
        self.source(&trigger.source);
        self.optional_place(&trigger.unknown);
    }
    fn automation(&mut self, rule: &Automation) {
        self.place(&rule.id);
        let mode = match rule.mode {
            Mode::Single => 0,
            Mode::Restart => 1,
            Mode::Queued => 2,
            Mode::Parallel => 3,
        };
        self.kind(mode, 4);
        self.number(rule.max as u64);
        self.count(rule.triggers.len());
        for trigger in &rule.triggers {
            self.trigger(trigger);
        }
        self.predicates(&rule.conditions);
        self.actions(&rule.actions);
        self.source(&rule.source);
        self.count(rule.unknown.len());
        for note in &rule.unknown {
            self.place(note);
        }
    }
    fn actions(&mut self, actions: &[Action]) {
        self.count(actions.len());
        for action in actions {
            self.source(&action.source);
            self.effect(&action.effect);
        }
    }
    fn effect(&mut self, effect: &Effect) {
        match effect {
            Effect::Set { entity, value } => {
                self.kind(0, 7);
                self.place(entity);
                self.place(value);
            }
            Effect::Toggle { entity } => {
                self.kind(1, 7);
                self.place(entity);
            }
            Effect::Delay { seconds } => {
                self.kind(2, 7);
                self.number(*seconds);
            }
            Effect::Condition { predicate } => {
                self.kind(3, 7);
                self.predicate(predicate);
            }
            Effect::Choose { branches, default } => {
                self.kind(4, 7);
                self.count(branches.len());
                for branch in branches {
                    self.predicates(&branch.conditions);
                    self.actions(&branch.sequence);
                }
                self.actions(default);
            }
            Effect::Wait { trigger, timeout, continue_on_timeout } => {
                self.kind(5, 7);
                self.trigger(trigger);
                self.number(*timeout);
                self.mark(Mark::Flag);
                self.bytes.push(u8::from(*continue_on_timeout));
            }
            Effect::Unknown { reason } => {
                self.kind(6, 7);
                self.place(reason);
            }
        }
    }
}

/// A file that was read, with the offsets of its events section.
pub struct Decoded {
    pub model: Model,
    pub events_start: usize,
    pub events_end: usize,
}

/// Reads a model file, or gives 30 or 31.
pub fn decode(bytes: &[u8]) -> std::result::Result<Decoded, u8> {
    if bytes.len() > LONGEST_FILE {
        return Err(30);
    }
    let mut reader = Reader { bytes, at: 0, texts: vec![], notes: 0 };
    let decoded = reader.file().ok_or(30)?;
    if reader.at < bytes.len() {
        return Err(31);
    }
    Ok(decoded)
}

/// The file with other events: the sections before and after stay as they are.
pub fn with_events(bytes: &[u8], decoded: &Decoded, events: &[Event]) -> Vec<u8> {
    let mut writer = Writer::new(&decoded.model.texts);
    writer.events(events);
    [&bytes[..decoded.events_start], &writer.bytes, &bytes[decoded.events_end..]].concat()
}

/// Every function gives None if the file breaks a rule.
struct Reader<'a> {
    bytes: &'a [u8],
    at: usize,
    texts: Vec<String>,
    notes: usize,
}

impl Reader<'_> {
    fn take<const N: usize>(&mut self) -> Option<[u8; N]> {
        let part = self.bytes.get(self.at..self.at + N)?;
        self.at += N;
        part.try_into().ok()
    }
    fn number(&mut self) -> Option<u32> {
        self.take().map(u32::from_le_bytes)
    }
    fn count(&mut self) -> Option<usize> {
        self.take().map(|b| u16::from_le_bytes(b).into())
    }
    fn byte_below(&mut self, first_illegal: u8) -> Option<u8> {
        self.take().map(|[b]| b).filter(|b| *b < first_illegal)
    }
    fn text_at(&self, place: u16) -> Option<String> {
        self.texts.get(usize::from(place)).cloned()
    }
    fn place(&mut self) -> Option<String> {
        let place = self.take().map(u16::from_le_bytes)?;
        self.text_at(place)
    }
    fn optional_place(&mut self) -> Option<Option<String>> {
        let place = self.take().map(u16::from_le_bytes)?;
        if place == NO_TEXT { Some(None) } else { self.text_at(place).map(Some) }
    }
    /// A u16 count, then so many items.
    fn list<T>(&mut self, mut item: impl FnMut(&mut Self) -> Option<T>) -> Option<Vec<T>> {
        let count = self.count()?;
        let mut out = vec![];
        for _ in 0..count {
            out.push(item(self)?);
        }
        Some(out)
    }
    fn note(&mut self) -> Option<()> {
        self.notes += 1;
        (self.notes <= MOST_NOTES).then_some(())
    }
    fn source(&mut self) -> Option<Source> {
        Some(Source { line: self.number()? as usize, column: self.number()? as usize })
    }

    fn file(&mut self) -> Option<Decoded> {
        let version = self.number()?;
        self.texts = self.list(Self::text)?;
        let ascending = self.texts.windows(2).all(|w| w[0].as_bytes() < w[1].as_bytes());
        if !ascending || !FIXED_TEXTS.iter().all(|t| self.texts.iter().any(|x| x == t)) {
            return None;
        }
        let title = self.place()?;
        let entities = self.list(Self::entity)?;
        if !entities.windows(2).all(|w| w[0].0.as_bytes() < w[1].0.as_bytes()) {
            return None;
        }
        let entities: BTreeMap<_, _> = entities.into_iter().collect();
        let events_start = self.at;
        let events = self.list(|r| Some(Event { at: r.number()?.into(), input: r.input()? }))?;
        let events_end = self.at;
        let invariants = self.list(Self::invariant)?;
        let alphabet = self.list(Self::input)?;
        let gaps = self.list(|r| r.number().map(u64::from))?;
        let limits = Limits {
            horizon: self.number()?.into(),
            max_steps: self.number()? as usize,
            search_depth: self.number()? as usize,
            max_cases: self.number()? as usize,
        };
        let rules = self.list(Self::automation)?;
        let start = self.start()?;
        let _without = added::scenario(start.unwrap_or_default());
        #[rustfmt::skip]
        let scenario =
            Scenario { version, title, entities, events, invariants, alphabet, gaps, limits, .._without };
        let zeros_written = start == Some(Start::default());
        let texts = std::mem::take(&mut self.texts);
        let model = Model { texts, scenario, rules, zeros_written };
        Some(Decoded { model, events_start, events_end })
    }
    /// Weekday and second, unless the file ends right before both.
    fn start(&mut self) -> Option<Option<Start>> {
        if START_BYTES == 0 || self.at == self.bytes.len() {
            return Some(None);
        }
        Some(Some((self.number()?.into(), self.number()?.into())))
    }
    fn text(&mut self) -> Option<String> {
        let [length] = self.take()?;
        let mut text = String::new();
        for _ in 0..length {
            let [byte] = self.take()?;
            if !(32..=126).contains(&byte) {
                return None;
            }
            text.push(byte.into());
        }
        Some(text)
    }
    fn entity(&mut self) -> Option<(String, Entity)> {
        let name = self.place()?;
        let domain = self.list(Self::place)?;
        let initial = self.place()?;
        let tier = match self.byte_below(4)? {
            0 => Tier::Observational,
            1 => Tier::Comfort,
            2 => Tier::Property,
            _ => Tier::AccessSafety,
        };
        let stale_after = Some(self.number()?).filter(|n| *n != NO_NUMBER).map(u64::from);
        Some((name, Entity { domain, initial, tier, stale_after }))
    }
    fn input(&mut self) -> Option<Input> {
        Some(match self.byte_below(3)? {
            0 => Input::Set { entity: self.place()?, value: self.place()? },
            1 => Input::Restart,
            _ => Input::Reload,
        })
    }
    fn predicate(&mut self) -> Option<Predicate> {
        Some(match self.byte_below(3)? {
            0 => Predicate::State { entity: self.place()?, value: self.place()? },
            1 => {
                self.note()?;
                Predicate::Unknown { reason: self.place()? }
            }
            _ => {
                let [days] = self.take()?;
                return added::window((days, self.number()?.into(), self.number()?.into()));
            }
        })
    }
    fn invariant(&mut self) -> Option<Invariant> {
        let kind = self.byte_below(4)?;
        let id = self.place()?;
        Some(match kind {
            0 => Invariant::Never { id, conditions: self.list(Self::predicate)? },
            1 => Invariant::Guard {
                id,
                entity: self.place()?,
                value: self.place()?,
                requires: self.list(Self::predicate)?,
            },
            2 => Invariant::Transition {
                id,
                entity: self.place()?,
                from: self.place()?,
                to: self.place()?,
            },
            _ => Invariant::Response {
                id,
                when: self.predicate()?,
                then: self.predicate()?,
                within: self.number()?.into(),
            },
        })
    }
    fn trigger(&mut self) -> Option<Trigger> {
        let entity = self.place()?;
        let from = self.optional_place()?;
        let to = self.optional_place()?;
        let source = self.source()?;
        let unknown = self.optional_place()?;
        if unknown.is_some() {
            self.note()?;
        }
        Some(Trigger { entity, from, to, source, unknown })
    }
    fn automation(&mut self) -> Option<Automation> {
        let id = self.place()?;
        let mode = match self.byte_below(4)? {
            0 => Mode::Single,
            1 => Mode::Restart,
            2 => Mode::Queued,
            _ => Mode::Parallel,
        };
        let max = self.number()? as usize;
        let triggers = self.list(Self::trigger)?;
        let conditions = self.list(Self::predicate)?;
        let actions = self.actions(0)?;
        let source = self.source()?;
        let unknown = self.list(|r| {
            r.note()?;
            r.place()
        })?;
        Some(Automation { id, mode, max, triggers, conditions, actions, source, unknown })
    }
    fn actions(&mut self, depth: usize) -> Option<Vec<Action>> {
        self.list(|r| Some(Action { source: r.source()?, effect: r.effect(depth)? }))
    }
    /// An effect in a list at the given depth.
    fn effect(&mut self, depth: usize) -> Option<Effect> {
        Some(match self.byte_below(7)? {
            0 => Effect::Set { entity: self.place()?, value: self.place()? },
            1 => Effect::Toggle { entity: self.place()? },
            2 => Effect::Delay { seconds: self.number()?.into() },
            3 => Effect::Condition { predicate: self.predicate()? },
            4 => {
                if depth >= DEEPEST_LIST {
                    return None;
                }
                let branches = self.list(|r| {
                    Some(Branch {
                        conditions: r.list(Self::predicate)?,
                        sequence: r.actions(depth + 1)?,
                    })
                })?;
                Effect::Choose { branches, default: self.actions(depth + 1)? }
            }
            5 => Effect::Wait {
                trigger: self.trigger()?,
                timeout: self.number()?.into(),
                continue_on_timeout: self.byte_below(2)? == 1,
            },
            _ => {
                self.note()?;
                Effect::Unknown { reason: self.place()? }
            }
        })
    }
}
