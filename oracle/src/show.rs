//! The lines that each program prints, one function for each entry point.
use super::cone;
use super::format::{Decoded, decode, with_events};
use super::reference::*;
use super::refusals;
use std::fmt::Write;

pub const ENTRIES: [&str; 9] = [
    "validate",
    "unsupported",
    "simulate",
    "check",
    "fullcheck",
    "verify",
    "minimize",
    "lint",
    "cone",
];

/// The printed lines, and the witness or reduced file if there is one.
pub struct Answer {
    pub lines: String,
    pub file: Option<Vec<u8>>,
}

/// The answer of an entry point to a model file.
pub fn show(entry: &str, bytes: &[u8]) -> Answer {
    match answer(entry, bytes) {
        Ok(answer) => answer,
        Err(number) => Answer { lines: format!("refused {number}\n"), file: None },
    }
}

fn answer(entry: &str, bytes: &[u8]) -> std::result::Result<Answer, u8> {
    let decoded = decode(bytes)?;
    let s = &decoded.model.scenario;
    let rules = &decoded.model.rules[..];
    let refusal = |error: String| refusals::number(&error);
    let mut out = Lines::default();
    let mut file = None;
    match entry {
        "validate" => {
            validate(s, rules).map_err(refusal)?;
            out.line("accepted");
        }
        "unsupported" => {
            validate(s, rules).map_err(refusal)?;
            let reasons = unsupported(rules);
            out.line(format!("unsupported {}", reasons.len()));
            out.texts("reason", &reasons);
        }
        "simulate" => {
            let simulation = simulate(s, rules).map_err(refusal)?;
            out.line(format!("steps {}", simulation.processed_steps));
            out.line(format!("records {}", simulation.trace.len()));
            out.line(format!("horizon {}", simulation.horizon));
            out.simulation(&simulation);
        }
        "check" => out.short_check(&check(s, rules).map_err(refusal)?),
        "fullcheck" => out.full_check(&check(s, rules).map_err(refusal)?),
        "verify" => {
            let verification = verify(s, rules).map_err(refusal)?;
            file = out.verification(&verification, bytes, &decoded);
        }
        "minimize" => {
            let minimized = minimize(s, rules).map_err(refusal)?;
            file = Some(out.minimized(&minimized, bytes, &decoded));
        }
        "lint" => out.lint(&lint(s, rules).map_err(refusal)?),
        "cone" => {
            let cone = cone::cone(s, rules).map_err(refusal)?;
            out.line(format!("cone {} {}", cone.entities.len(), cone.automations.len()));
            for name in &cone.entities {
                let declared = s.entities.contains_key(name);
                let word = if declared { "declared" } else { "undeclared" };
                out.line(format!("entity {} {word}", quoted(name)));
            }
            for place in &cone.automations {
                out.line(format!("automation {place} {}", quoted(&rules[*place].id)));
            }
        }
        _ => panic!("no entry point of this name: {entry}"),
    }
    Ok(Answer { lines: out.text, file })
}

pub fn quoted(text: &str) -> String {
    format!("\"{}\"", text.replace('\\', "\\\\").replace('"', "\\\""))
}
fn quoted_or_dash(text: &Option<String>) -> String {
    text.as_ref().map_or("-".into(), |text| quoted(text))
}
fn source_or_dash(source: &Option<Source>) -> String {
    source.as_ref().map_or("-".into(), |s| format!("{}:{}", s.line, s.column))
}
fn yes_or_no(value: bool) -> &'static str {
    if value { "yes" } else { "no" }
}
pub fn input(input: &Input) -> String {
    match input {
        Input::Set { entity, value } => format!("set {} {}", quoted(entity), quoted(value)),
        Input::Restart => "restart".into(),
        Input::Reload => "reload".into(),
    }
}
/// A count, then each text quoted.
fn counted_texts(texts: &[String]) -> String {
    let mut line = texts.len().to_string();
    for text in texts {
        line += " ";
        line += &quoted(text);
    }
    line
}

#[derive(Default)]
struct Lines {
    text: String,
}

impl Lines {
    fn line(&mut self, line: impl AsRef<str>) {
        self.text += line.as_ref();
        self.text.push('\n');
    }
    fn texts(&mut self, word: &str, texts: &[String]) {
        for text in texts {
            self.line(format!("{word} {}", quoted(text)));
        }
    }
    fn simulation(&mut self, simulation: &Simulation) {
        for t in &simulation.trace {
            writeln!(
                self.text,
                "record {} {} {} {} {} {} {} {} {}",
                t.index,
                t.at,
                t.kind,
                quoted_or_dash(&t.automation),
                source_or_dash(&t.source),
                quoted_or_dash(&t.entity),
                quoted_or_dash(&t.before),
                quoted_or_dash(&t.after),
                quoted(&t.detail)
            )
            .unwrap();
        }
        for (entity, value) in &simulation.final_state {
            self.line(format!("final {} {}", quoted(entity), quoted(value)));
        }
        self.texts("sim-unknown", &simulation.unknown);
        self.texts("sim-incomplete", &simulation.incomplete);
    }
    fn check_head(&mut self, check: &Check) {
        self.line(format!("status {}", check.status));
        self.line(format!("steps {}", check.simulation.processed_steps));
        self.line(format!("records {}", check.simulation.trace.len()));
    }
    /// Document 01's showcheck, with bare texts.
    fn short_check(&mut self, check: &Check) {
        self.check_head(check);
        for v in &check.violations {
            let source = source_or_dash(&v.source);
            self.line(format!("violated {} {} {} {source}", v.invariant, v.at, v.trace_index));
        }
        for reason in &check.unknown {
            self.line(format!("unknown {reason}"));
        }
        for reason in &check.incomplete {
            self.line(format!("incomplete {reason}"));
        }
    }
    fn full_check(&mut self, check: &Check) {
        self.check_head(check);
        for v in &check.violations {
            self.line(format!(
                "violated {} {} {} {} {}",
                quoted(&v.invariant),
                v.at,
                v.trace_index,
                source_or_dash(&v.source),
                quoted(&v.message)
            ));
        }
        self.texts("unknown", &check.unknown);
        self.texts("incomplete", &check.incomplete);
        self.simulation(&check.simulation);
    }
    /// The events of a witness or reduced model and its file's length.
    fn events(&mut self, word: &str, s: &Scenario, bytes: &[u8], decoded: &Decoded) -> Vec<u8> {
        self.line(format!("{word} {}", s.events.len()));
        for event in &s.events {
            self.line(format!("event {} {}", event.at, input(&event.input)));
        }
        let file = with_events(bytes, decoded, &s.events);
        self.line(format!("file {}", file.len()));
        file
    }
    fn verification(&mut self, v: &Verification, bytes: &[u8], d: &Decoded) -> Option<Vec<u8>> {
        self.line(format!("status {}", v.status));
        self.line(format!("cases {}", v.cases));
        self.line(format!("total_steps {}", v.total_steps));
        let shortest = yes_or_no(v.shortest_by_event_count);
        self.line(format!("shortest_by_event_count {shortest}"));
        self.line(format!(
            "bounds depth {} horizon {} max_cases {} max_steps_per_case {}",
            v.depth, v.horizon, v.max_cases, v.max_steps_per_case
        ));
        for i in &v.alphabet {
            self.line(format!("alphabet {}", input(i)));
        }
        for gap in &v.gaps {
            self.line(format!("gap {gap}"));
        }
        self.texts("reason", &v.reasons);
        let (Some(witness), Some(check)) = (&v.witness, &v.check) else {
            self.line("witness none");
            return None;
        };
        let file = self.events("witness", witness, bytes, d);
        self.line("witness-check");
        self.full_check(check);
        Some(file)
    }
    fn minimized(&mut self, m: &Minimized, bytes: &[u8], d: &Decoded) -> Vec<u8> {
        self.line(format!("invariant {}", quoted(&m.invariant)));
        self.line(format!("original_events {}", m.original_events));
        self.line(format!("attempts {}", m.attempts));
        self.line(format!("deletion_minimal {}", yes_or_no(m.deletion_minimal)));
        let file = self.events("reduced", &m.scenario, bytes, d);
        self.line("reduced-check");
        self.full_check(&m.check);
        file
    }
    fn lint(&mut self, lint: &Lint) {
        self.line(format!(
            "findings {} interactions {} components {}",
            lint.findings.len(),
            lint.interactions.len(),
            lint.components.len()
        ));
        for f in &lint.findings {
            let mut sources = f.sources.len().to_string();
            for source in &f.sources {
                sources += &format!(" {}:{}", source.line, source.column);
            }
            self.line(format!(
                "finding {} {} {} {} automations {} sources {sources}",
                f.code,
                f.certainty,
                f.tier,
                quoted(&f.message),
                counted_texts(&f.automations)
            ));
        }
        for i in &lint.interactions {
            let (from, to) = (quoted(&i.from), quoted(&i.to));
            self.line(format!("interaction {from} {to} {}", quoted(&i.entity)));
        }
        for component in &lint.components {
            self.line(format!("component {}", counted_texts(component)));
        }
        for (id, entities) in &lint.reads {
            self.line(format!("reads {} {}", quoted(id), counted_texts(entities)));
        }
        for (id, entities) in &lint.writes {
            self.line(format!("writes {} {}", quoted(id), counted_texts(entities)));
        }
    }
}
