//! The rows of the table.
use crate::areas::needed;
use crate::edit::example;
use crate::models;
use crate::plain::format::{Model, decode, encode};

/// Entries of the lent areas.
#[derive(Clone, Debug)]
pub enum Areas {
    None,
    /// Queue, records, runs.
    Simulation([usize; 3]),
    /// Findings, interactions.
    Lint([usize; 2]),
}

/// How large the lent areas are.
#[derive(Clone, Copy)]
pub enum Size {
    /// 16,380 words each.
    Words,
    /// What the model needs.
    Fit,
    /// Never too small; for lint what the model needs.
    Enough,
}

pub struct Row {
    pub name: String,
    pub entry: &'static str,
    pub file: Vec<u8>,
    pub model: Model,
    pub areas: Areas,
}

const WORDS: usize = 16_380;

fn areas(entry: &str, file: &[u8], size: Size) -> Areas {
    match (entry, size) {
        ("validate" | "cone", _) => Areas::None,
        ("lint", Size::Words) => Areas::Lint([WORDS / 14, WORDS / 3]),
        ("lint", _) => Areas::Lint(needed(entry, file).try_into().unwrap()),
        (_, Size::Words) => Areas::Simulation([WORDS / 5, WORDS / 13, WORDS / 28]),
        (_, Size::Fit) => Areas::Simulation(needed(entry, file).try_into().unwrap()),
        (_, Size::Enough) => Areas::Simulation([20_543, 10_096, 512]),
    }
}

fn row(name: &str, entry: &'static str, model: &Model, size: Size) -> Row {
    let file = encode(model);
    // Both sides get what stands in the file.
    let model = decode(&file).expect("a whole file").model;
    let areas = areas(entry, &file, size);
    let ending = match (&areas, size) {
        (Areas::None, _) => "",
        (_, Size::Words) => "/words",
        (_, Size::Fit) => "/fit",
        (_, Size::Enough) => "",
    };
    Row { name: format!("{name}/{entry}{ending}"), entry, file, model, areas }
}

/// A model, its entries and the sizes of areas, in the order of the table.
type Source = (&'static str, fn() -> Model, &'static [&'static str], &'static [Size]);
const BOTH: &[&str] = &["simulate", "check"];
const SOURCES: [Source; 30] = [
    ("example", example, &["validate", "cone"], &[Size::Fit]),
    (
        "example",
        example,
        &["simulate", "check", "verify", "minimize", "lint"],
        &[Size::Words, Size::Fit],
    ),
    ("full-of-texts", models::padded_example, &["validate"], &[Size::Fit]),
    ("full-of-parts", models::full, &["validate"], &[Size::Fit]),
    ("steps", models::steps, &["simulate", "check"], &[Size::Enough]),
    ("records-3-entities", || models::records(3, 1), &["simulate", "check"], &[Size::Enough]),
    ("records-32-entities", || models::records(32, 32), &["simulate", "check"], &[Size::Enough]),
    ("queue-alike", || models::expiries(0), &["simulate", "check"], &[Size::Enough]),
    ("queue-middle", || models::expiries(97), &["simulate", "check"], &[Size::Enough]),
    ("queue-runs", models::crowd, &["simulate", "check"], &[Size::Enough]),
    ("parallel-max", models::parallel, BOTH, &[Size::Enough]),
    ("search-many-steps", || models::search(16), &["verify"], &[Size::Enough, Size::Fit]),
    ("search-few-steps", || models::search(0), &["verify"], &[Size::Enough, Size::Fit]),
    ("reduction-many-steps", || models::reduction(5), &["minimize"], &[Size::Enough, Size::Fit]),
    ("reduction-few-steps", || models::reduction(0), &["minimize"], &[Size::Enough, Size::Fit]),
    ("toggles-512", || models::toggles(32, 16), &["lint"], &[Size::Enough]),
    ("mixed", models::mixed, &["lint", "cone"], &[Size::Enough]),
    ("grow-steps-1500", || models::grown(1500, 8, 0, 4), BOTH, &[Size::Enough]),
    ("grow-steps-3000", || models::grown(3000, 8, 0, 4), BOTH, &[Size::Enough]),
    ("grow-steps-6000", || models::grown(6000, 8, 0, 4), BOTH, &[Size::Enough]),
    ("grow-entities-16", || models::grown(3000, 16, 0, 4), BOTH, &[Size::Enough]),
    ("grow-entities-32", || models::grown(3000, 32, 0, 4), BOTH, &[Size::Enough]),
    ("grow-automations-16", || models::grown(3000, 8, 8, 4), BOTH, &[Size::Enough]),
    ("grow-automations-32", || models::grown(3000, 8, 24, 4), BOTH, &[Size::Enough]),
    ("grow-invariants-0", || models::grown(3000, 8, 0, 0), BOTH, &[Size::Enough]),
    ("grow-invariants-16", || models::grown(3000, 8, 0, 16), BOTH, &[Size::Enough]),
    ("grow-invariants-32", || models::grown(3000, 8, 0, 32), BOTH, &[Size::Enough]),
    ("windows-example", models::example_at_night, BOTH, &[Size::Fit]),
    ("windows-1", || models::windows(3000, 1), BOTH, &[Size::Enough]),
    ("windows-32", || models::windows(3000, 32), BOTH, &[Size::Enough]),
];

/// The rows whose names begin with the prefix.
pub fn rows(prefix: &str) -> Vec<Row> {
    let mut rows = vec![];
    for (name, make, entries, sizes) in SOURCES {
        // Most of the time goes into the models that are asked for.
        if !(name.starts_with(prefix) || prefix.starts_with(name)) {
            continue;
        }
        let model = make();
        for entry in entries {
            for size in sizes {
                rows.push(row(name, entry, &model, *size));
            }
        }
    }
    rows.retain(|row| row.name.starts_with(prefix));
    rows
}
