//! The fixed sample of small models for the repository.
use crate::compare::class;
use crate::damage::{DAMAGES, damaged, damaged_windows};
use crate::edit::*;
use crate::faults::{FAULTS, WINDOW_FAULTS};
use crate::generate;
use crate::limits::{LIMITS, WINDOW_LIMITS};
use crate::plain::format::{Model, encode};
use crate::plain::show::show;
use crate::random::Random;
use crate::traps::traps;
use crate::unchanged;
use crate::windows;
use std::collections::{BTreeMap, BTreeSet};

const SEED: u64 = 2026;
const RANDOM_MODELS: usize = 80;
const LONGEST_MODEL: usize = 1500;
const LONGEST_ANSWER: usize = 6000;
/// At most so many random models whose answers begin alike, unless few kinds exist.
const MOST_REFUSALS_ALIKE: usize = 3;

/// The models of an entry point's sample, without windows. They are chosen by the answers of the unchanged reference, so
/// that they stay the same when a request changes answers.
pub fn models(entry: &str) -> Vec<Vec<u8>> {
    let mut out = vec![encode(&example())];
    if entry == "validate" {
        out.extend(validation());
    }
    out.extend(random(entry, 0, &|file| unchanged::show::show(entry, file).lines));
    each_once(out)
}

/// The models of an entry point's sample with windows: the traps, and random models.
pub fn window_models(entry: &str) -> Vec<Vec<u8>> {
    let simulated = matches!(entry, "simulate" | "check" | "fullcheck");
    let mut out = vec![];
    for trap in traps() {
        // What is read when shows in simulations only.
        if simulated || trap.entry != "simulate" {
            out.push(encode(&trap.model));
        }
    }
    if entry == "validate" {
        out.extend(window_validation());
    }
    out.extend(random(entry, 100, &|file| show(entry, file).lines));
    each_once(out)
}

fn each_once(mut files: Vec<Vec<u8>>) -> Vec<Vec<u8>> {
    let mut seen = BTreeSet::new();
    files.retain(|file| seen.insert(file.clone()));
    files
}

/// The models of a batch.
pub fn read_batch(mut bytes: &[u8]) -> Vec<Vec<u8>> {
    let mut out = vec![];
    while let Some((length, rest)) = bytes.split_first_chunk() {
        let (model, rest) = rest.split_at(u32::from_le_bytes(*length) as usize);
        out.push(model.to_vec());
        bytes = rest;
    }
    out
}

/// The batch: for each model its length as u32, little-endian, and its bytes.
pub fn batch(models: &[Vec<u8>]) -> Vec<u8> {
    let mut out = vec![];
    for model in models {
        out.extend((model.len() as u32).to_le_bytes());
        out.extend(model);
    }
    out
}

/// The expected lines of each model behind a line `model K`.
pub fn expected(entry: &str, models: &[Vec<u8>]) -> String {
    let mut out = String::new();
    for (place, model) in models.iter().enumerate() {
        out += &format!("model {place}\n");
        out += &show(entry, model).lines;
    }
    out
}

/// Every limit, every fault, pairs of faults and each kind of damage on a small model.
fn validation() -> Vec<Vec<u8>> {
    let mut out = vec![encode(&base())];
    let random = &mut Random::new(SEED);
    for (_, change) in LIMITS {
        let mut model = base();
        change(&mut model, random);
        out.push(encode(&model));
    }
    for (_, _, change) in FAULTS {
        let mut model = base();
        change(&mut model, random);
        out.push(encode(&model));
    }
    // A fault together with one that mostly comes later.
    for number in 1..=19 {
        let variants = |n: u8| FAULTS.iter().filter(move |f| f.0 == n).collect::<Vec<_>>();
        let later = if number < 19 { number + 1 } else { 19 };
        let mut model = base();
        (random.pick(&variants(later)).2)(&mut model, random);
        (random.pick(&variants(number)).2)(&mut model, random);
        out.push(encode(&model));
    }
    for (kind, name) in DAMAGES.iter().enumerate() {
        if *name != "32769 bytes" {
            out.push(damaged(&base(), kind, random));
            out.push(damaged(&base(), kind, random));
        }
    }
    out
}

/// Limits, faults and damage of windows and starts on small models.
fn window_validation() -> Vec<Vec<u8>> {
    let random = &mut Random::new(SEED);
    let with_windows = |random: &mut Random| -> Model {
        let mut model = base();
        windows::add(&mut model, random);
        model
    };
    let mut out = vec![];
    for (_, change) in WINDOW_LIMITS {
        let mut model = base();
        change(&mut model, random);
        out.push(encode(&model));
    }
    for (_, _, change) in WINDOW_FAULTS {
        let mut model = base();
        change(&mut model, random);
        out.push(encode(&model));
    }
    for _ in 0..80 {
        let model = with_windows(random);
        out.push(damaged_windows(&model, random));
    }
    out
}

/// Small models from the generator, with few refusals of the same number.
fn random(entry: &str, windows: usize, show: &dyn Fn(&[u8]) -> String) -> Vec<Vec<u8>> {
    let wanted = if entry == "validate" { 20 } else { RANDOM_MODELS };
    let mut out: Vec<Vec<u8>> = vec![];
    let mut alike: BTreeMap<String, usize> = BTreeMap::new();
    for index in 0.. {
        if out.len() >= wanted {
            break;
        }
        let file = generate::file(entry, SEED, index, windows);
        if file.len() > LONGEST_MODEL {
            continue;
        }
        let lines = show(&file);
        let class = class(&lines);
        let seen = alike.entry(class.clone()).or_default();
        let few = match class.as_str() {
            c if c.starts_with("refused") => MOST_REFUSALS_ALIKE,
            c if c.starts_with("status") => RANDOM_MODELS / 3,
            _ => RANDOM_MODELS,
        };
        if *seen < few && lines.len() <= LONGEST_ANSWER {
            *seen += 1;
            out.push(file);
        }
    }
    out
}
