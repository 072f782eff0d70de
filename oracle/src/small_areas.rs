//! The fixed sample of models with small areas and a short output, for the repository.
use crate::areas;
use crate::compare::class;
use crate::generate;
use crate::plain::show::show;
use crate::random::Random;
use std::collections::BTreeMap;

const SEED: u64 = 2027;
const LONGEST_MODEL: usize = 700;
const LONGEST_ANSWER: usize = 3000;
/// So many models of each answer: of each area that is full, of an output too short, of all others.
const OF_EACH: usize = 5;
const OTHERS: usize = 5;
/// Files tried for an entry point.
const TRIED: u64 = 3000;
/// The output has room enough with so many bytes more than the file.
const MORE: usize = 45;

/// A model with the entries of its areas (0 for one that isn't lent) and the bytes of its output.
pub struct Case {
    pub sizes: [u32; 4],
    pub file: Vec<u8>,
    pub lines: String,
}

/// The cases of an entry point's sample.
pub fn cases(entry: &str) -> Vec<Case> {
    let random = &mut Random::new(SEED);
    let mut seen: BTreeMap<String, usize> = BTreeMap::new();
    let mut out = vec![];
    for index in 0..TRIED {
        let file = generate::file(entry, SEED, index, 0);
        if file.len() > LONGEST_MODEL {
            continue;
        }
        let entries = areas::random_entries(entry, &file, random);
        let output = file.len() + MORE - usize::from(random.below(4) == 0);
        let lines = answer(entry, &file, &entries, output);
        let count = seen.entry(class(&lines)).or_default();
        let most = if is_of_areas(&lines) { OF_EACH } else { OTHERS };
        if *count < most && is_wanted(&lines) {
            *count += 1;
            out.push(Case { sizes: sizes(&entries, output), file, lines });
        }
    }
    out
}

/// The lines with areas of these entries and an output of so many bytes: what refuses a file comes first (30, 31, 1 to 20),
/// then an output too short, then what the counted copy says.
fn answer(entry: &str, file: &[u8], entries: &[usize], output: usize) -> String {
    let plain = show(entry, file).lines;
    let writes = entry == "verify" || entry == "minimize";
    if refusal(&plain).is_some_and(|n| n != 21) {
        plain
    } else if writes && output < file.len() + MORE {
        "refused 44\n".to_string()
    } else {
        areas::show_areas(entry, file, entries)
    }
}

fn refusal(lines: &str) -> Option<u32> {
    lines.strip_prefix("refused ").map(|n| n.trim_end().parse().expect("a number"))
}

/// An area is full, or the output too short.
fn is_of_areas(lines: &str) -> bool {
    refusal(lines).is_some_and(|n| n >= 41)
}

/// Refusals of the file are in the other samples; of these only 20 and 21 stand here, beside 44.
fn is_wanted(lines: &str) -> bool {
    refusal(lines).is_none_or(|n| n == 20 || n == 21 || n >= 41) && lines.len() <= LONGEST_ANSWER
}

fn sizes(entries: &[usize], output: usize) -> [u32; 4] {
    let entry = |place: usize| entries.get(place).copied().unwrap_or(0) as u32;
    [entry(0), entry(1), entry(2), output as u32]
}

/// The batch: for each model its length and 16 as u32, little-endian, its four sizes, and its bytes.
pub fn batch(cases: &[Case]) -> Vec<u8> {
    let mut out = vec![];
    for case in cases {
        out.extend((case.file.len() as u32 + 16).to_le_bytes());
        for size in case.sizes {
            out.extend(size.to_le_bytes());
        }
        out.extend(&case.file);
    }
    out
}

/// The expected lines of each model behind a line `model K`.
pub fn expected(cases: &[Case]) -> String {
    let mut out = String::new();
    for (place, case) in cases.iter().enumerate() {
        out += &format!("model {place}\n");
        out += &case.lines;
    }
    out
}
