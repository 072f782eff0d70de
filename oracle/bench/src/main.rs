//! Times our entries and the reference's on the same models. See ../README.md.
mod agree;
mod models;
mod ours;
mod rows;

#[path = "../../src/areas.rs"]
#[allow(dead_code)]
mod areas;
#[path = "../../src/edit.rs"]
#[allow(dead_code)]
mod edit;
#[path = "../../src/random.rs"]
#[allow(dead_code)]
mod random;

/// The reference with the requests built in, and what is built on it: it is timed on models with windows.
#[path = "../../src"]
#[allow(dead_code)]
mod plain {
    pub use ::requested as reference;
    pub mod added;
    pub mod cone;
    pub mod format;
    pub mod refusals;
    #[path = "../bench/src/theirs.rs"]
    pub mod theirs;
}

/// The reference as it is: it is timed on all other models.
#[path = "../../src"]
#[allow(dead_code)]
mod unchanged {
    pub use ::reference;
    #[path = "nothing_added.rs"]
    pub mod added;
    pub mod cone;
    pub mod format;
    pub mod refusals;
    #[path = "../bench/src/theirs.rs"]
    pub mod theirs;
}

/// The copy that counts what the areas need; it isn't timed.
#[path = "../../src"]
#[allow(dead_code)]
mod counted {
    pub use ::counted as reference;
    pub mod added;
    pub mod cone;
    pub mod format;
    pub mod refusals;
    pub mod show;
}

use ours::Lent;
use rows::{Areas, Row};
use std::hint::black_box;
use std::time::{Duration, Instant};

/// The Rust's side of a row: what it answered, and how it is called and its file read again.
pub struct Side<'a> {
    facts: agree::Facts,
    counts: Vec<(usize, &'static str)>,
    call: Box<dyn FnMut() + 'a>,
    decoding: Box<dyn FnMut() + 'a>,
}

const USAGE: &str = "usage:
  bench [ROW-PREFIX]        times the rows whose names begin so
  bench --list              the names of the rows
  bench --write DIR         writes the model file of each row
  bench --loop ROW SECONDS  runs our side of a row for so long, for a profiler";

/// A batch takes at least so long.
const BATCH: Duration = Duration::from_millis(60);
const BATCHES: usize = 9;
/// Fewer batches for rows whose batches take longer than this.
const LONG_BATCH: Duration = Duration::from_millis(400);
const FEW_BATCHES: usize = 5;

fn main() {
    let arguments: Vec<String> = std::env::args().skip(1).collect();
    let words: Vec<&str> = arguments.iter().map(|a| a.as_str()).collect();
    match words[..] {
        [] => table(""),
        ["--list"] => rows::rows("").iter().for_each(|row| println!("{}", row.name)),
        ["--write", folder] => {
            std::fs::create_dir_all(folder).expect("making the folder");
            for row in rows::rows("") {
                let name = format!("{folder}/{}.bin", row.name.replace('/', "-"));
                std::fs::write(name, row.file).expect("writing a file");
            }
        }
        ["--loop", name, seconds] => {
            let seconds: f64 = seconds.parse().unwrap_or_else(|_| usage());
            let rows = rows::rows(name);
            let row = rows.iter().find(|row| row.name == name).unwrap_or_else(|| usage());
            repeat(row, Duration::from_secs_f64(seconds));
        }
        [prefix] if !prefix.starts_with('-') => table(prefix),
        _ => usage(),
    }
}

fn usage() -> ! {
    eprintln!("{USAGE}");
    std::process::exit(2)
}

const HEAD: &str = "\
Rust: the unchanged reference, release build, on the decoded scenario and automations in memory. A call is its `validate`, \
`simulate`, `check`, `verify`, `minimize` or `lint`, each of which validates the model itself (verify and minimize once more \
for each case), and the release of the answer's memory. For `cone`, which the reference doesn't have, it is the oracle's, \
made from the reference's `lint`. In rows `windows-` it is the copy of the reference that has windows built in.

Decoding: the same model file made into the reference's scenario and automations, by the oracle's decoder (the reference \
reads other formats). From the same bytes to an answer the Rust needs both.

Ours: the C functions of libfukhtsege.a on the bytes of the model file. A call reads and validates the file, does the work \
and writes the answer's numbers, the lent areas and the output file. Texts that nothing names (row full-of-texts) stand in \
the file only; the reference doesn't see them.

All in one process, in turns; a batch has so many calls that it takes 60 ms or more. A time is that of the fastest batch, per \
call, with the middle one in brackets; the ratios are of the fastest ones. Before timing, the two answers were compared: refusal, counts, \
status, values at the end, violations, records (second, kind, change), events, written file, findings, interactions.

Areas are given in entries: queue/records/runs, or findings/interactions.
";

fn table(prefix: &str) {
    println!("{HEAD}");
    println!(
        "| Row | Entry | Input | Areas | Rust | Decoding | Ours | Ours / Rust | Ours / (Rust + decoding) |"
    );
    println!("|---|---|---|---|---|---|---|---|---|");
    let mut refused = 0;
    let rows = rows::rows(prefix);
    for row in &rows {
        match time(row) {
            Ok(line) => println!("{line}"),
            Err(reason) => {
                refused += 1;
                println!("| {} | {} | not timed: {reason} | | | | | | |", row.name, row.entry);
            }
        }
    }
    if refused != 0 {
        eprintln!("{refused} of {} rows not timed: the answers differ", rows.len());
        std::process::exit(1);
    }
}

/// The line of a row, or why it isn't timed.
fn time(row: &Row) -> Result<String, String> {
    let mut lent = Lent::new(row.entry, &row.file, &row.areas);
    let unchanged = unchanged::theirs::side(row);
    let side = unchanged.or_else(|| plain::theirs::side(row)).expect("a whole file");
    let number = ours::call(row.entry, &row.file, &mut lent);
    if let Some(difference) = agree::difference(&side.facts, &agree::ours(row, number, &lent)) {
        return Err(difference);
    }
    let what = what(row, &side.counts);
    let mut our_call = || {
        black_box(ours::call(black_box(row.entry), black_box(&row.file), black_box(&mut lent)));
    };
    let Side { call: mut their_call, mut decoding, .. } = side;
    let times = times(&mut their_call, &mut decoding, &mut our_call);
    let [rust, decoding, ours] = times;
    let both = |t: &[f64]| format!("{} ({})", readable(t[0]), readable(t[t.len() / 2]));
    Ok(format!(
        "| {} | {} | {what} | {} | {} | {} | {} | {:.2} | {:.2} |",
        row.name,
        row.entry,
        areas_text(&row.areas),
        both(&rust),
        both(&decoding),
        both(&ours),
        ours[0] / rust[0],
        ours[0] / (rust[0] + decoding[0]),
    ))
}

/// The seconds of each, per call, ascending.
fn times(
    mut their_call: &mut dyn FnMut(),
    mut decoding: &mut dyn FnMut(),
    mut our_call: &mut dyn FnMut(),
) -> [Vec<f64>; 3] {
    let counts = [calls(&mut their_call), calls(&mut decoding), calls(&mut our_call)];
    let mut times = [vec![], vec![], vec![]];
    for n in 0..BATCHES {
        let taken = [
            batch(&mut their_call, counts[0]),
            batch(&mut decoding, counts[1]),
            batch(&mut our_call, counts[2]),
        ];
        for k in 0..3 {
            times[k].push(taken[k].as_secs_f64() / counts[k] as f64);
        }
        if n + 1 >= FEW_BATCHES && taken.iter().any(|&t| t > LONG_BATCH) {
            break;
        }
    }
    times.iter_mut().for_each(|t| t.sort_by(f64::total_cmp));
    times
}

fn batch(call: &mut impl FnMut(), calls: u64) -> Duration {
    let start = Instant::now();
    for _ in 0..calls {
        call();
    }
    start.elapsed()
}

/// So many calls take as long as a batch has to. The first ones also warm up.
fn calls(call: &mut impl FnMut()) -> u64 {
    let mut calls = 1;
    loop {
        let taken = batch(call, calls);
        if taken >= BATCH {
            return calls;
        }
        // Up to ten times as many; a little more than is needed.
        let wanted = BATCH.as_secs_f64() / taken.as_secs_f64().max(1e-9) * 1.2;
        calls = (calls as f64 * wanted.clamp(1.2, 10.0)).ceil() as u64;
    }
}

fn repeat(row: &Row, time: Duration) {
    let mut lent = Lent::new(row.entry, &row.file, &row.areas);
    let (start, mut calls) = (Instant::now(), 0_u64);
    while start.elapsed() < time {
        // Looking at the clock costs little beside sixteen calls.
        for _ in 0..16 {
            black_box(ours::call(row.entry, black_box(&row.file), &mut lent));
            calls += 1;
            if start.elapsed() >= time {
                break;
            }
        }
    }
    let each = start.elapsed().as_secs_f64() / calls as f64;
    println!("{}: {calls} calls, {} each", row.name, readable(each));
}

/// What the input is and what comes of it.
fn what(row: &Row, counts: &[(usize, &str)]) -> String {
    let mut text = format!("{} bytes", grouped(row.file.len()));
    let mut add = |count: usize, word: &str| text += &format!(", {} {word}", grouped(count));
    for (count, word) in counts {
        add(*count, word);
    }
    if matches!(row.entry, "simulate" | "check") {
        let needed = areas::needed(row.entry, &row.file);
        add(row.model.scenario.entities.len(), "entities");
        add(needed[0], "queue items at most");
        add(needed[2], "runs at most");
    }
    text
}

fn areas_text(areas: &Areas) -> String {
    let words =
        |entries: &[usize]| entries.iter().map(|n| grouped(*n)).collect::<Vec<_>>().join(" / ");
    match areas {
        Areas::None => "-".into(),
        Areas::Simulation(entries) => words(entries),
        Areas::Lint(entries) => words(entries),
    }
}

/// A number with commas between thousands.
fn grouped(number: usize) -> String {
    let digits = number.to_string();
    let mut out = String::new();
    for (place, digit) in digits.chars().enumerate() {
        if place > 0 && (digits.len() - place) % 3 == 0 {
            out.push(',');
        }
        out.push(digit);
    }
    out
}

fn readable(seconds: f64) -> String {
    match seconds {
        s if s >= 1.0 => format!("{s:.2} s"),
        s if s >= 1e-3 => format!("{:.2} ms", s * 1e3),
        s if s >= 1e-6 => format!("{:.2} µs", s * 1e6),
        s => format!("{:.0} ns", s * 1e9),
    }
}
