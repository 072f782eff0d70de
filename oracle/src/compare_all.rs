//! Compares all programs with the reference until the time is over.
use crate::compare::{Comparer, Comparison, Tally};
use crate::generate::CLASSES;
use crate::random::Random;
use std::time::{Duration, Instant, SystemTime, UNIX_EPOCH};

/// What the program's own areas hold, if that can be too few.
const CHECK_HOLDS: [usize; 3] = [3276, 1260, 585];
const LINT_HOLDS: [usize; 2] = [9362, 43690];

/// A program is compared so long before the next one has its turn.
const TURN: Duration = Duration::from_millis(500);

/// An entry and whether a file is written, areas are passed, the program's own areas hold few.
const VARIANTS: [(&str, bool, bool, &[usize]); 18] = [
    ("validate", false, false, &[]),
    ("unsupported", false, false, &[]),
    ("simulate", false, false, &[]),
    ("simulate", false, true, &[]),
    ("check", false, false, &CHECK_HOLDS),
    ("fullcheck", false, false, &[]),
    ("fullcheck", false, true, &[]),
    ("verify", false, false, &[]),
    ("verify", true, false, &[]),
    ("verify", false, true, &[]),
    ("verify", true, true, &[]),
    ("minimize", false, false, &[]),
    ("minimize", true, false, &[]),
    ("minimize", false, true, &[]),
    ("minimize", true, true, &[]),
    ("lint", false, false, &LINT_HOLDS),
    ("lint", false, true, &LINT_HOLDS),
    ("cone", false, false, &[]),
];

struct Row {
    entry: &'static str,
    variant: String,
    program: String,
    file: bool,
    areas: bool,
    holds: Option<Vec<usize>>,
    windows: usize,
    /// The seed of this row's models, and the number of the next one.
    seed: u64,
    next: u64,
    used: Duration,
    tally: Tally,
}

impl Row {
    /// Compares models until the turn or the time is over.
    fn turn(&mut self, comparer: &Comparer, end: Instant) {
        let comparison = Comparison {
            program: &self.program,
            entry: self.entry,
            file: self.file,
            areas: self.areas,
            holds: self.holds.clone(),
            windows: self.windows,
        };
        let start = Instant::now();
        while start.elapsed() < TURN && Instant::now() < end {
            comparer.compare(&comparison, self.seed, self.next, &mut self.tally);
            self.next += 1;
        }
        self.used += start.elapsed();
    }
}

/// A seed from the clock.
pub fn fresh_seed() -> u64 {
    SystemTime::now().duration_since(UNIX_EPOCH).map_or(0, |time| time.as_millis() as u64)
}

/// Gives true if nothing differed. So many of a hundred models get windows.
pub fn compare_all(programs: &str, seconds: f64, seed: u64, windows: usize, keep: &str) -> bool {
    let mut rows = rows(programs, seed, windows);
    let missing: Vec<_> =
        rows.iter().map(|r| &r.program).filter(|p| !std::path::Path::new(p).is_file()).collect();
    if !missing.is_empty() {
        eprintln!("not there: {missing:?}");
        std::process::exit(2);
    }
    println!("seed {seed}, windows {windows} of 100");
    let comparer = Comparer::new(keep);
    let end = Instant::now() + Duration::from_secs_f64(seconds);
    while Instant::now() < end {
        // The entry that had the least time, and of its rows the one that had the least.
        let of_entry = |entry: &str| {
            rows.iter().filter(|r| r.entry == entry).map(|r| r.used).sum::<Duration>()
        };
        let place = (0..rows.len()).min_by_key(|n| (of_entry(rows[*n].entry), rows[*n].used));
        rows[place.unwrap()].turn(&comparer, end);
    }
    print(&rows);
    rows.iter().all(|row| row.tally.differed == 0)
}

fn rows(programs: &str, seed: u64, windows: usize) -> Vec<Row> {
    let mut rows = vec![];
    for (entry, file, areas, holds) in VARIANTS {
        let variant = match (file, areas, holds.is_empty()) {
            (false, false, true) => "plain",
            (false, false, false) => "holds",
            (true, false, _) => "file",
            (false, true, _) => "areas",
            (true, true, _) => "areas, file",
        };
        // Each row has models of its own.
        let name = format!("{entry} {variant}");
        let seed = Random::for_file(seed, &name, 0).next() >> 16;
        rows.push(Row {
            entry,
            variant: variant.into(),
            program: format!("{programs}/show{entry}"),
            file,
            areas,
            holds: (!holds.is_empty()).then(|| holds.to_vec()),
            windows,
            seed,
            next: 0,
            used: Duration::ZERO,
            tally: Tally::default(),
        });
    }
    rows
}

fn print(rows: &[Row]) {
    print!("\n{:12} {:12} {:>9} {:>9}", "entry", "variant", "compared", "differed");
    for class in CLASSES {
        print!(" {class:>9}");
    }
    println!(" {:>9} {:>9}", "windows", "seconds");
    let mut sum = Tally::default();
    for row in rows {
        let t = &row.tally;
        print_counts(row.entry, &row.variant, t);
        println!(" {:9.1}", row.used.as_secs_f64());
        sum.compared += t.compared;
        sum.differed += t.differed;
        sum.windows += t.windows;
        for (all, count) in sum.classes.iter_mut().zip(t.classes) {
            *all += count;
        }
    }
    print_counts("all", "", &sum);
    println!("\n\nmodels with windows that were answered:");
    let mut entries: Vec<_> = rows.iter().map(|row| row.entry).collect();
    entries.dedup();
    for entry in entries {
        let of_entry = rows.iter().filter(|row| row.entry == entry);
        println!("{entry}: {}", of_entry.map(|row| row.tally.windows).sum::<usize>());
    }
    println!("\nby first line:");
    for row in rows {
        println!("{} ({}), seed {}: {}", row.entry, row.variant, row.seed, row.tally.counts.line());
    }
    println!("\n{} compared, {} differed", sum.compared, sum.differed);
}

fn print_counts(entry: &str, variant: &str, t: &Tally) {
    print!("{entry:12} {variant:12} {:9} {:9}", t.compared, t.differed);
    for count in t.classes {
        print!(" {count:9}");
    }
    print!(" {:9}", t.windows);
}
