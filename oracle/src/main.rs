//! The oracle: the reference with the requests built in behind our model files. See README.md.
mod areas;
mod compare;
mod compare_all;
mod damage;
mod describe;
mod edit;
mod faults;
mod generate;
mod limits;
mod models;
mod pairs;
mod random;
mod sample;
mod selftest;
mod small_areas;
mod traps;
mod windows;

/// The reference with the requests built in, and what is built on it.
#[path = "."]
mod plain {
    pub use ::requested as reference;
    pub mod added;
    pub mod cone;
    pub mod format;
    pub mod refusals;
    pub mod show;
}

/// The same over the copy that also counts insertions.
#[path = "."]
#[allow(dead_code)]
mod counted {
    pub use ::counted as reference;
    pub mod added;
    pub mod cone;
    pub mod format;
    pub mod refusals;
    pub mod show;
}

/// The same over the reference as it is: old files, for the selftest and the samples.
#[path = "."]
#[allow(dead_code)]
mod unchanged {
    pub use ::reference;
    #[path = "nothing_added.rs"]
    pub mod added;
    pub mod cone;
    pub mod format;
    pub mod refusals;
    pub mod show;
}

use plain::format::{LONGEST_FILE, decode, encode};
use plain::show::{ENTRIES, show};
use std::io::{Read, Write};

const USAGE: &str = "usage:
  oracle show ENTRY [FILE] < model         the lines of an entry point; FILE gets the witness or reduced file
  oracle show-areas ENTRY N.. < model      the same with areas of N entries
  oracle needed ENTRY < model              the most entries that each area needs
  oracle generate ENTRY SEED COUNT DIR [W] writes DIR/000000.bin and so on; W of a hundred models get windows (50)
  oracle expect ENTRY FILE..               the lines for each file, each behind a line `== FILE`
  oracle expect-batch ENTRY BATCH          the expected lines of a batch
  oracle describe < model                  a readable dump
  oracle example                           the model file of the scope's example
  oracle full-file [LENGTH]                a valid model file of LENGTH bytes (32768)
  oracle sample ENTRY DIR                  writes DIR/ENTRY.batch and DIR/ENTRY.expected
  oracle sample-windows ENTRY DIR          writes DIR/ENTRY-windows.batch and DIR/ENTRY-windows.expected
  oracle sample-areas ENTRY DIR            writes DIR/ENTRY-areas.batch and DIR/ENTRY-areas.expected
  oracle compare [--keep DIR] PROGRAM ENTRY N [SEED] [--file] [--areas | --holds N,..] [--windows W]
  oracle compare-all [--keep DIR] --programs DIR MINUTES [SEED] [--windows W]
                                           compares all programs for so many minutes
  oracle histogram ENTRY SEED COUNT [W]    counts the first lines of the answers
  oracle pairs SEED COUNT [CLAUSE [DIR]]   tries the claim about what lies outside a cone on COUNT pairs of models,
                                           with a clause of the cone left out; DIR gets the first pair that differs
  oracle selftest COUNT                    tests the oracle itself
ENTRY: validate unsupported simulate check fullcheck verify minimize lint cone";

fn main() {
    let arguments: Vec<String> = std::env::args().skip(1).collect();
    let words: Vec<&str> = arguments.iter().map(|a| a.as_str()).collect();
    match words[..] {
        ["show", entry] => put(show(known(entry), &standard_input()).lines),
        ["show", entry, file] => {
            let answer = show(known(entry), &standard_input());
            if let Some(bytes) = answer.file {
                std::fs::write(file, bytes).expect("writing the file");
            }
            put(answer.lines);
        }
        ["show-areas", entry, ref entries @ ..] => {
            let entries: Vec<usize> = entries.iter().map(|n| number(n) as usize).collect();
            put(areas::show_areas(known(entry), &standard_input(), &entries));
        }
        ["needed", entry] => {
            let needed = areas::needed(known(entry), &standard_input());
            let words: Vec<_> = needed.iter().map(|n| n.to_string()).collect();
            put(words.join(" ") + "\n");
        }
        ["generate", entry, seed, count, folder, ref rest @ ..] => {
            std::fs::create_dir_all(folder).expect("making the folder");
            let windows = share(rest.first().copied());
            for index in 0..number(count) {
                let bytes = generate::file(known(entry), number(seed), index, windows);
                std::fs::write(format!("{folder}/{index:06}.bin"), bytes).expect("writing a file");
            }
        }
        ["expect", entry, ref files @ ..] => {
            for file in files {
                let bytes = std::fs::read(file).expect("reading a file");
                put(format!("== {file}\n{}", show(known(entry), &bytes).lines));
            }
        }
        ["expect-batch", entry, batch] => {
            let models = sample::read_batch(&std::fs::read(batch).expect("reading a file"));
            put(sample::expected(known(entry), &models));
        }
        ["describe"] => put(describe::describe(&standard_input())),
        ["example"] => put(encode(&edit::example())),
        ["full-file"] => put(full_file(LONGEST_FILE)),
        ["full-file", length] => put(full_file(number(length) as usize)),
        ["sample", entry, folder] => {
            let models = sample::models(known(entry));
            write_sample(folder, entry, &sample::batch(&models), &sample::expected(entry, &models));
            put(format!("{entry}: {} models\n", models.len()));
        }
        ["sample-windows", entry, folder] => {
            let models = sample::window_models(known(entry));
            let name = format!("{entry}-windows");
            write_sample(folder, &name, &sample::batch(&models), &sample::expected(entry, &models));
            put(format!("{name}: {} models\n", models.len()));
        }
        ["sample-areas", entry, folder] => {
            let cases = small_areas::cases(known(entry));
            let name = format!("{entry}-areas");
            write_sample(
                folder,
                &name,
                &small_areas::batch(&cases),
                &small_areas::expected(&cases),
            );
            put(format!("{name}: {} models\n", cases.len()));
        }
        ["compare", ref rest @ ..] => compare_command(rest),
        ["compare-all", ref rest @ ..] => compare_all_command(rest),
        ["histogram", entry, seed, count, ref rest @ ..] => {
            let (count, windows) = (number(count), share(rest.first().copied()));
            put(selftest::histogram(known(entry), number(seed), count, windows));
        }
        ["pairs", seed, count, ref rest @ ..] => {
            let left_out = rest.first().copied().unwrap_or("");
            if !(left_out.is_empty() || pairs::CLAUSES.contains(&left_out)) {
                usage();
            }
            let folder = rest.get(1).copied();
            if !pairs::pairs(number(seed), number(count), left_out, folder) {
                std::process::exit(1);
            }
        }
        ["selftest", count] => selftest::selftest(number(count)),
        _ => usage(),
    }
}

fn compare_command(words: &[&str]) {
    let mut keep = "differences";
    let (mut file, mut areas, mut holds, mut windows) = (false, false, None, generate::WINDOWS);
    let mut plain = vec![];
    let mut words = words.iter();
    while let Some(word) = words.next() {
        match *word {
            "--keep" => keep = words.next().unwrap_or_else(|| usage()),
            "--file" => file = true,
            "--areas" => areas = true,
            "--windows" => windows = share(words.next().copied()),
            "--holds" => {
                let list = words.next().unwrap_or_else(|| usage()).split(',');
                holds = Some(list.map(|n| number(n) as usize).collect());
            }
            word => plain.push(word),
        }
    }
    let (program, entry, count, seed) = match plain[..] {
        [program, entry, count] => (program, entry, count, 1),
        [program, entry, count, seed] => (program, entry, count, number(seed)),
        _ => usage(),
    };
    let (entry, count) = (known(entry), number(count));
    let comparison = compare::Comparison { program, entry, file, areas, holds, windows };
    let tally = compare::compare(&comparison, count, seed, keep);
    put(tally.counts.lines());
    let compare::Tally { compared, differed, windows, .. } = tally;
    put(format!(
        "{entry} seed {seed}: {compared} compared, {windows} with windows, {differed} differed\n"
    ));
    if differed != 0 {
        std::process::exit(1);
    }
}

fn compare_all_command(words: &[&str]) {
    let (mut keep, mut programs, mut windows) = ("differences", None, generate::WINDOWS);
    let mut plain = vec![];
    let mut words = words.iter();
    while let Some(word) = words.next() {
        match *word {
            "--keep" => keep = words.next().unwrap_or_else(|| usage()),
            "--programs" => programs = words.next().copied(),
            "--windows" => windows = share(words.next().copied()),
            word => plain.push(word),
        }
    }
    let (minutes, seed) = match plain[..] {
        [minutes] => (minutes, compare_all::fresh_seed()),
        [minutes, seed] => (minutes, number(seed)),
        _ => usage(),
    };
    let minutes: f64 = minutes.parse().unwrap_or_else(|_| usage());
    if !(0.0..1e6).contains(&minutes) {
        usage();
    }
    let programs = programs.unwrap_or_else(|| usage());
    if !compare_all::compare_all(programs, minutes * 60.0, seed, windows, keep) {
        std::process::exit(1);
    }
}

/// A batch and its expected lines.
fn write_sample(folder: &str, name: &str, batch: &[u8], expected: &str) {
    std::fs::create_dir_all(folder).expect("making the folder");
    std::fs::write(format!("{folder}/{name}.batch"), batch).expect("writing");
    std::fs::write(format!("{folder}/{name}.expected"), expected).expect("writing");
}

fn usage() -> ! {
    eprintln!("{USAGE}");
    std::process::exit(2)
}
fn known(entry: &str) -> &str {
    if !ENTRIES.contains(&entry) {
        usage();
    }
    entry
}
/// How many of a hundred models get windows.
fn share(word: Option<&str>) -> usize {
    word.map_or(generate::WINDOWS, |word| number(word).min(100) as usize)
}
fn number(word: &str) -> u64 {
    word.parse().unwrap_or_else(|_| usage())
}
/// Standard input; what lies beyond the first byte too many is not read.
fn standard_input() -> Vec<u8> {
    let mut bytes = vec![];
    let most = LONGEST_FILE as u64 + 1;
    std::io::stdin().take(most).read_to_end(&mut bytes).expect("reading standard input");
    bytes
}
fn put(content: impl AsRef<[u8]>) {
    // The reader may have gone away.
    let _ = std::io::stdout().write_all(content.as_ref());
}
fn full_file(length: usize) -> Vec<u8> {
    let mut model = edit::example();
    edit::pad(&mut model, length);
    let bytes = encode(&model);
    assert_eq!(decode(&bytes).is_ok(), length <= LONGEST_FILE);
    bytes
}
