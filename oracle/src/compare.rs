//! Runs fresh models through a program and through the reference and compares the lines.
use crate::areas;
use crate::generate;
use crate::plain::show::show;
use crate::random::Random;
use crate::windows;
use std::collections::BTreeMap;
use std::io::{Read, Write};
use std::path::{Path, PathBuf};
use std::process::{Child, Command, Stdio};
use std::sync::{Arc, Mutex};
use std::time::{Duration, Instant};

/// A program that runs longer is ended and counts as different.
const LONGEST_RUN: Duration = Duration::from_secs(60);
const DIFFERENCES_PRINTED: usize = 5;
const DIFFERENCES_KEPT: usize = 20;

/// A program and what is compared of it.
pub struct Comparison<'a> {
    pub program: &'a str,
    pub entry: &'a str,
    /// Also compare the witness or reduced file.
    pub file: bool,
    /// Pass random numbers of entries for the areas as arguments.
    pub areas: bool,
    /// The entries that the program's own areas hold, if they can be too few.
    pub holds: Option<Vec<usize>>,
    /// So many of a hundred models get windows.
    pub windows: usize,
}

/// What came of some comparisons.
#[derive(Default)]
pub struct Tally {
    pub compared: usize,
    pub differed: usize,
    /// By the classes of `generate::CLASSES`.
    pub classes: [usize; generate::CLASSES.len()],
    /// Models with a window in an automation that weren't refused.
    pub windows: usize,
    pub counts: Counts,
}

/// The program that runs now, so that it can be ended if it takes too long.
type Running = Arc<Mutex<Option<(Instant, Child)>>>;

/// Runs programs and keeps the models with differing answers.
pub struct Comparer {
    running: Running,
    /// The folder in which they are kept.
    keep: String,
    /// The file that a program is to write.
    written: PathBuf,
}

impl Comparer {
    pub fn new(keep: &str) -> Self {
        std::fs::create_dir_all(keep).expect("the folder for differences");
        let running: Running = Arc::new(Mutex::new(None));
        watch(running.clone());
        let written = Path::new(keep).join(format!("written.{}", std::process::id()));
        Comparer { running, keep: keep.into(), written }
    }

    /// Compares the program's answer to one model.
    pub fn compare(&self, c: &Comparison, seed: u64, index: u64, tally: &mut Tally) {
        let (bytes, class) = generate::classed_file(c.entry, seed, index, c.windows);
        let mut arguments = vec![];
        let (expected, expected_file) = if c.areas {
            let random = &mut Random::for_file(seed ^ 1, c.entry, index);
            let mut entries = areas::random_entries(c.entry, &bytes, random);
            for (number, most) in entries.iter_mut().zip(c.holds.iter().flatten()) {
                *number = (*number).min(*most);
            }
            arguments.extend(entries.iter().map(|n| n.to_string()));
            areas::show_areas_and_file(c.entry, &bytes, &entries)
        } else if let Some(holds) = &c.holds {
            areas::show_areas_and_file(c.entry, &bytes, holds)
        } else {
            let answer = show(c.entry, &bytes);
            (answer.lines, answer.file)
        };
        if c.file {
            arguments.push(self.written.to_str().expect("a plain path").to_string());
            let _ = std::fs::remove_file(&self.written);
        }
        let printed = run(c.program, &arguments, &bytes, &self.running);
        tally.compared += 1;
        tally.classes[class] += 1;
        let answered = !expected.starts_with("refused");
        tally.windows += usize::from(answered && windows::are_in(&bytes));
        tally.counts.add(&expected);
        let same_file = !c.file || std::fs::read(&self.written).ok() == expected_file;
        if printed == expected.as_bytes() && same_file {
            return;
        }
        tally.differed += 1;
        if tally.differed > DIFFERENCES_KEPT {
            return;
        }
        let name = format!("{}/{}-{seed}-{index}", self.keep, c.entry);
        let put = |ending: &str, content: &[u8]| {
            std::fs::write(format!("{name}.{ending}"), content).expect("keeping a file");
        };
        put("bin", &bytes);
        put("arguments", arguments.join(" ").as_bytes());
        put("expected", expected.as_bytes());
        put("printed", &printed);
        if let (true, Some(file)) = (c.file, &expected_file) {
            put("expected-file", file);
            put("written-file", &std::fs::read(&self.written).unwrap_or_default());
        }
        if tally.differed <= DIFFERENCES_PRINTED {
            println!("differs: {name}.bin {}", arguments.join(" "));
            print_first_difference(&expected, &String::from_utf8_lossy(&printed));
            if !same_file {
                println!("  the written file differs");
            }
        }
    }
}

impl Drop for Comparer {
    fn drop(&mut self) {
        let _ = std::fs::remove_file(&self.written);
    }
}

/// The first models of a seed.
pub fn compare(c: &Comparison, count: u64, seed: u64, keep: &str) -> Tally {
    let comparer = Comparer::new(keep);
    let mut tally = Tally::default();
    for index in 0..count {
        comparer.compare(c, seed, index, &mut tally);
    }
    tally
}

/// How many answers begin with which line.
#[derive(Default)]
pub struct Counts(BTreeMap<(u32, String), usize>);

impl Counts {
    pub fn add(&mut self, lines: &str) {
        let class = class(lines);
        let number = class.strip_prefix("refused ").map_or(0, |n| n.parse().unwrap_or(0));
        *self.0.entry((number, class)).or_default() += 1;
    }
    /// One line for each class; refusals in the order of their numbers.
    pub fn lines(&self) -> String {
        self.0.iter().map(|((_, class), count)| format!("{count:8} {class}\n")).collect()
    }
    /// The same in one line.
    pub fn line(&self) -> String {
        let parts: Vec<_> = self.0.iter().map(|((_, class), n)| format!("{n} {class}")).collect();
        parts.join(", ")
    }
}

/// A refusal or a status as it is, otherwise the first word.
pub fn class(lines: &str) -> String {
    let first = lines.lines().next().unwrap_or("nothing");
    if first.starts_with("refused") || first.starts_with("status") {
        first.to_string()
    } else {
        first.split(' ').next().unwrap_or("nothing").to_string()
    }
}

fn print_first_difference(expected: &str, printed: &str) {
    let (mut left, mut right) = (expected.split('\n'), printed.split('\n'));
    for number in 1.. {
        let (l, r) = (left.next(), right.next());
        if l != r {
            println!("  line {number} expected: {}", readable(l));
            println!("  line {number} printed:  {}", readable(r));
            return;
        }
        if l.is_none() {
            return;
        }
    }
}

/// A line for people: cut if long, without control bytes.
fn readable(line: Option<&str>) -> String {
    let Some(line) = line else { return "(end)".into() };
    let short: String = line.chars().take(160).collect();
    short.replace(|c: char| c.is_control(), "?")
}

/// What the program writes to standard output.
fn run(program: &str, arguments: &[String], input: &[u8], running: &Running) -> Vec<u8> {
    let mut child = Command::new(program)
        .args(arguments)
        .stdin(Stdio::piped())
        .stdout(Stdio::piped())
        .stderr(Stdio::null())
        .spawn()
        .expect("starting the program");
    let mut stdin = child.stdin.take().unwrap();
    let mut stdout = child.stdout.take().unwrap();
    *running.lock().unwrap() = Some((Instant::now(), child));
    // A model is smaller than what a pipe holds; a program need not read all of it.
    let _ = stdin.write_all(input);
    drop(stdin);
    let mut printed = vec![];
    let _ = stdout.read_to_end(&mut printed);
    let (_, mut child) = running.lock().unwrap().take().unwrap();
    let status = child.wait().expect("waiting for the program");
    if status.code().is_none() {
        printed.extend(format!("(ended: {status})\n").bytes());
    }
    printed
}

fn watch(running: Running) {
    std::thread::spawn(move || {
        loop {
            std::thread::sleep(Duration::from_millis(500));
            if let Some((start, child)) = running.lock().unwrap().as_mut()
                && start.elapsed() > LONGEST_RUN
            {
                let _ = child.kill();
            }
        }
    });
}
