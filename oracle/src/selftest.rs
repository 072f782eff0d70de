//! Tests of the oracle itself.
use crate::areas;
use crate::compare::{Counts, class};
use crate::edit::{all_actions, base, count_notes, example, pad, set_input};
use crate::faults::{FAULTS, WINDOW_FAULTS};
use crate::generate;
use crate::limits::{LIMITS, WINDOW_LIMITS};
use crate::plain::format::{Model, decode, encode, with_events};
use crate::plain::reference::{Limits, Start, is_open, set_clock};
use crate::plain::show::{ENTRIES, show};
use crate::random::Random;
use crate::sample;
use crate::traps::traps;
use crate::unchanged;
use crate::windows;
use std::collections::BTreeMap;

/// How many answers begin with which line.
pub fn histogram(entry: &str, seed: u64, count: u64, windows: usize) -> String {
    let mut counts = Counts::default();
    for index in 0..count {
        counts.add(&show(entry, &generate::file(entry, seed, index, windows)).lines);
    }
    counts.lines()
}

pub fn selftest(count: u64) {
    let lines = show("check", &encode(&example())).lines;
    assert_eq!(lines, "status violation\nsteps 5\nrecords 7\nviolated nodoor 5 4 7:3\n");
    println!("the scope's example: as written there");
    limits_and_faults();
    searches();
    samples();
    arithmetic();
    for trap in traps() {
        let lines = show(trap.entry, &encode(&trap.model)).lines;
        assert!(lines.contains(trap.says), "{lines}");
        let no = lines.contains("conditions No") || lines.contains("selected branch");
        assert!(!no || !lines.contains(": unknown "), "{lines}");
    }
    println!("{} traps: as worked out by hand", traps().len());
    for length in 400..2000 {
        let mut model = base();
        pad(&mut model, length);
        assert_eq!(encode(&model).len(), length);
        assert!(decode(&encode(&model)).is_ok());
    }
    for entry in ENTRIES {
        files(entry, count);
        valid_models(entry, count);
        old_files(entry, count);
        without_windows(entry, count);
    }
}

/// Each limit is accepted, each fault gets its number on a model without others.
fn limits_and_faults() {
    for seed in 0..20 {
        let random = &mut Random::new(seed);
        for (name, change) in LIMITS.iter().chain(WINDOW_LIMITS) {
            let mut model = base();
            change(&mut model, random);
            assert_eq!(show("validate", &encode(&model)).lines, "accepted\n", "{name}");
        }
        for (number, name, change) in FAULTS.iter().chain(WINDOW_FAULTS) {
            let mut model = base();
            change(&mut model, random);
            let lines = show("validate", &encode(&model)).lines;
            assert_eq!(lines, format!("refused {number}\n"), "{name}");
        }
    }
    let (limits, faults) = (LIMITS.len(), FAULTS.len());
    println!("{limits} limits and {faults} faults: as expected");
    let (limits, faults) = (WINDOW_LIMITS.len(), WINDOW_FAULTS.len());
    println!("{limits} limits and {faults} faults of windows and starts: as expected");
}

/// Searches without violation, gap 10, horizon 20, depth 5.
fn searches() {
    for (inputs, cases) in [(1, 3), (2, 7)] {
        let mut model = base();
        model.scenario.gaps = vec![10];
        model.scenario.alphabet = vec![set_input("a", "on"); inputs];
        let horizon = 20;
        model.scenario.limits = Limits { horizon, max_steps: 100, search_depth: 5, max_cases: 99 };
        let lines = show("verify", &encode(&model)).lines;
        assert!(lines.contains(&format!("\ncases {cases}\n")), "{lines}");
    }
}

/// The samples for validate have at least three files for each refusal number.
fn samples() {
    let (models, more) = (sample::models("validate"), sample::window_models("validate"));
    let times = |models: &[Vec<u8>], number: u8| {
        let line = format!("refused {number}\n");
        models.iter().filter(|m| show("validate", m).lines == line).count()
    };
    for number in (1..=19).chain([30]) {
        assert!(times(&models, number) >= 3, "{number}");
    }
    for number in [3, 30, 31, 50, 51] {
        assert!(times(&more, number) >= 3, "{number}");
    }
    println!(
        "samples for validate: {} and {} models, each refusal at least three times",
        models.len(),
        more.len()
    );
}

/// Windows against a week in which each open second is marked.
fn arithmetic() {
    const DAY: u64 = 86_400;
    const WEEK: u64 = 7 * DAY;
    let random = &mut Random::new(5);
    let mut times = [0, 0];
    for _ in 0..300 {
        let start = random.below(DAY as usize) as u64 * random.below(2) as u64;
        let length = *random.pick(&[1, 2, 59, 3600, 43_200, 86_000, DAY - 1]);
        let (days, end) = (random.between(1, 127) as u8, (start + length) % DAY);
        let mut marked = vec![false; WEEK as usize];
        for day in (0..7).filter(|day| (days >> day) & 1 == 1) {
            for second in 0..length {
                marked[((day * DAY + start + second) % WEEK) as usize] = true;
            }
        }
        for _ in 0..400 {
            // A second of the week near an end of the window or near midnight, then a start and how far it is.
            let any = random.below(DAY as usize) as u64;
            let near = *random.pick(&[start, end, 0, any]);
            let day = random.below(7) as u64;
            let wanted = (day * DAY + near + WEEK + random.below(5) as u64 - 2) % WEEK;
            let now = *random.pick(&[0, 1, DAY, DAY - any]);
            let first = (wanted + WEEK - now) % WEEK;
            set_clock(Start { weekday: first / DAY, second: first % DAY }, now);
            assert_eq!(is_open(days, start, end), marked[wanted as usize]);
            times[usize::from(marked[wanted as usize])] += 1;
        }
    }
    println!("windows as in a marked week: {} shut, {} open", times[0], times[1]);
}

/// Random files are rebuilt exactly from what was read, and answered alike with areas that just hold enough.
fn files(entry: &str, count: u64) {
    let (mut whole, mut refused_by_areas) = (0, BTreeMap::<String, usize>::new());
    for index in 0..count {
        let file = generate::file(entry, 77, index, generate::WINDOWS);
        let answer = show(entry, &file);
        if let Some(other) = &answer.file
            && other.len() <= 32_768
        {
            assert!(decode(other).is_ok(), "{entry} {index}");
        }
        if let Ok(decoded) = decode(&file) {
            whole += 1;
            let model = &decoded.model;
            // The file is rebuilt bit by bit from what was read.
            assert_eq!(encode(model), file, "{entry} {index}");
            assert_eq!(with_events(&file, &decoded, &model.scenario.events), file);
            assert!(count_notes(model) <= 64 && all_actions(model) < 10_000);
        }
        if areas::of(entry).is_some() {
            with_areas(entry, &file, &answer.lines, &mut refused_by_areas);
        }
    }
    println!("{entry}: {count} files, {whole} whole, rebuilt exactly; {refused_by_areas:?}");
}

/// Just enough gives the plain answer, one less a refusal of that area.
fn with_areas(entry: &str, file: &[u8], lines: &str, refused: &mut BTreeMap<String, usize>) {
    let needed = areas::needed(entry, file);
    assert_eq!(areas::show_areas(entry, file, &needed), lines);
    for place in (0..needed.len()).filter(|place| needed[*place] > 0) {
        let mut less = needed.clone();
        less[place] -= 1;
        let lines = areas::show_areas(entry, file, &less);
        let base = if entry == "lint" { 45 } else { 41 };
        assert_eq!(lines, format!("refused {}\n", base + place));
        *refused.entry(class(&lines)).or_default() += 1;
    }
}

fn valid_models(entry: &str, count: u64) {
    for index in 0..count {
        let random = &mut Random::for_file(78, entry, index);
        let model = generate::valid(entry, random);
        let model = generate::with_windows(entry, index % 2 == 0, model, random);
        let read = decode(&encode(&model)).unwrap_or_else(|n| panic!("{entry} {index}: {n}"));
        let text = |m: &Model| format!("{:?} {:?}", m.scenario, m.rules);
        assert_eq!(text(&read.model), text(&model), "{entry} {index}");
        assert_eq!(show("validate", &encode(&model)).lines, "accepted\n", "{entry} {index}");
    }
}

/// What the unchanged reference's reader reads is answered as before, whatever its bytes.
fn old_files(entry: &str, count: u64) {
    let (mut read, mut refused) = (0, 0);
    for index in 0..2 * count {
        let file = match index % 2 {
            0 => generate::file(entry, 79, index, 0),
            _ => {
                let random = &mut Random::for_file(79, entry, index);
                let model = generate::valid(entry, random);
                encode(&windows::without(&generate::with_windows(entry, true, model, random)))
            }
        };
        if unchanged::format::decode(&file).is_ok() {
            read += 1;
            let (old, new) = (unchanged::show::show(entry, &file), show(entry, &file));
            assert_eq!(old.lines, new.lines, "{entry} {index}");
            assert_eq!(old.file, new.file, "{entry} {index}");
            refused += usize::from(new.lines.starts_with("refused"));
        }
    }
    println!(
        "{entry}: {read} old files, {refused} refused, answered as by the unchanged reference"
    );
}

/// Windows change no answer of lint, cone and unsupported; without windows a start changes no answer of any entry.
fn without_windows(entry: &str, count: u64) {
    let (mut windows, mut changed) = (0, 0);
    for index in 0..count {
        let model = generate::valid_model(entry, true, &mut Random::for_file(80, entry, index));
        let without = windows::without(&model);
        let mut started = without.clone();
        started.scenario.start = model.scenario.start;
        let lines = |m: &Model| -> Vec<String> {
            let lines = show(entry, &encode(m)).lines;
            lines.lines().filter(|l| !l.starts_with("file ")).map(String::from).collect()
        };
        assert_eq!(lines(&started), lines(&without), "{entry} {index}");
        windows += usize::from(windows::count(&model) > 0);
        let differs = lines(&model) != lines(&without);
        changed += usize::from(differs);
        assert!(
            !differs || !matches!(entry, "lint" | "cone" | "unsupported" | "validate"),
            "{index}"
        );
    }
    println!(
        "{entry}: {windows} models with windows, {changed} answered otherwise than without them"
    );
}
