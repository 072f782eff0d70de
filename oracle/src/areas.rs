//! Answers under areas that hold so many entries, from the counted copy of the reference.
use crate::counted::reference::areas;
use crate::counted::show;
use crate::random::Random;
use std::collections::BTreeMap;
use std::panic::{AssertUnwindSafe, catch_unwind, resume_unwind};

/// Whether an entry point is lent areas, and which: the first and last place
/// in the counted copy's list of areas.
pub fn of(entry: &str) -> Option<std::ops::Range<usize>> {
    match entry {
        "simulate" | "check" | "fullcheck" | "verify" | "minimize" => Some(0..3),
        "lint" => Some(3..5),
        _ => None,
    }
}

/// The lines under areas of the given numbers of entries, in the order queue,
/// records, runs, or findings, interactions.
pub fn show_areas(entry: &str, bytes: &[u8], entries: &[usize]) -> String {
    show_areas_and_file(entry, bytes, entries).0
}

/// The same with the witness or reduced file, if there is one.
pub fn show_areas_and_file(
    entry: &str,
    bytes: &[u8],
    entries: &[usize],
) -> (String, Option<Vec<u8>>) {
    let places = of(entry).expect("this entry point has no areas");
    assert_eq!(entries.len(), places.len(), "as many numbers as the entry point has areas");
    let mut holds = [usize::MAX; 5];
    holds[places].copy_from_slice(entries);
    areas::set(holds);
    match catch_unwind(AssertUnwindSafe(|| show::show(entry, bytes))) {
        Ok(answer) => (answer.lines, answer.file),
        Err(reason) => match reason.downcast::<areas::Full>() {
            Ok(full) => (format!("refused {}\n", full.0), None),
            Err(reason) => resume_unwind(reason),
        },
    }
}

/// The most entries that each area of the entry point needs for this file.
pub fn needed(entry: &str, bytes: &[u8]) -> Vec<usize> {
    areas::set([usize::MAX; 5]);
    show::show(entry, bytes);
    areas::most()[of(entry).expect("this entry point has no areas")].to_vec()
}

/// Random numbers of entries: enough, too few in one area, or too few in two
/// areas for insertions that follow closely, so that their order shows.
pub fn random_entries(entry: &str, bytes: &[u8], random: &mut Random) -> Vec<usize> {
    let mut entries = needed(entry, bytes);
    let growth = areas::growth();
    let first_area = of(entry).unwrap().start;
    match random.below(100) {
        0..20 => {
            for most in &mut entries {
                *most += random.below(3);
            }
        }
        20..35 => {
            for most in &mut entries {
                *most = random.below(*most + 2);
            }
        }
        35..50 => {
            let short = random.below(entries.len());
            entries[short] = entries[short].saturating_sub(1);
        }
        _ => {
            // Pairs of insertions into different areas, at most three insertions apart,
            // by areas and distance.
            let mut pairs: BTreeMap<_, Vec<_>> = BTreeMap::new();
            for (place, first) in growth.iter().enumerate() {
                for second in growth[place + 1..].iter().take(3) {
                    let distance = second.number - first.number;
                    if second.area != first.area && distance <= 3 {
                        let kind = (first.area, second.area, distance);
                        pairs.entry(kind).or_default().push((*first, *second));
                    }
                }
            }
            let kinds: Vec<_> = pairs.values().collect();
            if !kinds.is_empty() {
                let kind = *random.pick(&kinds);
                let (first, second) = *random.pick(kind);
                entries[first.area - first_area] = first.used;
                entries[second.area - first_area] = second.used;
            }
        }
    }
    entries
}
