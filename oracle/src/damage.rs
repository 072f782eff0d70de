//! Damaged files: most break a file rule (30) or have bytes left over (31);
//! some are still whole and mean something else.
use crate::edit::*;
use crate::plain::added::START_BYTES;
use crate::plain::format::*;
use crate::plain::reference::*;
use crate::random::Random;

/// With its kind.
const WINDOW_BYTES: usize = 10;

/// Names of the kinds of damage, for the samples.
pub const DAMAGES: [&str; 24] = [
    "byte changed",
    "bit changed",
    "byte inserted",
    "byte removed",
    "cut",
    "a byte left over",
    "bytes left over",
    "texts unsorted",
    "text doubled",
    "fixed text missing",
    "byte outside 32 to 126",
    "text length changed",
    "place past the last text",
    "place 65535",
    "kind past the last",
    "flag 2",
    "count changed",
    "number changed",
    "names unsorted",
    "name doubled",
    "65 notes",
    "choose at depth 17",
    "32769 bytes",
    "random bytes",
];

/// A damaged file made from the model. `kind` is a place in `DAMAGES`.
pub fn damaged(model: &Model, kind: usize, random: &mut Random) -> Vec<u8> {
    let texts = texts_of(model);
    let Encoded { mut bytes, marks } = encode_with(model, &texts);
    let offset = random.below(bytes.len());
    // The offset of a random mark of the wanted kind.
    let aim = |random: &mut Random, wanted: fn(Mark) -> bool| {
        let found: Vec<_> = marks.iter().filter(|(_, m)| wanted(*m)).collect();
        if found.is_empty() { None } else { Some(**random.pick(&found)) }
    };
    match DAMAGES[kind] {
        "byte changed" => bytes[offset] = random.below(256) as u8,
        "bit changed" => bytes[offset] ^= 1 << random.below(8),
        "byte inserted" => bytes.insert(offset, random.below(256) as u8),
        "byte removed" => {
            bytes.remove(offset);
        }
        "cut" => bytes.truncate(offset),
        "a byte left over" => bytes.push(*random.pick(&[0, 1, 255])),
        "bytes left over" => {
            let extra = random.between(2, 300);
            bytes.extend((0..extra).map(|_| random.below(256) as u8));
        }
        "texts unsorted" => {
            let mut texts = texts;
            let place = random.below(texts.len() - 1);
            texts.swap(place, place + 1);
            bytes = encode_with(model, &texts).bytes;
        }
        "text doubled" => {
            let mut texts = texts;
            let place = random.below(texts.len());
            texts.insert(place, texts[place].clone());
            bytes = encode_with(model, &texts).bytes;
        }
        "fixed text missing" => {
            let missing = *random.pick(&FIXED_TEXTS);
            let texts: Vec<_> = texts.into_iter().filter(|t| t != missing).collect();
            bytes = encode_with(model, &texts).bytes;
        }
        "byte outside 32 to 126" => {
            let filled: Vec<_> = marks
                .iter()
                .filter(|(at, m)| *m == Mark::TextLength && bytes[*at] > 0)
                .map(|(at, _)| *at)
                .collect();
            let at = *random.pick(&filled);
            let inside = random.between(1, bytes[at].into());
            bytes[at + inside] = *random.pick(&[31, 127, 0, 10, 128, 255]);
        }
        "text length changed" => {
            if let Some((at, _)) = aim(random, |m| m == Mark::TextLength) {
                bytes[at] =
                    *random.pick(&[bytes[at].wrapping_add(1), bytes[at].wrapping_sub(1), 0, 255]);
            }
        }
        "place past the last text" => {
            let wanted = |m| m == Mark::Place || m == Mark::OptionalPlace;
            if let Some((at, _)) = aim(random, wanted) {
                let past = if random.percent(80) { texts.len() } else { 65_534 };
                put_u16(&mut bytes, at, past);
            }
        }
        "place 65535" => {
            if let Some((at, _)) = aim(random, |m| m == Mark::Place) {
                put_u16(&mut bytes, at, 65_535);
            }
        }
        "kind past the last" => {
            if let Some((at, Mark::Kind(first_illegal))) =
                aim(random, |m| matches!(m, Mark::Kind(_)))
            {
                bytes[at] = if random.percent(80) { first_illegal } else { 255 };
            }
        }
        "flag 2" => {
            let mut model = model.clone();
            let entity = some_entity(&model, random);
            add_effect(&mut model, random, wait(trigger(&entity), 1));
            let encoded = encode_with(&model, &texts_of(&model));
            bytes = encoded.bytes;
            let (at, _) = encoded.marks.iter().find(|(_, m)| *m == Mark::Flag).unwrap();
            bytes[*at] = *random.pick(&[2, 2, 255]);
        }
        "count changed" => {
            if let Some((at, _)) = aim(random, |m| m == Mark::Count) {
                let old = usize::from(u16::from_le_bytes([bytes[at], bytes[at + 1]]));
                let new = *random.pick(&[old + 1, old.saturating_sub(1), 0, 1, 65_535]);
                put_u16(&mut bytes, at, new);
            }
        }
        "number changed" => {
            if let Some((at, _)) = aim(random, |m| m == Mark::Number) {
                let new =
                    *random.pick(&[0_u32, 1, 2, 16, 17, 86_400, 86_401, u32::MAX - 1, u32::MAX]);
                bytes[at..at + 4].copy_from_slice(&new.to_le_bytes());
            }
        }
        "names unsorted" | "name doubled" => {
            let mut model = model.clone();
            model.scenario.entities.entry("a".into()).or_insert(switch());
            model.scenario.entities.entry("b".into()).or_insert(switch());
            let encoded = encode_with(&model, &texts_of(&model));
            bytes = encoded.bytes;
            let starts: Vec<_> = encoded
                .marks
                .iter()
                .filter(|(_, m)| matches!(m, Mark::Entity | Mark::EntitiesEnd))
                .map(|(at, _)| *at)
                .collect();
            let place = random.below(starts.len() - 2);
            let (first, second, end) = (starts[place], starts[place + 1], starts[place + 2]);
            if DAMAGES[kind] == "names unsorted" {
                bytes[first..end].rotate_left(second - first);
            } else {
                bytes.copy_within(first..first + 2, second);
            }
        }
        "65 notes" => {
            let mut model = model.clone();
            fill_notes(&mut model, random, 65);
            bytes = encode(&model);
        }
        "choose at depth 17" => {
            let mut model = model.clone();
            let in_default = random.percent(50);
            let effect = nested(empty_choose(random.percent(50)), 17, in_default);
            some_automation(&mut model, random).actions.push(action(effect));
            bytes = encode(&model);
        }
        "32769 bytes" => {
            let mut model = model.clone();
            match random.below(4) {
                // A whole file that is a byte too long.
                0 => {
                    pad(&mut model, LONGEST_FILE + 1);
                    bytes = encode(&model);
                }
                // A whole file of the greatest length, and a byte behind it.
                1 => {
                    pad_full(&mut model);
                    bytes = encode(&model);
                    bytes.push(0);
                }
                // A byte left over within the greatest length.
                2 => {
                    pad(&mut model, LONGEST_FILE - 1);
                    bytes = encode(&model);
                    bytes.push(0);
                }
                _ => bytes.resize(LONGEST_FILE + random.between(1, 5000), 0),
            }
        }
        "random bytes" => {
            let length = *random.pick(&[0, 1, 3, 4, 5, 6, 40, 200]);
            bytes = (0..length).map(|_| random.below(256) as u8).collect();
            // Sometimes the version is right.
            if length >= 6 && random.percent(50) {
                bytes[..6].copy_from_slice(&[1, 0, 0, 0, 0, 0]);
            }
        }
        other => panic!("no damage of this name: {other}"),
    }
    bytes
}

/// A file damaged where windows or the start stand, or cut there.
pub fn damaged_windows(model: &Model, random: &mut Random) -> Vec<u8> {
    let mut model = model.clone();
    model.zeros_written = true;
    let Encoded { mut bytes, marks } = encode_with(&model, &texts_of(&model));
    let start = bytes.len() - START_BYTES;
    let windows: Vec<_> =
        marks.iter().filter(|(_, m)| *m == Mark::Window).map(|(at, _)| *at).collect();
    let chosen = if windows.is_empty() { None } else { Some(*random.pick(&windows)) };
    let numbers = [0, 1, 6, 7, 86_398, 86_399, 86_400, 4_294_967_295];
    match (random.below(8), chosen) {
        (0, _) => bytes.truncate(start + random.below(START_BYTES)),
        (1, _) => bytes.extend(vec![0; random.between(1, 9)]),
        (2, _) => put_u32(&mut bytes, start, *random.pick(&numbers)),
        (3, _) => put_u32(&mut bytes, start + 4, *random.pick(&numbers)),
        (4, Some(at)) => bytes[at + 1] = *random.pick(&[0, 1, 64, 127, 128, 255]),
        (5, Some(at)) => put_u32(&mut bytes, at + 2 + 4 * random.below(2), *random.pick(&numbers)),
        (6, Some(at)) => bytes.truncate(at + random.below(WINDOW_BYTES + 1)),
        (7, Some(at)) => bytes[at] = *random.pick(&[0, 1, 3, 3, 255]),
        _ => {
            bytes.truncate(start);
            bytes.extend(vec![0; random.below(10)]);
        }
    }
    bytes
}

fn put_u32(bytes: &mut [u8], at: usize, value: u32) {
    bytes[at..at + 4].copy_from_slice(&value.to_le_bytes());
}
fn put_u16(bytes: &mut [u8], at: usize, value: usize) {
    let value = u16::try_from(value).unwrap_or(u16::MAX);
    bytes[at..at + 2].copy_from_slice(&value.to_le_bytes());
}

/// The model with a wrong version, in a file that is broken further on.
pub fn wrong_version_and_broken(model: &Model, random: &mut Random) -> Vec<u8> {
    let mut model = model.clone();
    model.scenario = Scenario { version: 2, ..model.scenario };
    damaged(&model, random.below(DAMAGES.len()), random)
}
