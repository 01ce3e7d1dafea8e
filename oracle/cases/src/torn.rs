//! Torn sheets: good ones cut at every kind of place, with bytes flipped, lines moved, doubled, joined by a lost 0A, or dropped in from
//! elsewhere.

use crate::damage::LINE_DAMAGES;
use crate::random::Random;
use crate::referring;

/// What a class is called, how often it comes in a round, and how it makes a sheet.
pub struct Class {
    pub name: &'static str,
    pub weight: u64,
    pub make: fn(&mut Random, Vec<u8>) -> Vec<u8>,
}

pub const CLASSES: &[Class] = &[
    Class { name: "as it was", weight: 8, make: |_, sheet| sheet },
    Class { name: "cut anywhere", weight: 14, make: cut },
    Class { name: "bytes flipped", weight: 18, make: flipped },
    Class { name: "lines moved", weight: 16, make: moved },
    Class { name: "lines doubled", weight: 8, make: doubled },
    Class { name: "a lost 0A", weight: 10, make: joined },
    Class { name: "line feeds", weight: 6, make: feeds },
    Class { name: "damaged lines", weight: 16, make: damaged },
    Class { name: "a stretch overwritten", weight: 4, make: overwritten },
];

pub fn class_of(index: u64) -> &'static Class {
    let round: u64 = CLASSES.iter().map(|class| class.weight).sum();
    let mut place = index * 37 % round;
    for class in CLASSES {
        if place < class.weight {
            return class;
        }
        place -= class.weight;
    }
    unreachable!("the place lies within the round")
}

/// Sheet `index` of `seed`.
pub fn sheet(seed: u64, index: u64) -> Vec<u8> {
    let sheet = referring::sheet(seed, index / 3);
    (class_of(index).make)(&mut Random::for_case(seed ^ 0x7042, index), sheet)
}

fn lines(sheet: &[u8]) -> Vec<Vec<u8>> {
    sheet.split_inclusive(|&byte| byte == b'\n').map(<[u8]>::to_vec).collect()
}

fn cut(random: &mut Random, mut sheet: Vec<u8>) -> Vec<u8> {
    let (from, to) = (random.below(sheet.len() + 1), random.below(sheet.len() + 1));
    match random.below(3) {
        0 => sheet.truncate(from),
        1 => drop(sheet.drain(..from)),
        _ => drop(sheet.drain(from.min(to)..from.max(to))),
    }
    sheet
}

fn flipped(random: &mut Random, mut sheet: Vec<u8>) -> Vec<u8> {
    for _ in 0..random.range(1, 4) {
        if !sheet.is_empty() {
            let at = random.below(sheet.len());
            sheet[at] = match random.below(4) {
                0 => b'\n',
                1 => sheet[at] ^ 1 << random.below(8),
                2 => random.pick(b" ()lkwhv\0\r"),
                _ => random.below(256) as u8,
            };
        }
    }
    sheet
}

fn moved(random: &mut Random, sheet: Vec<u8>) -> Vec<u8> {
    let mut lines = lines(&sheet);
    for _ in 0..random.range(1, 3) {
        if !lines.is_empty() {
            let (one, other) = (random.below(lines.len()), random.below(lines.len()));
            if random.chance(50) {
                lines.swap(one, other);
            } else {
                let line = lines.remove(one);
                lines.insert(other.min(lines.len()), line);
            }
        }
    }
    lines.concat()
}

fn doubled(random: &mut Random, sheet: Vec<u8>) -> Vec<u8> {
    let mut lines = lines(&sheet);
    for _ in 0..random.range(1, 3) {
        if !lines.is_empty() {
            let (one, other) = (random.below(lines.len()), random.below(lines.len() + 1));
            let line = lines[one].clone();
            lines.insert(if random.chance(60) { one } else { other }, line);
        }
    }
    lines.concat()
}

fn joined(random: &mut Random, sheet: Vec<u8>) -> Vec<u8> {
    let mut lines = lines(&sheet);
    for _ in 0..random.range(1, 2) {
        if !lines.is_empty() {
            let one = random.below(lines.len());
            lines[one].pop();
        }
    }
    lines.concat()
}

fn feeds(random: &mut Random, sheet: Vec<u8>) -> Vec<u8> {
    match random.below(3) {
        0 if random.chance(10) => vec![b'\n'; random.range(65_534, 65_538)],
        0 => vec![b'\n'; random.range(1, 40)],
        1 => [sheet, vec![b'\n'; random.range(1, 40)]].concat(),
        _ => sheet.iter().flat_map(|&byte| if byte == b'\n' { vec![byte; 2] } else { vec![byte] }).collect(),
    }
}

fn damaged(random: &mut Random, sheet: Vec<u8>) -> Vec<u8> {
    let mut lines = lines(&sheet);
    for _ in 0..random.range(1, 3) {
        let place = random.below(lines.len().max(1));
        if let Some(line) = lines.get_mut(place) {
            let (_, damage) = random.pick(LINE_DAMAGES);
            damage(random, line);
        }
    }
    lines.concat()
}

fn overwritten(random: &mut Random, mut sheet: Vec<u8>) -> Vec<u8> {
    if !sheet.is_empty() {
        let (from, to) = (random.below(sheet.len()), random.below(sheet.len()));
        let byte = random.pick(b"\0\xFF\n ");
        sheet[from.min(to)..=from.max(to)].fill(byte);
    }
    sheet
}
