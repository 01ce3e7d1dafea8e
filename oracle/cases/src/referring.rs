//! Sheets whose lines refer to each other, for what is asked of a sheet alone: links with and without their verb, kind lines of the 25 texts
//! and of others, sizes up to the limit, damage.

use crate::damage::{LINE_DAMAGES, LINK_NAMES};
use crate::lines::Lines;
use crate::random::Random;
use crate::sheets::letters;
use crate::texts::{LETTERS, VERB_STEMS, appended_texts};

/// What a class is called, how often it comes in a round, and how it makes a sheet.
pub struct Class {
    pub name: &'static str,
    pub weight: u64,
    pub make: fn(&mut Random) -> Vec<u8>,
}

pub const CLASSES: &[Class] = &[
    Class { name: "links and kinds", weight: 60, make: |random| some(random, 12).bytes() },
    Class { name: "none or one line", weight: 6, make: few },
    Class { name: "all hold", weight: 8, make: holding },
    Class { name: "many lines", weight: 4, make: |random| some(random, 150).bytes() },
    Class { name: "a full sheet", weight: 1, make: full },
    Class { name: "a damaged line", weight: 14, make: damaged },
    Class { name: "any bytes", weight: 2, make: any },
    Class { name: "cut or out of order", weight: 5, make: cut },
];

pub fn class_of(index: u64) -> &'static Class {
    let round: u64 = CLASSES.iter().map(|class| class.weight).sum();
    let mut place = index * 37 % round;
    for class in CLASSES {
        if place < class.weight {
            return class;
        }
        place -= class.weight;
    }
    unreachable!("the place lies within the round")
}

/// Sheet `index` of `seed`.
pub fn sheet(seed: u64, index: u64) -> Vec<u8> {
    (class_of(index).make)(&mut Random::for_case(seed, index))
}

fn infinitive(random: &mut Random) -> String {
    match random.below(8) {
        0 => "नु".to_string(),
        1 => format!("{}{}नु", random.pick(VERB_STEMS), random.pick(LETTERS)),
        _ => format!("{}नु", random.pick(VERB_STEMS)),
    }
}

fn link(random: &mut Random) -> String {
    match random.below(6) {
        0 => random.pick(LINK_NAMES).to_string(),
        1 => format!("{}{}ि", random.pick(VERB_STEMS), random.pick(LETTERS)),
        2 => format!("{}इ", random.pick(VERB_STEMS)),
        _ => format!("{}ि", random.pick(VERB_STEMS)),
    }
}

fn suffix(random: &mut Random) -> String {
    let text = random.pick(&appended_texts());
    match random.below(6) {
        0 => format!("{text}{}", random.pick(LETTERS)),
        1 => format!("{}{text}", random.pick(LETTERS)),
        2 => text.chars().take(text.chars().count() - 1).collect(),
        3 => random.pick(LETTERS).to_string(),
        _ => text.to_string(),
    }
}

/// A line more of any kind; verbs that links name come often, with any letters.
fn line(random: &mut Random, lines: &mut Lines) {
    match random.below(10) {
        0..=3 => {
            let (link, infinitive) = (link(random), infinitive(random));
            lines.link(&link, &infinitive);
            let letters = letters(random);
            match random.below(10) {
                0..=5 => lines.word(&infinitive, &letters),
                // A name that only begins as the verb does, or one that the verb begins as.
                6 => lines.word(&format!("{infinitive}{}", random.pick(&appended_texts())), "hv"),
                7 => lines.word(infinitive.strip_suffix("ु").unwrap_or(&infinitive), "hv"),
                _ => {}
            }
        }
        4..=6 => {
            let suffix = suffix(random);
            lines.kind(&suffix, random.pick(&["post", "comp"]));
        }
        7 => {
            let name = infinitive(random);
            lines.word(&name, "hv");
        }
        _ => {
            let (name, letters) = (infinitive(random), letters(random));
            lines.word(&name, &letters);
        }
    }
}

fn some(random: &mut Random, most: usize) -> Lines {
    let mut lines = Lines::default();
    for _ in 0..random.range(1, most) {
        line(random, &mut lines);
    }
    lines
}

fn few(random: &mut Random) -> Vec<u8> {
    let mut lines = Lines::default();
    for _ in 0..random.below(2) {
        line(random, &mut lines);
    }
    lines.bytes()
}

/// Every verb is there with v, and no suffix but the 25.
fn holding(random: &mut Random) -> Vec<u8> {
    let mut lines = some(random, 12);
    let texts = appended_texts();
    lines.kinds.retain(|name, _| texts.contains(&&name[..]));
    let verbs: Vec<String> = lines.links.values().cloned().collect();
    verbs.iter().for_each(|verb| lines.word(verb, "hv"));
    if random.chance(30) {
        // All but one.
        if let Some(verb) = verbs.first() {
            lines.word(verb, "h");
        }
    }
    lines.bytes()
}

/// Up to 65,536 bytes, or one more.
fn full(random: &mut Random) -> Vec<u8> {
    let mut lines = some(random, 60);
    let limit = random.range(65_480, 65_537);
    let mut size = lines.size();
    let mut k = 0;
    while size + 260 < limit {
        // Names by their number are new, so that each line counts once; some links name one verb.
        let (name, verb) = (format!("{k:05}"), format!("{:05}नु", if random.chance(30) { k / 7 } else { k }));
        match random.below(3) {
            0 => lines.link(&format!("{name}ि"), &verb),
            1 => lines.kind(&name, "post"),
            _ => lines.word(&format!("{name}नु"), "hv"),
        }
        size += "(w  (hv))\n".len() + 40;
        k += 1;
    }
    size = lines.size();
    while size + 60 < limit {
        let name = format!("{k:06}");
        lines.word(&name, "w");
        size += "(w  (w))\n".len() + name.len();
        k += 1;
    }
    let frame = "(w ~ (w))\n".len();
    let mut bytes = lines.bytes();
    let left = limit.saturating_sub(bytes.len());
    if (frame..frame + 200).contains(&left) {
        bytes.extend(format!("(w {} (w))\n", "~".repeat(left - frame + 1)).bytes());
    }
    bytes
}

fn damaged(random: &mut Random) -> Vec<u8> {
    let mut lines = some(random, 8).each();
    let place = random.below(lines.len().max(1));
    if let Some(line) = lines.get_mut(place) {
        let (_, damage) = random.pick(LINE_DAMAGES);
        damage(random, line);
    }
    lines.concat()
}

fn any(random: &mut Random) -> Vec<u8> {
    let length = random.below(40);
    (0..length).map(|_| random.pick(b"(klw )\n\xE0\xA4\x95post\0\xFF")).collect()
}

fn cut(random: &mut Random) -> Vec<u8> {
    let mut lines = some(random, 8).each();
    match random.below(3) {
        0 => {
            let mut bytes = lines.concat();
            let length = random.below(bytes.len().max(1));
            bytes.truncate(length);
            bytes
        }
        1 => {
            let (one, other) = (random.below(lines.len().max(1)), random.below(lines.len().max(1)));
            if one < lines.len() && other < lines.len() {
                lines.swap(one, other);
            }
            lines.concat()
        }
        _ => {
            let place = random.below(lines.len().max(1));
            if let Some(line) = lines.get(place).cloned() {
                lines.insert(place, line);
            }
            lines.concat()
        }
    }
}
