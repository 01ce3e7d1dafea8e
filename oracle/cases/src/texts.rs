//! Texts that words and names are made of.

use crate::random::Random;
use shabda::tables::{CASE_MARKERS, ORIGIN_TABLE, PARTICLES, PLURAL_MARKERS, PREFIX_FORMS};

#[rustfmt::skip]
pub const STEMS: &[&str] = &[
    "घर", "काम", "मानव", "शुल्क", "सफल", "तिन", "हाम", "राम", "देश", "बालक", "किताब", "पान", "केट",
    "साथ", "गा", "गाई", "पहाड", "भारत", "लिख", "लेख", "बगर", "समाज", "नेपाल", "मान", "ज्ञान", "कृष",
    "बल", "फल", "मूल", "लोक", "रोक", "धन", "जन",
];

/// Stems of verbs, whole or cut before their linking vowel.
#[rustfmt::skip]
pub const VERB_STEMS: &[&str] = &[
    "खा", "जा", "आ", "गर", "खोज", "चुह", "चुहि", "लेख", "पढ", "सुन", "दि", "लि", "गा", "बस", "धु",
    "न", "नन", "नाच", "नि", "पर", "गर्", "खोज्", "्", "पा", "आआ", "ना", "नआ",
];

pub const PROGRESSIVE_ENDINGS: &[&str] = &["रहेको", "रहेकी", "रहेका"];

/// Letters that the tables and the marks are spelt with, and a few strangers.
#[rustfmt::skip]
pub const LETTERS: &[char] = &[
    'क', 'ो', 'ा', 'ी', 'म', 'ल', 'े', 'न', 'ै', 'प', 'ि', 'र', 'ह', 'ू', 'ु', 'स', 'ँ', 'ग', 'द',
    'ख', 'त', 'ब', 'ट', 'ई', 'य', 'ए', 'इ', 'ड', 'ठ', 'ढ', '्', 'ः', 'ं', 'ृ', 'ष', 'ज', 'ञ', 'व',
    'ध', 'ऋ', 'आ', 'अ', 'उ', 'श', 'च', 'भ', 'ङ', '\u{093C}', '\u{095B}', '|', '+', 'a', 'Z', '0',
    '~', '\u{00E9}', '\u{2028}', '\u{FEFF}', '\u{1F600}', '\u{11013}',
];

/// Characters of one to four bytes, the first and last of each length among them.
#[rustfmt::skip]
pub const STRANGERS: &[char] = &[
    '!', '~', '|', '+', 'A', 'z', '\'', '*', '{', '\u{0080}', '\u{07FF}', '\u{0800}', '\u{D7FF}',
    '\u{E000}', '\u{FFFD}', '\u{FFFF}', '\u{10000}', '\u{10FFFF}', '\u{1F600}', '\u{11013}',
    '\u{2028}', '\u{2029}', '\u{0085}', '\u{00A0}', '\u{200D}', '\u{FEFF}', '\u{0900}', '\u{097F}',
    '\u{0301}',
];

/// The 25 particles, case and plural markers, in the order in which they are asked.
pub fn appended_texts() -> Vec<&'static str> {
    [PARTICLES, CASE_MARKERS, PLURAL_MARKERS].concat()
}

pub fn stem(random: &mut Random) -> String {
    match random.below(10) {
        0..=5 => random.pick(STEMS).to_string(),
        6 => random.pick(ORIGIN_TABLE).0.to_string(),
        7 => random.pick(&appended_texts()).to_string(),
        8 => {
            let length = random.range(1, 4);
            letters(random, length)
        }
        _ => format!("{}{}", random.pick(STEMS), random.pick(LETTERS)),
    }
}

pub fn letters(random: &mut Random, count: usize) -> String {
    (0..count).map(|_| random.pick(LETTERS)).collect()
}

pub fn prefix_form(random: &mut Random) -> &'static str {
    random.pick(PREFIX_FORMS).1
}

/// `word` cut after its last whole character within `limit` bytes.
pub fn fit(mut word: String, limit: usize) -> String {
    while word.len() > limit {
        word.pop();
    }
    word
}
