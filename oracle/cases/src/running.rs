//! Seeded texts for the tokenizer: a seed and an index give one text, for ever the same.

use crate::damage::{STRETCHES, damage_text};
use crate::random::Random;

/// Unicode's White_Space.
pub const SPACES: &[char] = &[
    '\u{9}', '\u{A}', '\u{B}', '\u{C}', '\u{D}', ' ', '\u{85}', '\u{A0}', '\u{1680}', '\u{2000}', '\u{2001}',
    '\u{2002}', '\u{2003}', '\u{2004}', '\u{2005}', '\u{2006}', '\u{2007}', '\u{2008}', '\u{2009}', '\u{200A}',
    '\u{2028}', '\u{2029}', '\u{202F}', '\u{205F}', '\u{3000}',
];

/// The source's punctuation list.
pub const MARKS: &[char] = &[
    '.', ',', '!', '?', ';', ':', '-', '(', ')', '[', ']', '{', '}', '"', '\'', '/', '–', '—', '।', '…', '“', '”', '‘',
    '’',
];

/// Characters that look or stand like these and do not part; joiners, bounds of the range, and first and last of each width.
pub const OTHERS: &[char] = &[
    '॥',
    '\u{200B}',
    '\u{200C}',
    '\u{200D}',
    '\u{FEFF}',
    '\u{180E}',
    '\u{2060}',
    '\u{0}',
    '\u{1F}',
    '\u{7F}',
    '\u{80}',
    '\u{7FF}',
    '\u{800}',
    '\u{8FF}',
    '\u{900}',
    '\u{97F}',
    '\u{980}',
    '\u{D7FF}',
    '\u{E000}',
    '\u{FFFF}',
    '\u{10000}',
    '\u{10FFFF}',
    '०',
    'ऽ',
    'ॐ',
    'ঀ',
    '。',
    '、',
    '‐',
    '‒',
    '―',
    '‛',
    '‚',
    '„',
    '‥',
    '‧',
    '_',
    '*',
    '&',
    '<',
    '>',
    '\\',
    '`',
];

/// Running text.
const PROSE: &[&str] = &[
    "नेपाल हिमाल, पहाड र तराई मिलेर बनेको देश हो।",
    "काठमाडौँका पुराना गल्लीहरूमा बिहानैदेखि मानिसहरूको भीड लाग्छ; पसलहरू खुल्न थाल्छन्।",
    "“तिमी कहिले आयौ?” आमाले सोध्नुभयो।",
    "उसले भन्यो – ‘म भोलि गाउँ जान्छु’, र ढोका लगायो।",
    "विद्यार्थीहरूले पुस्तकालय (केन्द्रीय) मा बसेर पढिरहेका थिए…",
    "वि.सं. २०८१ साल वैशाख १ गते बिहान १०:३० बजे सभा सुरु भयो।",
    "श्री ५ को सरकार/नेपाल सरकारको निर्णय नं. ४५–२ अनुसार काम अघि बढ्यो।",
    "ज्ञान-विज्ञानका नयाँ-नयाँ कुरा सिक्नु राम्रो हो!",
    "राम्ररी पढ्नुहोस् [पाठ ३] अनि उत्तर लेख्नुहोस्: \"घर\", 'खेत', {बाटो}।",
    "॥ श्रीगणेशाय नमः ॥",
    "The word घर means house; गृह is a learned word.",
    "क्‍या राम्रो! रक्तचाप‌हरू नाप्ने यन्त्र।",
    "छोरी—उनकी कान्छी—विद्यालयबाट फर्किन्।",
    "पानी\tपरेकाले\u{A0}बाटो\u{2009}हिलो भयो।\r\n",
];

/// A class of texts: its name, how often it comes, and how one is made.
pub struct Class {
    pub name: &'static str,
    pub weight: usize,
    make: fn(&mut Random) -> Vec<u8>,
}

pub const CLASSES: &[Class] = &[
    Class { name: "prose", weight: 20, make: prose },
    Class { name: "marks-between-letters", weight: 25, make: marks },
    Class { name: "neighbours", weight: 15, make: neighbours },
    Class { name: "any-characters", weight: 15, make: any },
    Class { name: "damaged", weight: 15, make: damaged },
    Class { name: "stretches", weight: 5, make: stretches },
    Class { name: "short", weight: 4, make: short },
    Class { name: "at-the-limit", weight: 1, make: limit },
];

/// The class of a text.
pub fn class_of(index: u64) -> &'static Class {
    // 37 does not divide 100, so each place of a round of 100 comes once.
    let mut place = (index as usize % 100) * 37 % 100;
    for class in CLASSES {
        if place < class.weight {
            return class;
        }
        place -= class.weight;
    }
    unreachable!("the weights sum to 100")
}

/// Text `index` of `seed`.
pub fn text(seed: u64, index: u64) -> Vec<u8> {
    (class_of(index).make)(&mut Random::for_case(seed ^ 0x746F_6B65_6E73, index))
}

/// Every character of Unicode by itself between two letters, a text for each: how many, and the text of a place.
pub const EVERY: u64 = 0x110000 - 0x800;

pub fn every(index: u64) -> Vec<u8> {
    let number = index as u32;
    let c = char::from_u32(if number < 0xD800 { number } else { number + 0x800 }).expect("no surrogate");
    format!("क{c}ख{c}").into_bytes()
}

fn prose(random: &mut Random) -> Vec<u8> {
    let mut text = String::new();
    for _ in 0..random.range(1, 6) {
        text.push_str(random.pick(PROSE));
        text.push_str(random.pick(&["", " ", "  ", "\n", "\n\n", " — ", "…"]));
    }
    text.into_bytes()
}

/// Running text of up to so many bytes, whole sentences one after the other.
pub fn prose_of(limit: usize) -> String {
    let mut text = String::new();
    for sentence in PROSE.iter().cycle() {
        if text.len() + sentence.len() + 1 > limit {
            return text;
        }
        text.push_str(sentence);
        text.push(' ');
    }
    text
}

fn letter(random: &mut Random) -> char {
    char::from_u32(0x0900 + random.below(0x80) as u32).expect("a letter")
}

fn any_char(random: &mut Random) -> char {
    let limit = random.pick(&[0x80, 0x800, 0xD800, 0x3100, 0x110000]);
    char::from_u32(random.below(limit) as u32).unwrap_or('\u{FFFD}')
}

/// A character that parts, one beside it, or another of those that are near.
fn near(random: &mut Random) -> char {
    let c = match random.below(4) {
        0 => random.pick(SPACES),
        1 => random.pick(MARKS),
        _ => return random.pick(OTHERS),
    };
    let moved = match random.below(4) {
        0 => c as u32 + 1,
        1 => (c as u32).saturating_sub(1),
        _ => c as u32,
    };
    char::from_u32(moved).expect("no surrogate stands beside these")
}

fn marks(random: &mut Random) -> Vec<u8> {
    let mut text = String::new();
    for _ in 0..random.range(1, 30) {
        match random.below(10) {
            0..5 => (0..random.range(1, 6)).for_each(|_| text.push(letter(random))),
            5..7 => text.push(random.pick(SPACES)),
            7..9 => text.push(random.pick(MARKS)),
            _ => text.push_str(random.pick(&["a", "abc", "0", "a1", "घर", "é", "日本"])),
        }
    }
    text.into_bytes()
}

fn neighbours(random: &mut Random) -> Vec<u8> {
    let mut text = String::new();
    for _ in 0..random.range(1, 24) {
        let c = if random.chance(40) { letter(random) } else { near(random) };
        text.push(c);
    }
    text.into_bytes()
}

fn any(random: &mut Random) -> Vec<u8> {
    let mut text = String::new();
    for _ in 0..random.range(0, 40) {
        let c = match random.below(4) {
            0 => letter(random),
            1 => near(random),
            _ => any_char(random),
        };
        text.push(c);
    }
    text.into_bytes()
}

/// Any other text, with a byte changed, put in or left out, or cut.
fn damaged(random: &mut Random) -> Vec<u8> {
    let mut text = random.pick::<fn(&mut Random) -> Vec<u8>>(&[prose, marks, neighbours, any])(random);
    match random.below(6) {
        0 => text.truncate(random.below(text.len() + 1)),
        1 => {
            text.drain(..random.below(text.len() + 1));
        }
        2 if !text.is_empty() => {
            let at = random.below(text.len());
            text[at] = random.below(256) as u8;
        }
        3 if !text.is_empty() => {
            text.remove(random.below(text.len()));
        }
        4 => text.insert(random.below(text.len() + 1), random.range(0x80, 0xFF) as u8),
        _ => damage_text(random, &mut text),
    }
    text
}

/// Stretches at the limits of UTF-8, good and not, between letters and marks.
fn stretches(random: &mut Random) -> Vec<u8> {
    let mut text = Vec::new();
    for _ in 0..random.range(1, 5) {
        match random.below(3) {
            0 => text.extend_from_slice(random.pick(STRETCHES)),
            1 => text.extend(letter(random).to_string().bytes()),
            _ => text.extend(near(random).to_string().bytes()),
        }
    }
    text
}

fn short(random: &mut Random) -> Vec<u8> {
    let mut text = String::new();
    for _ in 0..random.below(4) {
        let c = if random.chance(50) { letter(random) } else { near(random) };
        text.push(c);
    }
    text.into_bytes()
}

/// Texts of 65,530 to 65,540 bytes, with a run or a mark across the limit; the shortest tokens, the longest, and damage at the end.
fn limit(random: &mut Random) -> Vec<u8> {
    let size = if random.chance(50) { 65_536 } else { random.range(65_530, 65_540) };
    let unit: Vec<u8> = match random.below(5) {
        0 => "क,".into(),
        1 => "क".into(),
        2 => "कa\u{3000}".into(),
        3 => "ab ".into(),
        _ => prose(random),
    };
    let mut text: Vec<u8> = unit.iter().copied().cycle().take(size).collect();
    if random.chance(85) {
        // Whole characters again, filled up with letters, marks or ASCII to the same size.
        let whole = std::str::from_utf8(&text).map_or_else(|error| error.valid_up_to(), str::len);
        text.truncate(whole);
        let fill = random.pick(&["a", " ", ".", "क"]);
        while text.len() + fill.len() <= size {
            text.extend_from_slice(fill.as_bytes());
        }
        while text.len() < size {
            text.push(b'a');
        }
    }
    text
}
