//! Words that reach the rules for strips, progressive forms and origin.

use crate::random::Random;
use crate::texts::{
    LETTERS, PROGRESSIVE_ENDINGS, STEMS, STRANGERS, VERB_STEMS, appended_texts, fit, letters, prefix_form, stem,
};
use acceptance::WORD_LIMIT;
use shabda::tables::{CASE_MARKERS, ORIGIN_TABLE, PARTICLES, PLURAL_MARKERS, PREFIX_FORMS, SUFFIXES};

/// `word` with `suffix` appended; at times with its first letter doubled or left out where the
/// word already ends in it.
fn push_suffix(random: &mut Random, word: &mut String, suffix: &str) {
    let Some(first) = suffix.chars().next() else {
        return;
    };
    if word.ends_with(first) && random.chance(50) {
        word.push_str(&suffix[first.len_utf8()..]);
    } else {
        if random.chance(15) {
            word.push(first);
        }
        word.push_str(suffix);
    }
}

fn push_suffixes(random: &mut Random, word: &mut String, table: &[&str], most: usize) {
    for _ in 0..random.range(0, most) {
        let suffix = random.pick(table);
        push_suffix(random, word, suffix);
    }
}

/// Plural, case markers and particle in their order, up to one case marker too many.
pub fn suffix_stack(random: &mut Random) -> String {
    let mut word = stem(random);
    push_suffixes(random, &mut word, PLURAL_MARKERS, 1);
    push_suffixes(random, &mut word, CASE_MARKERS, 4);
    push_suffixes(random, &mut word, PARTICLES, 1);
    fit(word, WORD_LIMIT)
}

/// The same texts in any order and number.
pub fn suffix_disorder(random: &mut Random) -> String {
    let mut word = stem(random);
    let count = random.range(2, 6);
    for _ in 0..count {
        let table = random.pick(&[PARTICLES, CASE_MARKERS, PLURAL_MARKERS, SUFFIXES]);
        let suffix = random.pick(table);
        push_suffix(random, &mut word, suffix);
    }
    fit(word, WORD_LIMIT)
}

/// Stems that end in the letter which the suffix begins with: घरल and ले.
pub fn shared_letters(random: &mut Random) -> String {
    let mut word = random.pick(STEMS).to_string();
    for _ in 0..random.range(1, 4) {
        let suffix = random.pick(&appended_texts());
        let first = suffix.chars().next().unwrap_or('ल');
        for _ in 0..random.range(0, 2) {
            word.push(first);
        }
        word.push_str(suffix);
    }
    fit(word, WORD_LIMIT)
}

/// निः stands for two labels, alone and stacked.
pub fn two_row_prefix(random: &mut Random) -> String {
    let mut word = String::new();
    for _ in 0..random.range(1, 3) {
        word.push_str(random.weighted(&[(6, "निः"), (1, "दुः"), (1, "सं"), (1, "पुनः")]));
    }
    word.push_str(&stem(random));
    push_suffixes(random, &mut word, CASE_MARKERS, 3);
    push_suffixes(random, &mut word, PARTICLES, 1);
    fit(word, WORD_LIMIT)
}

pub fn stacked_prefixes(random: &mut Random) -> String {
    let mut word = String::new();
    for _ in 0..random.range(1, 3) {
        word.push_str(prefix_form(random));
    }
    word.push_str(&stem(random));
    let table = random.pick(&[CASE_MARKERS, SUFFIXES, PARTICLES]);
    push_suffixes(random, &mut word, table, 2);
    fit(word, WORD_LIMIT)
}

/// What is left after a prefix has 0 to 6 characters: the minimum is 2, or 4 after one character.
pub fn short_after_prefix(random: &mut Random) -> String {
    let form = match random.below(3) {
        0 => random.pick(&["आ", "अ"]),
        _ => prefix_form(random),
    };
    let count = random.range(0, 6);
    format!("{form}{}", letters(random, count))
}

/// Rows whose forms begin alike (प्र and प्रति, अ and अभि): roots of equal score.
pub fn prefix_in_prefix(random: &mut Random) -> String {
    let form = random.pick(&["प्रति", "अभि", "अधि", "अनु", "अति", "अप", "अव"]);
    let mut word = format!("{form}{}", stem(random));
    if random.chance(30) {
        word = format!("{}{word}", prefix_form(random));
    }
    push_suffixes(random, &mut word, CASE_MARKERS, 3);
    push_suffixes(random, &mut word, PARTICLES, 1);
    fit(word, WORD_LIMIT)
}

pub fn progressive(random: &mut Random) -> String {
    let negative = random.weighted(&[(5, ""), (4, "न"), (2, "नन")]);
    let stem = match random.below(8) {
        0 => letters(random, 2),
        1 => String::new(),
        2 => format!("{}{}", random.pick(VERB_STEMS), random.pick(&['्', 'ा', 'आ', 'ि', 'इ'])),
        _ => random.pick(VERB_STEMS).to_string(),
    };
    let link = random.weighted(&[(6, "ि"), (6, "इ"), (1, "ी"), (1, ""), (1, "ई")]);
    let ending = random.pick(PROGRESSIVE_ENDINGS);
    format!("{negative}{stem}{link}{ending}")
}

/// A progressive form with affixes around it or in it, or one that ends in another.
pub fn affixed_progressive(random: &mut Random) -> String {
    let mut word = match random.below(6) {
        0 => format!("{}{}", prefix_form(random), progressive(random)),
        1 => format!("परि{}", random.pick(PROGRESSIVE_ENDINGS)),
        2 => format!("{}{}", progressive(random), progressive(random)),
        _ => progressive(random),
    };
    push_suffixes(random, &mut word, PLURAL_MARKERS, 1);
    push_suffixes(random, &mut word, CASE_MARKERS, 2);
    push_suffixes(random, &mut word, PARTICLES, 1);
    fit(word, WORD_LIMIT)
}

/// Words in ई and ी, for the pronoun rule, with and without more after them.
pub fn pronoun(random: &mut Random) -> String {
    let base = match random.below(4) {
        0 => random.pick(&["तिन", "हाम", "यिन", "उन"]),
        1 => "",
        _ => random.pick(STEMS),
    };
    let mut word = format!("{base}{}", random.pick(&["ई", "ी", "ीई", "ईी", "ीी"]));
    if random.chance(30) {
        word = format!("{}{word}", prefix_form(random));
    }
    let table = random.pick(&[SUFFIXES, CASE_MARKERS]);
    push_suffixes(random, &mut word, table, 2);
    fit(word, WORD_LIMIT)
}

/// Rows of `SUFFIXES`, stacked so that decompose meets them in table order or against it.
pub fn derivation(random: &mut Random) -> String {
    let mut word = stem(random);
    if random.chance(30) {
        word = format!("{}{word}", prefix_form(random));
    }
    let mut rows: Vec<usize> = (0..random.range(1, 5)).map(|_| random.below(SUFFIXES.len())).collect();
    if random.chance(60) {
        // The row tried first stands outermost.
        rows.sort_unstable_by(|a, b| b.cmp(a));
    }
    for row in rows {
        push_suffix(random, &mut word, SUFFIXES[row]);
    }
    fit(word, WORD_LIMIT)
}

/// एको holds को: one root under two labels.
pub fn nested_suffix(random: &mut Random) -> String {
    let mut word = stem(random);
    word.push_str("एको");
    let table = random.pick(&[SUFFIXES, CASE_MARKERS]);
    push_suffixes(random, &mut word, table, 2);
    fit(word, WORD_LIMIT)
}

/// A word of the origin table, whole, changed, or with something around it.
pub fn table_word(random: &mut Random) -> String {
    let word = random.pick(ORIGIN_TABLE).0;
    match random.below(8) {
        0..=2 => word.to_string(),
        3 | 4 => format!("{word}{}", random.pick(shabda::STRIP_SUFFIXES)),
        5 => format!("{}{word}", prefix_form(random)),
        6 => format!("{word}{}", random.pick(LETTERS)),
        _ => {
            let mut cut = word.to_string();
            cut.pop();
            cut
        }
    }
}

pub fn stripped_origin(random: &mut Random) -> String {
    let mut word = match random.below(4) {
        0 => letters(random, 1),
        1 => String::new(),
        _ => stem(random),
    };
    if random.chance(40) {
        push_suffixes(random, &mut word, shabda::STRIP_SUFFIXES, 2);
    }
    // The first six are compounds, which end in a later one.
    let suffix = match random.below(3) {
        0 => random.pick(&shabda::STRIP_SUFFIXES[..6]),
        _ => random.pick(shabda::STRIP_SUFFIXES),
    };
    push_suffix(random, &mut word, suffix);
    fit(word, WORD_LIMIT)
}

#[rustfmt::skip]
const MARKS: &[&str] = &[
    "\u{0957}", "\u{0958}", "\u{0959}", "\u{095A}", "\u{095B}", "\u{095C}", "\u{095D}", "\u{095E}",
    "\u{095F}", "\u{0960}", "\u{093B}", "\u{093C}", "\u{093C}", "\u{093C}", "\u{093D}", "ऋ", "ृ",
    "ष", "ः", "क्ष", "ज्ञ", "क्त", "त्म", "त्र", "त्त", "द्ध", "द्य", "द्व", "ॠ", "ॄ", "श", "ं",
    "क्श", "ज्न", "क्थ", "त्न", "त्य", "त्थ", "द्द", "द्र", "द्न", "क्", "त्", "द्",
];

#[rustfmt::skip]
const ENDS: &[&str] = &[
    "नु", "ने", "को", "ठो", "ठा", "डो", "डा", "ढो", "ढा", "टो", "णा", "ठ", "ड", "ो", "ा", "ठि",
    "डे", "नि", "ना", "का", "की", "न", "क", "ठोा", "ढ़ो", "े", "ु",
];

/// Marks of origin at the start, inside and at the end, and their neighbours.
pub fn marked(random: &mut Random) -> String {
    let plain = &['क', 'ख', 'ग', 'म', 'ल', 'ब', 'प'];
    let mut word = String::new();
    for _ in 0..random.range(0, 3) {
        word.push(random.pick(plain));
    }
    for _ in 0..random.weighted(&[(3, 0), (6, 1), (1, 2)]) {
        let places: Vec<usize> = word.char_indices().map(|(i, _)| i).chain([word.len()]).collect();
        let place = if random.chance(40) { 0 } else { random.pick(&places) };
        word.insert_str(place, random.pick(MARKS));
    }
    if random.chance(50) {
        word.push_str(random.pick(ENDS));
    }
    word
}

/// `|` and `+`, which the source's joined keys are parted by, next to affixes.
pub fn joiners(random: &mut Random) -> String {
    let mut word = String::new();
    for _ in 0..random.range(2, 6) {
        match random.below(6) {
            0 => word.push('|'),
            1 => word.push('+'),
            2 => word.push_str(prefix_form(random)),
            3 => word.push_str(random.pick(STEMS)),
            _ => word.push_str(random.pick(&appended_texts())),
        }
    }
    fit(word, WORD_LIMIT)
}

/// Characters of one, two, three and four bytes between affixes.
pub fn strangers(random: &mut Random) -> String {
    let mut word = String::new();
    if random.chance(40) {
        word.push_str(prefix_form(random));
    }
    for _ in 0..random.range(1, 4) {
        word.push(random.pick(STRANGERS));
    }
    let table = random.pick(&[CASE_MARKERS, SUFFIXES, PARTICLES]);
    push_suffixes(random, &mut word, table, 3);
    word
}

/// A text of the tables by itself, or nearly: no remainder is empty.
pub fn bare_text(random: &mut Random) -> String {
    let row = random.pick(PREFIX_FORMS);
    let text = match random.below(7) {
        0 => row.0,
        1 => row.1,
        2 => random.pick(SUFFIXES),
        3 => random.pick(shabda::STRIP_SUFFIXES),
        4 => "",
        _ => random.pick(&appended_texts()),
    };
    match random.below(4) {
        0 => format!("{}{text}", random.pick(LETTERS)),
        1 => format!("{text}{text}"),
        2 => format!("{text}{}", random.pick(&appended_texts())),
        _ => text.to_string(),
    }
}

pub fn any_letters(random: &mut Random) -> String {
    let count = random.range(0, 12);
    letters(random, count)
}

/// Words with many readings: around 64 where every run is known.
pub fn many_readings(random: &mut Random) -> String {
    let prefixes = random.weighted(&[(6, "निःनिः"), (1, "निः"), (1, "निःप्रति"), (1, "अभिनिः"), (1, "")]);
    let mut word = format!("{prefixes}{}", random.pick(&["घर", "मानव", "काम", "लक", "भारत"]));
    if random.chance(15) {
        word.push_str(random.pick(PLURAL_MARKERS));
    }
    // क्यारे ends in रे, which is a particle too: with three case markers it gives most.
    let longest = random.chance(70);
    let count = if longest { 3 } else { random.range(2, 5) };
    let suffix = random.pick(CASE_MARKERS);
    for _ in 0..count {
        word.push_str(if random.chance(70) { suffix } else { random.pick(CASE_MARKERS) });
    }
    if longest || random.chance(50) {
        word.push_str(if longest { "क्यारे" } else { random.pick(PARTICLES) });
    }
    fit(word, WORD_LIMIT)
}

/// Exactly `bytes` bytes, ending in suffixes, from whole characters.
pub fn of_length(random: &mut Random, bytes: usize) -> String {
    let mut word = String::new();
    if random.chance(50) {
        word.push_str(prefix_form(random));
    }
    let mut end = String::new();
    match random.below(4) {
        0 => end.push_str(&progressive(random)),
        1 => push_suffixes(random, &mut end, SUFFIXES, 4),
        _ => push_suffixes(random, &mut end, CASE_MARKERS, 4),
    }
    let end = fit(end, bytes / 2);
    while word.len() + end.len() + 3 <= bytes {
        let text = if random.chance(30) { random.pick(SUFFIXES) } else { random.pick(STEMS) };
        if word.len() + end.len() + text.len() + 3 > bytes {
            word.push('क');
        } else {
            word.push_str(text);
        }
    }
    // One or two bytes may be left.
    match bytes - word.len() - end.len() {
        1 => word.push('a'),
        2 => word.push('é'),
        _ => {}
    }
    word + &end
}
