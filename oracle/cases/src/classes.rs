//! The classes of cases. Each makes a word and a sheet that reach one family of rules.

use crate::damage::{INFINITIVES, LINE_DAMAGES, LINK_NAMES, any_letters, damage_text, forbidden_byte};
use crate::lines::Lines;
use crate::pieces::pieces;
use crate::random::Random;
use crate::{sheets, texts, words};
use acceptance::{SHEET_LIMIT, WORD_LIMIT};
use blocks::Case;
use shabda::tables::SUFFIXES;

pub struct Class {
    pub name: &'static str,
    /// How many of a round of cases are of this class.
    pub weight: usize,
    pub make: fn(&mut Random) -> Case,
}

const fn class(name: &'static str, weight: usize, make: fn(&mut Random) -> Case) -> Class {
    Class { name, weight, make }
}

pub const CLASSES: &[Class] = &[
    class("suffix-stack", 24, |random| asked(random, words::suffix_stack)),
    class("suffix-disorder", 14, |random| asked(random, words::suffix_disorder)),
    class("shared-letter", 14, |random| asked(random, words::shared_letters)),
    class("two-row-prefix", 12, |random| asked(random, words::two_row_prefix)),
    class("stacked-prefixes", 16, |random| asked(random, words::stacked_prefixes)),
    class("short-after-prefix", 12, |random| known(random, words::short_after_prefix, every_piece)),
    class("prefix-in-prefix", 16, |random| asked(random, words::prefix_in_prefix)),
    class("rank-tie", 20, rank_tie),
    class("candidate-tie", 8, candidate_tie),
    class("progressive", 24, |random| asked(random, words::progressive)),
    class("affixed-progressive", 20, |random| asked(random, words::affixed_progressive)),
    class("pronoun", 14, |random| known(random, words::pronoun, sheets::pronouns)),
    class("derivation", 22, |random| asked(random, words::derivation)),
    class("nested-suffix", 8, |random| asked(random, words::nested_suffix)),
    class("origin-table", 12, |random| asked(random, words::table_word)),
    class("origin-stripped", 16, |random| known(random, words::stripped_origin, sheets::tags)),
    class("origin-mark", 20, origin_mark),
    class("joiner", 6, |random| asked(random, words::joiners)),
    class("stranger", 8, |random| asked(random, words::strangers)),
    class("bare-text", 8, |random| asked(random, words::bare_text)),
    class("any-letters", 8, |random| asked(random, words::any_letters)),
    class("many-readings", 12, many_readings),
    class("kind-line", 6, kind_line),
    class("lookalike", 6, lookalike),
    class("sheet-of-another-word", 3, another_sheet),
    class("word-length", 8, word_length),
    class("name-length", 6, name_length),
    class("sheet-length", 1, sheet_length),
    class("word-not-utf8", 10, word_not_utf8),
    class("word-forbidden", 6, word_forbidden),
    class("word-and-sheet-refused", 6, word_and_sheet_refused),
    class("line-damaged", 40, line_damaged),
    class("letters", 14, line_letters),
    class("links", 5, line_links),
    class("order", 12, order),
    class("two-faults", 10, two_faults),
    class("stretch", 4, stretch),
];

fn case(word: impl Into<Vec<u8>>, sheet: Vec<u8>) -> Case {
    Case { word: word.into(), sheet }
}

/// A word with a good sheet made from its own questions.
fn asked(random: &mut Random, make: fn(&mut Random) -> String) -> Case {
    let word = make(random);
    let sheet = sheets::for_word(random, &word).bytes();
    case(word, sheet)
}

/// The same, but most sheets are made by `fill`.
fn known(random: &mut Random, make: fn(&mut Random) -> String, fill: fn(&mut Random, &str, &mut Lines)) -> Case {
    if random.chance(35) {
        return asked(random, make);
    }
    let word = make(random);
    let mut lines = Lines::default();
    fill(random, &word, &mut lines);
    case(word, lines.bytes())
}

fn every_piece(random: &mut Random, word: &str, lines: &mut Lines) {
    sheets::some_pieces(random, word, lines, 100);
}

fn rank_tie(random: &mut Random) -> Case {
    let word = match random.below(4) {
        0 => words::prefix_in_prefix(random),
        1 => words::two_row_prefix(random),
        2 => format!("{}{}", texts::prefix_form(random), words::suffix_stack(random)),
        _ => words::suffix_stack(random),
    };
    let word = texts::fit(word, WORD_LIMIT);
    let mut lines = Lines::default();
    match random.below(3) {
        0 => sheets::alike(random, &word, &mut lines),
        _ => sheets::one_kind_each(random, &word, &mut lines),
    }
    case(word, lines.bytes())
}

/// Prefix and three suffixes over a root known by w score as one suffix over a headword does.
fn candidate_tie(random: &mut Random) -> Case {
    let form = texts::prefix_form(random);
    let mut piece = random.pick(&["मानव", "भारत", "समाज", "पहाड", "किताब", "नेपाल", "शुल्क"]).to_string();
    let mut rows = [0; 3].map(|_| random.below(SUFFIXES.len()));
    rows.sort_unstable_by(|a, b| b.cmp(a));
    let mut lines = Lines::default();
    lines.word(&piece, "w");
    for row in rows {
        if random.chance(70) {
            lines.word(&format!("{form}{piece}"), random.pick(&["h", "wh", "w"]));
        }
        piece.push_str(SUFFIXES[row]);
        lines.word(&piece, "w");
    }
    case(format!("{form}{piece}"), lines.bytes())
}

/// Marks decide only where the sheet is silent, so most sheets here are.
fn origin_mark(random: &mut Random) -> Case {
    let word = words::marked(random);
    if random.chance(85) {
        return case(word, Vec::new());
    }
    let sheet = sheets::for_word(random, &word).bytes();
    case(word, sheet)
}

fn many_readings(random: &mut Random) -> Case {
    let word = words::many_readings(random);
    let mut lines = Lines::default();
    sheets::every_run(random, &word, &mut lines);
    // Some pieces less, so that counts just below and just above 64 come too.
    let percent = random.pick(&[0, 0, 8, 16, 20, 24, 28, 32]);
    for piece in pieces(&word) {
        if random.chance(percent) {
            lines.words.remove(piece);
        }
    }
    lines.fit(SHEET_LIMIT);
    case(word, lines.bytes())
}

fn kind_line(random: &mut Random) -> Case {
    let word = words::suffix_stack(random);
    let mut lines = sheets::for_word(random, &word);
    for text in texts::appended_texts() {
        if random.chance(60) {
            lines.kind(text, random.pick(&["post", "comp"]));
        }
    }
    case(word, lines.bytes())
}

fn lookalike(random: &mut Random) -> Case {
    let word = words::suffix_stack(random);
    let mut lines = Lines::default();
    sheets::some_pieces(random, &word, &mut lines, 20);
    for _ in 0..4 {
        sheets::lookalikes(random, &word, &mut lines);
    }
    case(word, lines.bytes())
}

fn another_sheet(random: &mut Random) -> Case {
    let other = words::suffix_stack(random);
    let sheet = sheets::for_word(random, &other).bytes();
    case(words::suffix_stack(random), sheet)
}

fn word_length(random: &mut Random) -> Case {
    let length = random.range(185, 198);
    let word = words::of_length(random, length);
    let asked = texts::fit(word.clone(), WORD_LIMIT);
    let mut lines = sheets::for_word(random, &asked);
    if random.chance(40) {
        // The longest questions: 192 bytes and a text of 18.
        lines.word(&format!("{asked}{}", random.pick(&["द्वारा", "क्यारे", "भित्र"])), &sheets::letters(random));
    }
    case(word, lines.bytes())
}

/// Names of 209 to 211 bytes as suffix, link, infinitive and word.
fn name_length(random: &mut Random) -> Case {
    let word = words::suffix_stack(random);
    let mut lines = sheets::for_word(random, &word);
    let length = random.range(209, 211);
    let name = words::of_length(random, length);
    let ending = |end: &str| words::of_length(&mut Random::for_case(length as u64, 1), length - end.len()) + end;
    // Past `is_name`, which would leave the long ones out.
    match random.below(5) {
        0 => drop(lines.kinds.insert(name, "post")),
        1 => drop(lines.links.insert(ending(random.pick(&["ि", "इ"])), "गर्नु".to_string())),
        2 => drop(lines.links.insert("गरि".to_string(), ending("नु"))),
        3 => {
            // A lemma as long as a name may be.
            let lemma = ending("नु");
            lines.links.insert("गरि".to_string(), lemma.clone());
            lines.words.insert(lemma, random.pick(&["hv", "whv", "h"]).to_string());
            lines.word("रहनु", "hv");
            return case(
                format!("{}गरि{}", random.pick(&["", "न"]), random.pick(texts::PROGRESSIVE_ENDINGS)),
                lines.bytes(),
            );
        }
        _ => drop(lines.words.insert(name, sheets::letters(random))),
    }
    case(word, lines.bytes())
}

/// A good sheet of 65,530 to 65,540 bytes, at times with a fault in its last line.
fn sheet_length(random: &mut Random) -> Case {
    let word = words::suffix_stack(random);
    let length = match random.below(2) {
        0 => random.range(SHEET_LIMIT - 1, SHEET_LIMIT + 1),
        _ => random.range(SHEET_LIMIT - 6, SHEET_LIMIT + 4),
    };
    let mut sheet = of_length(random, &word, length);
    if random.chance(20) {
        let last = sheet.len() - 1;
        sheet[last - random.below(4)] = b'x';
    }
    case(word, sheet)
}

/// A good sheet of exactly `length` bytes, with the word's questions in it.
pub fn of_length(random: &mut Random, word: &str, length: usize) -> Vec<u8> {
    let mut lines = sheets::for_word(random, word);
    let mut size = lines.size();
    while size + 300 < length {
        let name = format!("{}{:x}", texts::stem(random), random.below(1 << 24));
        let letters = sheets::letters(random);
        if let std::collections::btree_map::Entry::Vacant(place) = lines.words.entry(name) {
            size += "(w  ())\n".len() + place.key().len() + letters.len();
            place.insert(letters);
        }
    }
    // The last of the names fill what is left; they sort above all others.
    let left = length - size;
    let first = left / 2;
    for part in [first, left - first] {
        let fill = part - "(w \u{10FFFF} (w))\n".len();
        let name = format!("\u{10FFFF}{}", "a".repeat(fill));
        let name = if lines.words.contains_key(&name) { format!("\u{10FFFF}{}", "b".repeat(fill)) } else { name };
        lines.words.insert(name, "w".to_string());
    }
    lines.bytes()
}

fn any_word(random: &mut Random) -> String {
    match random.below(4) {
        0 => words::progressive(random),
        1 => words::any_letters(random),
        2 => words::stacked_prefixes(random),
        _ => words::suffix_stack(random),
    }
}

/// The lines of a small good sheet, at least one of them.
fn good_lines(random: &mut Random, word: &str) -> Vec<Vec<u8>> {
    let mut lines = sheets::for_word(random, word);
    lines.fit(400);
    sheets::kinds(random, &mut lines);
    lines.link("गरि", "गर्नु");
    lines.word("घर", "wh");
    let each = lines.each();
    let count = each.len();
    // Now and then few lines, so that the fault stands in the first or the only one.
    match random.below(5) {
        0 => each.into_iter().skip(random.below(count)).take(1).collect(),
        1 => each.into_iter().skip(random.below(count)).take(3).collect(),
        _ => each,
    }
}

fn good_sheet(random: &mut Random, word: &str) -> Vec<u8> {
    good_lines(random, word).concat()
}

fn word_not_utf8(random: &mut Random) -> Case {
    let word = any_word(random);
    let sheet = good_sheet(random, &word);
    let mut word = word.into_bytes();
    for _ in 0..random.range(1, 2) {
        damage_text(random, &mut word);
    }
    if random.chance(10) {
        word.insert(0, forbidden_byte(random));
    }
    case(word, sheet)
}

fn word_forbidden(random: &mut Random) -> Case {
    let mut word = any_word(random);
    let sheet = good_sheet(random, &word);
    let places: Vec<usize> = word.char_indices().map(|(i, _)| i).chain([word.len()]).collect();
    word.insert(random.pick(&places), forbidden_byte(random) as char);
    case(word, sheet)
}

/// Several causes at once: the lowest number is given.
fn word_and_sheet_refused(random: &mut Random) -> Case {
    let mut word = match random.below(3) {
        0 => {
            let length = random.range(190, 196);
            words::of_length(random, length).into_bytes()
        }
        1 => Vec::new(),
        _ => any_word(random).into_bytes(),
    };
    if random.chance(50) {
        damage_text(random, &mut word);
    }
    if random.chance(50) {
        word.push(forbidden_byte(random));
    }
    let sheet = match random.below(20) {
        0 => vec![b'x'; SHEET_LIMIT + random.below(2)],
        _ => line_damaged(random).sheet,
    };
    case(word, sheet)
}

fn pick_line(random: &mut Random, count: usize) -> usize {
    match random.below(3) {
        0 => 0,
        1 => count - 1,
        _ => random.below(count),
    }
}

fn line_damaged(random: &mut Random) -> Case {
    let word = any_word(random);
    let mut lines = good_lines(random, &word);
    let place = pick_line(random, lines.len());
    let (_, damage) = random.pick(LINE_DAMAGES);
    damage(random, &mut lines[place]);
    case(word, lines.concat())
}

/// Lines with letters in any order and number, in a sheet that is good else.
fn line_letters(random: &mut Random) -> Case {
    let word = any_word(random);
    let mut sheet = Vec::new();
    for place in 0..random.range(1, 4) {
        sheet.extend_from_slice(format!("(w {place}{} (", random.pick(texts::STEMS)).as_bytes());
        sheet.extend_from_slice(&any_letters(random));
        sheet.extend_from_slice(b"))\n");
    }
    case(word, sheet)
}

/// Link lines whose names end as they must or nearly so, in a sheet that is good else.
fn line_links(random: &mut Random) -> Case {
    let word = any_word(random);
    let mut sheet = String::new();
    for place in 0..random.range(1, 3) {
        let (link, infinitive) = (random.pick(LINK_NAMES), random.pick(INFINITIVES));
        sheet.push_str(&format!("(l {place}{link} ({infinitive}))\n"));
    }
    case(word, sheet.into_bytes())
}

/// Forms that do not ascend: swapped, repeated, moved, of equal names, of letters out of order.
fn order(random: &mut Random) -> Case {
    let word = any_word(random);
    let mut lines = good_lines(random, &word);
    disorder(random, &mut lines);
    case(word, lines.concat())
}

fn disorder(random: &mut Random, lines: &mut Vec<Vec<u8>>) {
    let place = random.below(lines.len());
    match random.below(6) {
        0 if lines.len() > 1 => {
            let place = random.below(lines.len() - 1);
            lines.swap(place, place + 1);
        }
        1 => lines.insert(place, lines[place].clone()),
        2 => {
            let line = lines.remove(place);
            let to = random.below(lines.len() + 1);
            lines.insert(to, line);
        }
        3 => {
            let more = random.pick(&[&b"(k a (post))\n"[..], "(l इ (नु))\n".as_bytes(), b"(w a (w))\n", b"(w ~ (h))\n"]);
            lines.insert(place, more.to_vec());
        }
        4 => {
            // Equal names with other letters, or a name and its own beginning.
            let name = random.pick(texts::STEMS);
            let (first, second) = random.pick(&[
                ("", ""),
                ("a", ""),
                ("", "a"),
                ("अ", "आ"),
                ("\u{FFFF}", "\u{10000}"),
                ("\u{10000}", "\u{FFFF}"),
            ]);
            lines.truncate(0);
            lines.push(format!("(w {name}{first} (w))\n").into_bytes());
            lines.push(format!("(w {name}{second} (wh))\n").into_bytes());
        }
        _ => {
            // The three kinds of line in any order, with names that ascend or not.
            lines.truncate(0);
            for _ in 0..3 {
                let line = random.pick(&[
                    "(k की (comp))\n",
                    "(l गरि (गर्नु))\n",
                    "(w घर (w))\n",
                    "(w अ (h))\n",
                    "(k ले (post))\n",
                ]);
                lines.push(line.as_bytes().to_vec());
            }
        }
    }
}

/// Two faults of either kind, in the same line or in two: the earlier line decides, and a line
/// with both faults is no form.
fn two_faults(random: &mut Random) -> Case {
    let word = any_word(random);
    let mut lines = good_lines(random, &word);
    disorder(random, &mut lines);
    for _ in 0..random.range(1, 2) {
        let place = pick_line(random, lines.len());
        let (_, damage) = random.pick(LINE_DAMAGES);
        damage(random, &mut lines[place]);
    }
    case(word, lines.concat())
}

/// Sheets that are hardly lines at all.
fn stretch(random: &mut Random) -> Case {
    let word = any_word(random);
    let length = random.weighted(&[(4, 1), (3, 2), (2, 5), (2, 40), (1, 700)]);
    let sheet = match random.below(5) {
        0 => vec![b'\n'; length],
        1 => vec![random.pick(b" (wa\0\xFF"); length],
        2 => (0..length).map(|_| random.below(256) as u8).collect(),
        3 => (0..length).map(|_| random.pick(b"(kw )\n")).collect(),
        _ => {
            let mut sheet = good_sheet(random, &word);
            sheet.extend(std::iter::repeat_n(b'a', length));
            sheet
        }
    };
    case(word, sheet)
}
