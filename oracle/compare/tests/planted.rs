//! The comparison can fail: functions with a fault in the library's place, each seen at its own question and at no other.

use blocks::Case;
use compare::functions::{self, Functions, LIBRARY};
use compare::run::Outcome;
use compare::{Answers, Compared, NAMES, oracle};
use std::sync::LazyLock;
use yunthirel::raw;

/// A round of all classes, which is enough for each fault to show, with the oracle's answers.
static CASES: LazyLock<Vec<(Case, Answers)>> = LazyLock::new(|| {
    let round = (0..cases::round() as u64).map(|index| cases::case(3, index));
    round.map(|case| (case.clone(), oracle::answers(&case))).collect()
});

/// The questions at which the functions differ from the oracle on some case.
fn seen(functions: Functions) -> Vec<&'static str> {
    let mut outcome = Outcome::default();
    for (place, (case, oracle)) in (0..).zip(CASES.iter()) {
        let functions = functions::answers(&functions, case);
        outcome.add(place, &Compared { functions, api: oracle.clone(), oracle: oracle.clone() });
    }
    assert_eq!(outcome.cases, CASES.len() as u64);
    (0..NAMES.len()).filter(|&k| outcome.questions[k].count > 0).map(|k| NAMES[k]).collect()
}

#[test]
fn nothing_is_seen_in_the_library() {
    assert_eq!(seen(LIBRARY), [""; 0]);
}

#[test]
fn every_question_can_differ() {
    let case = Case { word: "घरले".into(), sheet: "(w घर (wh))\n".into() };
    for k in 0..NAMES.len() {
        let mut right = Compared::of(&case);
        assert_eq!(right.differences(), [0; 0]);
        right.functions[k].push('x');
        assert_eq!(right.differences(), [k]);
        let mut right = Compared::of(&case);
        right.api[k].pop();
        assert_eq!(right.differences(), [k]);
    }
}

/// A number that is another's.
fn other(code: u64, from: u8, to: u8) -> u64 {
    if raw::number(code) == from { code - u64::from(from) + u64::from(to) } else { code }
}

/// A code that is another's.
fn yes(code: u64, from: u64, to: u64) -> u64 {
    if code == from { to } else { code }
}

/// The number of pieces visited, changed where there is one.
fn visited(word: &[u8], sheet: &[u8], change: impl Fn(u64) -> u64) -> u64 {
    let code = raw::visits(word, sheet);
    if raw::number(code) == 0 { change(code) } else { code }
}

#[test]
fn wrong_codes() {
    let plants: [(&[&str], Functions); 17] = [
        (&["check_word"], Functions { check_word: |word| other(raw::check_word(word), 3, 2), ..LIBRARY }),
        (&["check_sheet"], Functions { check_sheet: |sheet| other(raw::check_sheet(sheet), 6, 5), ..LIBRARY }),
        // One entry more, 7 in the number's place, and the empty word entered.
        (&["visits"], Functions { visits: |word, sheet| visited(word, sheet, |code| code + (1 << 8)), ..LIBRARY }),
        (
            &["visits"],
            Functions {
                visits: |word, sheet| match raw::has_analysis(word, sheet) {
                    7 => 7,
                    _ => raw::visits(word, sheet),
                },
                ..LIBRARY
            },
        ),
        (
            &["visits"],
            Functions {
                visits: |word, sheet| visited(word, sheet, |code| if word.is_empty() { 8 << 8 } else { code }),
                ..LIBRARY
            },
        ),
        // The place of the line after the faulty one.
        (
            &["check_sheet"],
            Functions {
                check_sheet: |sheet| match raw::check_sheet(sheet) {
                    code if raw::number(code) == 5 => code + (1 << 8),
                    code => code,
                },
                ..LIBRARY
            },
        ),
        (
            &["has_analysis"],
            Functions { has_analysis: |word, sheet| yes(raw::has_analysis(word, sheet), 7, raw::YES), ..LIBRARY },
        ),
        (
            &["has_progressive"],
            Functions {
                has_progressive: |word, sheet| yes(raw::has_progressive(word, sheet), raw::YES, raw::NO),
                ..LIBRARY
            },
        ),
        (
            &["has_known_root"],
            Functions {
                has_known_root: |word, sheet| yes(raw::has_known_root(word, sheet), raw::YES, raw::NO),
                ..LIBRARY
            },
        ),
        (
            &["has_known_root"],
            Functions {
                has_known_root: |word, sheet| yes(raw::has_known_root(word, sheet), raw::NO, raw::YES),
                ..LIBRARY
            },
        ),
        // The other sign, the lemma a byte on, and no form.
        (
            &["progressive"],
            Functions { progressive: |word, sheet| form(word, sheet, |code| code ^ (1 << 9)), ..LIBRARY },
        ),
        (
            &["progressive"],
            Functions { progressive: |word, sheet| form(word, sheet, |code| code + (1 << 26)), ..LIBRARY },
        ),
        (&["progressive"], Functions { progressive: |word, sheet| form(word, sheet, |_| 0), ..LIBRARY }),
        (
            &["origin"],
            Functions {
                origin: |word, sheet| match raw::origin(word, sheet) {
                    code if raw::number(code) == 0 => code ^ (1 << 10),
                    code => code,
                },
                ..LIBRARY
            },
        ),
        // Another origin, of which the source is as it was.
        (
            &["origin", "classify"],
            Functions {
                origin: |word, sheet| match raw::origin(word, sheet) {
                    code if raw::number(code) == 0 => code ^ (1 << 8),
                    code => code,
                },
                ..LIBRARY
            },
        ),
        // The next number up from 0.90.
        (
            &["origin"],
            Functions {
                confidence: |word, sheet| match raw::confidence(word, sheet) {
                    0.90 => f32::from_bits(0.90_f32.to_bits() + 1),
                    confidence => confidence,
                },
                ..LIBRARY
            },
        ),
        // The sign alone, which no comparison of numbers sees in 0.0.
        (
            &["origin"],
            Functions {
                confidence: |word, sheet| match raw::confidence(word, sheet) {
                    0.0 => -0.0,
                    confidence => confidence,
                },
                ..LIBRARY
            },
        ),
    ];
    for (k, (questions, functions)) in plants.into_iter().enumerate() {
        assert_eq!(seen(functions), questions, "plant {k}");
    }
}

/// The code of a progressive form, changed.
fn form(word: &[u8], sheet: &[u8], change: fn(u64) -> u64) -> u64 {
    match raw::progressive(word, sheet) {
        code if raw::number(code) == 0 && code != raw::NO => change(code),
        code => code,
    }
}

type Fill = fn(&[u8], &[u8], &mut [u8]) -> u64;

/// The functions that fill a buffer, with the questions that they answer.
const READINGS: &[&str] = &["readings", "best_analysis"];
const LISTING: &[&str] = &["listing"];
const CANDIDATES: &[&str] = &["candidates", "best_root"];
const DECOMPOSITION: &[&str] = &["decomposition"];

/// The questions that see rows of candidates, not only whether there are some.
const CANDIDATES_BUT_YES: &[&str] = &["candidates", "best_root"];

fn with(questions: &[&str], fill: Fill) -> Functions {
    match questions[0] {
        "readings" => Functions { readings: fill, ..LIBRARY },
        "listing" => Functions { listing: fill, ..LIBRARY },
        "candidates" => Functions { candidates: fill, ..LIBRARY },
        _ => Functions { decompose: fill, ..LIBRARY },
    }
}

fn all_see(plants: [(&[&str], Fill); 4]) {
    for (questions, fill) in plants {
        assert_eq!(seen(with(questions, fill)), questions);
    }
}

#[test]
fn a_byte_past_the_answer() {
    fn past(code: u64, size: usize, out: &mut [u8]) -> u64 {
        if let (0, Some(byte)) = (raw::number(code), out.get_mut(size)) {
            *byte ^= 1;
        }
        code
    }
    all_see([
        (READINGS, |word, sheet, out| {
            let code = raw::readings(word, sheet, out);
            past(code, raw::READING_ROW * raw::above(code), out)
        }),
        (LISTING, |word, sheet, out| {
            let code = raw::listing(word, sheet, out);
            past(code, raw::above(code), out)
        }),
        (CANDIDATES, |word, sheet, out| {
            let code = raw::candidates(word, sheet, out);
            past(code, 33 * raw::above(code), out)
        }),
        (DECOMPOSITION, |word, sheet, out| {
            let code = raw::decompose(word, sheet, out);
            past(code, 33, out)
        }),
    ]);
}

#[test]
fn a_byte_after_a_refusal() {
    fn first(code: u64, out: &mut [u8]) -> u64 {
        if let (1..=7, Some(byte)) = (raw::number(code), out.first_mut()) {
            *byte ^= 1;
        }
        code
    }
    all_see([
        (READINGS, |word, sheet, out| first(raw::readings(word, sheet, out), out)),
        (LISTING, |word, sheet, out| first(raw::listing(word, sheet, out), out)),
        (CANDIDATES, |word, sheet, out| first(raw::candidates(word, sheet, out), out)),
        (DECOMPOSITION, |word, sheet, out| first(raw::decompose(word, sheet, out), out)),
    ]);
}

#[test]
fn a_byte_in_too_short_a_buffer() {
    fn last(code: u64, out: &mut [u8]) -> u64 {
        if let (8, Some(byte)) = (code, out.last_mut()) {
            *byte ^= 1;
        }
        code
    }
    all_see([
        (READINGS, |word, sheet, out| last(raw::readings(word, sheet, out), out)),
        (LISTING, |word, sheet, out| last(raw::listing(word, sheet, out), out)),
        (CANDIDATES, |word, sheet, out| last(raw::candidates(word, sheet, out), out)),
        (DECOMPOSITION, |word, sheet, out| last(raw::decompose(word, sheet, out), out)),
    ]);
}

#[test]
fn an_exact_fit_refused() {
    /// Asks with a byte less than was lent.
    fn less(ask: Fill, word: &[u8], sheet: &[u8], out: &mut [u8]) -> u64 {
        let length = out.len().saturating_sub(1);
        ask(word, sheet, &mut out[..length])
    }
    all_see([
        (READINGS, |word, sheet, out| less(raw::readings, word, sheet, out)),
        (LISTING, |word, sheet, out| less(raw::listing, word, sheet, out)),
        (CANDIDATES, |word, sheet, out| less(raw::candidates, word, sheet, out)),
        (DECOMPOSITION, |word, sheet, out| less(raw::decompose, word, sheet, out)),
    ]);
}

#[test]
fn a_short_buffer_taken_for_an_answer() {
    all_see([
        (READINGS, |word, sheet, out| other(raw::readings(word, sheet, out), 8, 0)),
        (LISTING, |word, sheet, out| other(raw::listing(word, sheet, out), 8, 0)),
        (CANDIDATES, |word, sheet, out| other(raw::candidates(word, sheet, out), 8, 0)),
        (DECOMPOSITION, |word, sheet, out| other(raw::decompose(word, sheet, out), 8, 0)),
    ]);
}

#[test]
fn a_byte_of_the_answer_not_written() {
    /// What was lent stays in the answer's last byte.
    fn kept(ask: Fill, size: fn(u64) -> usize, word: &[u8], sheet: &[u8], out: &mut [u8]) -> u64 {
        let before = out.to_vec();
        let code = ask(word, sheet, out);
        if let (0, Some(last)) = (raw::number(code), size(code).checked_sub(1)) {
            out[last] = before[last];
        }
        code
    }
    all_see([
        (READINGS, |word, sheet, out| {
            kept(raw::readings, |code| raw::READING_ROW * raw::above(code), word, sheet, out)
        }),
        (LISTING, |word, sheet, out| kept(raw::listing, raw::above, word, sheet, out)),
        (CANDIDATES, |word, sheet, out| kept(raw::candidates, |code| 33 * raw::above(code), word, sheet, out)),
        (DECOMPOSITION, |word, sheet, out| kept(raw::decompose, |_| 33, word, sheet, out)),
    ]);
}

#[test]
fn a_buffer_without_a_byte_taken_for_an_answer() {
    fn empty(code: u64, out: &[u8]) -> u64 {
        if out.is_empty() { other(code, 8, 0) } else { code }
    }
    all_see([
        (READINGS, |word, sheet, out| empty(raw::readings(word, sheet, out), out)),
        (LISTING, |word, sheet, out| empty(raw::listing(word, sheet, out), out)),
        (CANDIDATES, |word, sheet, out| empty(raw::candidates(word, sheet, out), out)),
        (DECOMPOSITION, |word, sheet, out| empty(raw::decompose(word, sheet, out), out)),
    ]);
}

#[test]
fn the_rows_that_fit_written_before_a_refusal() {
    /// Writes whole rows where the buffer lacks half a row or more: where it ends within a row, or where it ends with one.
    fn fitting<const ROW: usize>(ask: Fill, within: bool, word: &[u8], sheet: &[u8], out: &mut [u8]) -> u64 {
        let code = ask(word, sheet, out);
        let mut all = [0; raw::READINGS_ROOM];
        let size = ROW * raw::above(ask(word, sheet, &mut all));
        if code == 8 && out.len() >= ROW && out.len() + ROW / 2 <= size && out.len().is_multiple_of(ROW) != within {
            let whole = out.len() - out.len() % ROW;
            out[..whole].copy_from_slice(&all[..whole]);
        }
        code
    }
    for readings in [
        |word, sheet, out| fitting::<{ raw::READING_ROW }>(raw::readings, false, word, sheet, out),
        |word, sheet, out| fitting::<{ raw::READING_ROW }>(raw::readings, true, word, sheet, out),
    ] as [Fill; 2]
    {
        assert_eq!(seen(with(READINGS, readings)), READINGS);
    }
    for candidates in [
        |word, sheet, out| fitting::<33>(raw::candidates, false, word, sheet, out),
        |word, sheet, out| fitting::<33>(raw::candidates, true, word, sheet, out),
    ] as [Fill; 2]
    {
        assert_eq!(seen(with(CANDIDATES, candidates)), CANDIDATES);
    }
}

#[test]
fn one_row_for_another() {
    /// The last two rows in each other's place: their scores alone may be the same.
    fn swapped<const ROW: usize>(code: u64, out: &mut [u8]) -> u64 {
        let count = raw::above(code);
        if raw::number(code) == 0 && count > 2 {
            let (rows, _) = out.as_chunks_mut::<ROW>();
            rows.swap(count - 2, count - 1);
        }
        code
    }
    let readings: Fill = |word, sheet, out| swapped::<{ raw::READING_ROW }>(raw::readings(word, sheet, out), out);
    assert_eq!(seen(with(READINGS, readings)), ["readings"]);
    let candidates: Fill = |word, sheet, out| swapped::<33>(raw::candidates(word, sheet, out), out);
    assert_eq!(seen(with(CANDIDATES, candidates)), ["candidates"]);
}

#[test]
fn a_row_of_the_same_label() {
    /// The label of both rows is निर्; their forms are निः and निर्.
    fn other_form(code: u64, bytes: impl Iterator<Item = usize>, out: &mut [u8]) -> u64 {
        for at in bytes {
            if raw::number(code) == 0 && out.get(at) == Some(&20) {
                out[at] = 3;
            }
        }
        code
    }
    let readings: Fill = |word, sheet, out| {
        let code = raw::readings(word, sheet, out);
        other_form(code, (0..raw::above(code)).map(|row| raw::READING_ROW * row + 6), out)
    };
    assert_eq!(seen(with(READINGS, readings)), READINGS);
    let candidates: Fill = |word, sheet, out| {
        let code = raw::candidates(word, sheet, out);
        other_form(code, (0..raw::above(code)).map(|row| 33 * row + 2), out)
    };
    assert_eq!(seen(with(CANDIDATES, candidates)), CANDIDATES);
    let decompose: Fill = |word, sheet, out| {
        let code = raw::decompose(word, sheet, out);
        other_form(code, std::iter::once(2), out)
    };
    assert_eq!(seen(with(DECOMPOSITION, decompose)), DECOMPOSITION);
}

/// Changes the rows of an answer, `ROW` bytes each.
fn rows_changed<const ROW: usize>(code: u64, count: usize, out: &mut [u8], change: fn(&mut [u8; ROW])) -> u64 {
    if raw::number(code) == 0 {
        let (rows, _) = out.as_chunks_mut::<ROW>();
        rows[..count].iter_mut().for_each(change);
    }
    code
}

fn readings_changed(word: &[u8], sheet: &[u8], out: &mut [u8], change: fn(&mut [u8; raw::READING_ROW])) -> u64 {
    let code = raw::readings(word, sheet, out);
    rows_changed(code, raw::above(code), out, change)
}

fn candidates_changed(word: &[u8], sheet: &[u8], out: &mut [u8], change: fn(&mut [u8; 33])) -> u64 {
    let code = raw::candidates(word, sheet, out);
    rows_changed(code, raw::above(code), out, change)
}

fn decomposition_changed(word: &[u8], sheet: &[u8], out: &mut [u8], change: fn(&mut [u8; 33])) -> u64 {
    let code = raw::decompose(word, sheet, out);
    rows_changed(code, 1, out, change)
}

/// A byte of a row as another number.
fn byte(byte: &mut u8, from: u8, to: u8) {
    if *byte == from {
        *byte = to;
    }
}

/// A word written back wrongly is seen in the rows: one byte less, another last byte, something past the word.
#[test]
fn a_word_written_back_wrongly() {
    let plants: [Fill; 3] = [
        |word, row, out| raw::surface(word, row, out).saturating_sub(1 << 8),
        |word, row, out| {
            let code = raw::surface(word, row, out);
            if raw::number(code) == 0 && raw::above(code) > 0 {
                out[raw::above(code) - 1] ^= 1;
            }
            code
        },
        |word, row, out| {
            let code = raw::surface(word, row, out);
            if raw::number(code) == 0 && raw::above(code) < out.len() {
                out[raw::above(code)] ^= 1;
            }
            code
        },
    ];
    for surface in plants {
        assert_eq!(seen(Functions { surface, ..LIBRARY }), READINGS);
    }
}

#[test]
fn a_wrong_kind() {
    // A case marker as a particle, a postposition as a comparison marker, each nearest the stem.
    let plants: [Fill; 2] = [
        |word, sheet, out| readings_changed(word, sheet, out, |row| byte(&mut row[9], 1, 0)),
        |word, sheet, out| readings_changed(word, sheet, out, |row| byte(&mut row[9], 3, 4)),
    ];
    for plant in plants {
        assert_eq!(seen(with(READINGS, plant)), READINGS);
    }
}

#[test]
fn a_wrong_mark() {
    // A shared letter as plain and a plain one as shared, nearest the stem; a shared one behind another suffix as plain. Such a row does
    // not put its word back together, so that the whole list is no answer.
    let plants: [Fill; 3] = [
        |word, sheet, out| readings_changed(word, sheet, out, |row| byte(&mut row[10], 1, 0)),
        |word, sheet, out| readings_changed(word, sheet, out, |row| row[10] |= u8::from(row[21] > 0)),
        |word, sheet, out| readings_changed(word, sheet, out, |row| byte(&mut row[13], 1, 0)),
    ];
    for plant in plants {
        assert_eq!(seen(with(READINGS, plant)), READINGS);
    }
}

#[test]
fn a_wrong_suffix_row() {
    // को as मा nearest the stem, क्यारे as पनि furthest from it.
    let readings: [Fill; 2] = [
        |word, sheet, out| readings_changed(word, sheet, out, |row| byte(&mut row[8], 16, 17)),
        |word, sheet, out| readings_changed(word, sheet, out, |row| byte(&mut row[17], 18, 19)),
    ];
    for plant in readings {
        assert_eq!(seen(with(READINGS, plant)), READINGS);
    }
    // ई as ी, which no candidate and no decomposition is labelled with.
    let candidates: Fill = |word, sheet, out| candidates_changed(word, sheet, out, |row| byte(&mut row[9], 22, 23));
    assert_eq!(seen(with(CANDIDATES, candidates)), CANDIDATES_BUT_YES);
    let decompose: Fill = |word, sheet, out| decomposition_changed(word, sheet, out, |row| byte(&mut row[9], 22, 23));
    assert_eq!(seen(with(DECOMPOSITION, decompose)), DECOMPOSITION);
}

#[test]
fn a_wrong_score() {
    // One more, and 256 less.
    let readings: [Fill; 2] = [
        |word, sheet, out| readings_changed(word, sheet, out, |row| row[4] ^= 1),
        |word, sheet, out| readings_changed(word, sheet, out, |row| row[5] = 0),
    ];
    for plant in readings {
        assert_eq!(seen(with(READINGS, plant)), READINGS);
    }
    let candidates: [Fill; 2] = [
        |word, sheet, out| candidates_changed(word, sheet, out, |row| row[7] ^= 1),
        |word, sheet, out| candidates_changed(word, sheet, out, |row| row[8] = 0),
    ];
    for plant in candidates {
        assert_eq!(seen(with(CANDIDATES, plant)), CANDIDATES_BUT_YES);
    }
}

/// Sets source and confidence of a row where they are these.
fn sure(row: &mut [u8; raw::READING_ROW], from: (u8, f32), to: (u8, f32)) {
    if row[23] == from.0 && row[24..] == from.1.to_le_bytes() {
        row[23] = to.0;
        row[24..].copy_from_slice(&to.1.to_le_bytes());
    }
}

/// The origin of what `part` takes for the root, in the place of the root's.
fn classified(word: &[u8], sheet: &[u8], out: &mut [u8], part: fn(&[u8], usize, usize) -> &[u8]) -> u64 {
    let code = raw::readings(word, sheet, out);
    if raw::number(code) == 0 {
        let (rows, _) = out.as_chunks_mut::<{ raw::READING_ROW }>();
        for row in &mut rows[..raw::above(code)] {
            let number = |at: usize| usize::from(u16::from_le_bytes([row[at], row[at + 1]]));
            let part = part(word, number(2), number(0));
            let decided = raw::origin(part, sheet);
            row[22] = (decided >> 8 & 3) as u8;
            row[23] = (decided >> 10 & 3) as u8;
            row[24..].copy_from_slice(&raw::confidence(part, sheet).to_le_bytes());
        }
    }
    code
}

#[test]
fn the_origin_of_something_else() {
    // Of the root nothing is seen; of the word, of the stem, and of what the first row has, something is.
    let root: Fill = |word, sheet, out| classified(word, sheet, out, |word, from, to| &word[from..to]);
    assert_eq!(seen(with(READINGS, root)), [""; 0]);
    let plants: [Fill; 2] = [
        |word, sheet, out| classified(word, sheet, out, |word, _, _| word),
        |word, sheet, out| classified(word, sheet, out, |word, _, to| &word[..to]),
    ];
    for plant in plants {
        assert_eq!(seen(with(READINGS, plant)), READINGS);
    }
    let first: Fill = |word, sheet, out| {
        let code = raw::readings(word, sheet, out);
        if raw::number(code) == 0 {
            let (rows, _) = out.as_chunks_mut::<{ raw::READING_ROW }>();
            if let [first, others @ ..] = &mut rows[..raw::above(code)] {
                others.iter_mut().for_each(|row| row[22..].copy_from_slice(&first[22..]));
            }
        }
        code
    };
    assert_eq!(seen(with(READINGS, first)), ["readings"]);
}

#[test]
fn a_wrong_origin_source_or_confidence() {
    // t for b and a for d; a source that is as sure as the one it stands for can be; the other confidence of the dictionary, both ways;
    // the next number up; the sign of 0.0.
    let plants: [Fill; 8] = [
        |word, sheet, out| readings_changed(word, sheet, out, |row| byte(&mut row[22], 1, 0)),
        |word, sheet, out| readings_changed(word, sheet, out, |row| byte(&mut row[22], 2, 3)),
        |word, sheet, out| readings_changed(word, sheet, out, |row| sure(row, (2, 0.65), (1, 0.90))),
        |word, sheet, out| readings_changed(word, sheet, out, |row| sure(row, (0, 1.0), (1, 0.95))),
        |word, sheet, out| readings_changed(word, sheet, out, |row| sure(row, (1, 0.95), (1, 0.90))),
        |word, sheet, out| readings_changed(word, sheet, out, |row| sure(row, (1, 0.90), (1, 0.95))),
        |word, sheet, out| readings_changed(word, sheet, out, |row| row[24] = row[24].wrapping_add(1)),
        |word, sheet, out| readings_changed(word, sheet, out, |row| sure(row, (3, 0.0), (3, -0.0))),
    ];
    for plant in plants {
        assert_eq!(seen(with(READINGS, plant)), READINGS);
    }
}

#[test]
fn a_wrong_tag_letter() {
    /// The letter before each row's last two bytes as another.
    fn lettered(word: &[u8], sheet: &[u8], out: &mut [u8], from: u8, to: u8) -> u64 {
        let code = raw::listing(word, sheet, out);
        if raw::number(code) == 0 {
            let text = &mut out[..raw::above(code)];
            for at in 0..text.len().saturating_sub(3) {
                if text[at..at + 4] == [b' ', from, b')', b'\n'] {
                    text[at + 1] = to;
                }
            }
        }
        code
    }
    let plants: [Fill; 4] = [
        |word, sheet, out| lettered(word, sheet, out, b't', b'b'),
        |word, sheet, out| lettered(word, sheet, out, b'b', b't'),
        |word, sheet, out| lettered(word, sheet, out, b'd', b'a'),
        |word, sheet, out| lettered(word, sheet, out, b'a', b'd'),
    ];
    for plant in plants {
        assert_eq!(seen(with(LISTING, plant)), LISTING);
    }
}

#[test]
fn a_wrong_letter() {
    // w for h, h for w, and one of the two left out.
    let plants: [Fill; 4] = [
        |word, sheet, out| candidates_changed(word, sheet, out, |row| byte(&mut row[6], 2, 1)),
        |word, sheet, out| candidates_changed(word, sheet, out, |row| byte(&mut row[6], 1, 2)),
        |word, sheet, out| candidates_changed(word, sheet, out, |row| byte(&mut row[6], 3, 1)),
        |word, sheet, out| candidates_changed(word, sheet, out, |row| byte(&mut row[6], 3, 2)),
    ];
    for plant in plants {
        assert_eq!(seen(with(CANDIDATES, plant)), CANDIDATES_BUT_YES);
    }
}
