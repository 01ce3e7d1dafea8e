//! What the functions leave in a lent buffer: past the answer, after a refusal, and where the answer just fits.

mod common;

use common::{SEVENTY_SEVEN, SIXTY_THREE, every_run};
use yunthirel::raw;

type Ask = fn(&[u8], &[u8], &mut [u8]) -> u64;

/// The bytes that an answer with this code has.
type SizeOf = fn(u64) -> usize;

/// The functions that fill a buffer.
const FILLING: [(Ask, SizeOf); 4] = [
    (raw::readings, |code| raw::READING_ROW * raw::above(code)),
    (raw::listing, |code| raw::above(code)),
    (raw::candidates, |code| 33 * raw::above(code)),
    (raw::decompose, |_| 33),
];

/// Asks twice, with a buffer of one byte and then of another: what is written is the same, what is left differs everywhere.
fn filled(ask: Ask, word: &[u8], sheet: &[u8], length: usize) -> (u64, Vec<u8>, usize) {
    let (mut one, mut other) = (vec![0x55; length], vec![0xAA; length]);
    let code = ask(word, sheet, &mut one);
    assert_eq!(ask(word, sheet, &mut other), code);
    let written = one.iter().zip(&other).take_while(|(a, b)| a == b).count();
    assert!(one[written..].iter().all(|&byte| byte == 0x55), "written past the answer");
    assert!(other[written..].iter().all(|&byte| byte == 0xAA), "written past the answer");
    one.truncate(written);
    (code, one, written)
}

fn cases() -> Vec<(&'static str, Vec<u8>)> {
    vec![
        ("घरले", "(w घर (wh))\n".into()),
        ("घरकोता", "(w घर (w))\n(w घरको (w))\n".into()),
        (SIXTY_THREE, every_run(SIXTY_THREE)),
        ("निःघरपहाडितएको", every_run("निःघरपहाडितएको")),
        ("असफल", "(w सफल (w))\n".into()),
        ("", vec![]),
    ]
}

#[test]
fn an_answer_fills_its_own_bytes_alone() {
    for (word, sheet) in cases() {
        for (ask, size_of) in FILLING {
            let (code, bytes, written) = filled(ask, word.as_bytes(), &sheet, 40_000);
            assert_eq!(raw::number(code), 0, "{word}");
            assert_eq!(written, size_of(code), "{word}");
            // A buffer that just fits has the same bytes.
            assert_eq!(filled(ask, word.as_bytes(), &sheet, written), (code, bytes, written), "{word}");
            if written > 0 {
                assert_eq!(filled(ask, word.as_bytes(), &sheet, written - 1), (8, vec![], 0), "{word}");
                assert_eq!(filled(ask, word.as_bytes(), &sheet, 0), (8, vec![], 0), "{word}");
            }
        }
    }
}

#[test]
fn a_refusal_leaves_the_buffer() {
    let refused: [(&[u8], &[u8], u64); 6] = [
        (&[b'a'; 193], b"", 1),
        (b"\xFF", b"", 2),
        (b"(", b"", 3),
        (b"", &[b'\n'; 65_537], 4),
        (b"", b"(w a (w))\n\n", 5 + 256 * 10),
        (b"", b"(w a (w))\n(w a (w))\n", 6 + 256 * 10),
    ];
    for (word, sheet, code) in refused {
        for (ask, _) in FILLING {
            assert_eq!(filled(ask, word, sheet, 40_000), (code, vec![], 0));
            assert_eq!(filled(ask, word, sheet, 0), (code, vec![], 0));
        }
    }
    let sheet = every_run(SEVENTY_SEVEN);
    for ask in [raw::readings, raw::listing] as [Ask; 2] {
        assert_eq!(filled(ask, SEVENTY_SEVEN.as_bytes(), &sheet, 40_000), (7, vec![], 0));
    }
}

#[test]
fn codes_of_no_form_are_not_read() {
    use yunthirel::ProgressiveAnalysis;
    let (word, sheet) = ("नखाइरहेको".as_bytes(), "(w खानु (hv))\n(w रहनु (hv))\n".as_bytes());
    let code = raw::progressive(word, sheet);
    assert!(ProgressiveAnalysis::of_code(word, sheet, code).is_some());
    // A form alone, so that main form and lemma are empty; a lemma of 0 bytes; a lemma without its last byte; none found; a number.
    for other in [raw::YES, code & !(0xFF << 18), code - (1 << 18), code - raw::YES, code + 1] {
        assert_eq!(ProgressiveAnalysis::of_code(word, sheet, other), None, "{other:#x}");
    }
    // The main form a byte longer and past the word, the lemma a byte on, past the sheet and far past it.
    for more in [1 << 10, 0x40 << 10, 1 << 26, 60 << 26, u64::MAX / 2] {
        let other = code.wrapping_add(more);
        assert_eq!(ProgressiveAnalysis::of_code(word, sheet, other), None, "{other:#x}");
    }
}

#[test]
fn rows_that_are_no_answer_are_not_read() {
    let word = "घरले".as_bytes();
    let mut row = [0; raw::READING_ROW];
    raw::readings(word, "(w घर (wh))\n".as_bytes(), &mut row);
    assert!(yunthirel::Reading::of_row(word, &row).is_some());
    // Stem, root, a prefix row that is not counted, segment row, kind, mark, a segment that is not counted, the two counts, origin,
    // source (one that is none, one that is surer), the four bytes of the confidence.
    let origin = [(22, 4), (23, 4), (23, 1), (24, 1), (25, 1), (26, 1), (27, 0x3F)];
    let reading = [(0, 13), (0, 5), (2, 1), (2, 7), (6, 1), (8, 25), (9, 5), (10, 2), (11, 1), (20, 3), (21, 5)];
    for (at, byte) in reading.into_iter().chain(origin) {
        let mut other = row;
        other[at] = byte;
        assert_eq!(yunthirel::Reading::of_row(word, &other), None, "byte {at} as {byte}");
    }
    let mut row = [0; raw::CANDIDATE_ROW];
    raw::candidates(word, "(w घर (wh))\n".as_bytes(), &mut row);
    assert!(yunthirel::RootCandidate::of_row(word, &row).is_some());
    // Start, end, prefix, the two counts, origin, letters, suffix row, a suffix that is not counted.
    for (at, byte) in
        [(0, 1), (0, 7), (1, 13), (1, 5), (2, 1), (3, 2), (4, 25), (5, 4), (6, 0), (6, 4), (9, 24), (10, 1)]
    {
        let mut other = row;
        other[at] = byte;
        assert_eq!(yunthirel::RootCandidate::of_row(word, &other), None, "byte {at} as {byte}");
    }
    let mut row = [0; raw::CANDIDATE_ROW];
    raw::decompose(word, "(w घर (wh))\n".as_bytes(), &mut row);
    assert!(yunthirel::Morpheme::of_row(word, &row).is_some());
    row[7] = 1;
    assert_eq!(yunthirel::Morpheme::of_row(word, &row), None);
}

#[test]
fn every_row_writes_its_word_back() {
    for (word, sheet) in cases() {
        let word = word.as_bytes();
        let mut rows = [0; raw::READINGS_ROOM];
        let count = raw::above(raw::readings(word, &sheet, &mut rows));
        let (rows, _) = rows.as_chunks::<{ raw::READING_ROW }>();
        for row in &rows[..count] {
            let ask: Ask = |word, row, out| raw::surface(word, row, out);
            assert_eq!(filled(ask, word, row, 400), ((word.len() as u64) << 8, word.to_vec(), word.len()));
            assert_eq!(filled(ask, word, row, word.len() - 1), (8, vec![], 0));
        }
    }
    // A word that is refused, a row with too few bytes, and rows of no word at all.
    assert_eq!(raw::surface(b"(", &[0; raw::READING_ROW], &mut [0; 9]), 3);
    assert_eq!(raw::surface("घर".as_bytes(), &[0xFF; 21], &mut []), 0);
    assert_eq!(raw::number(raw::surface("घर".as_bytes(), &[0xFF; raw::READING_ROW], &mut [0; 400])), 0);
}
