//! Each of the eight numbers, from each function that can give it.

mod common;

use common::{SEVENTY_SEVEN, every_run, sheet, sheet_of};
use yunthirel::*;

/// What every function but the two checks says of the word and the sheet, where it refuses them.
fn refusals(word: &[u8], sheet: &[u8]) -> Vec<Option<Refusal>> {
    vec![
        analyze_affixes(word, sheet).err(),
        best_analysis(word, sheet).err(),
        has_supported_analysis(word, sheet).err(),
        write_readings(word, sheet, &mut [0; raw::LISTING_ROOM]).err(),
        lookup_root_candidates(word, sheet).err(),
        best_root(word, sheet).err(),
        has_known_root(word, sheet).err(),
        decompose(word, sheet).err(),
        analyze_progressive(word, sheet).err(),
        has_supported_progressive_form(word, sheet).err(),
        classify_with_provenance(word, sheet).err(),
        classify(word, sheet).err(),
    ]
}

fn all_refuse(word: &[u8], sheet: &[u8], refusal: Refusal) {
    for (k, found) in refusals(word, sheet).into_iter().enumerate() {
        assert_eq!(found, Some(refusal), "function {k}");
    }
}

#[test]
fn one_a_word_of_193_bytes() {
    assert_eq!(check_word(&[b'a'; 192]), Ok(()));
    assert_eq!(refusals(&[b'a'; 192], b""), [None; 12]);
    assert_eq!(check_word(&[b'a'; 193]), Err(Refusal::WordTooLong));
    all_refuse(&[b'a'; 193], b"", Refusal::WordTooLong);
}

#[test]
fn two_a_word_that_is_no_utf8() {
    for word in [&b"\x80"[..], b"\xE0\xA4", b"\xC0\x80", b"\xED\xA0\x80"] {
        assert_eq!(check_word(word), Err(Refusal::WordNotUtf8));
        all_refuse(word, b"", Refusal::WordNotUtf8);
    }
}

#[test]
fn three_a_byte_that_no_word_holds() {
    for byte in 0..0x80 {
        let forbidden = matches!(byte, 0..=0x20 | 0x28 | 0x29 | 0x7F);
        let word = [b'a', byte, b'b'];
        assert_eq!(check_word(&word), if forbidden { Err(Refusal::WordForbidden) } else { Ok(()) }, "{byte:02X}");
        if forbidden {
            all_refuse(&word, b"", Refusal::WordForbidden);
        }
    }
}

#[test]
fn four_a_sheet_of_65_537_bytes() {
    assert_eq!(check_sheet(&sheet_of(65_536)), Ok(()));
    assert_eq!(refusals(b"a", &sheet_of(65_536)), [None; 12]);
    assert_eq!(check_sheet(&sheet_of(65_537)), Err(Refusal::SheetTooLong));
    all_refuse(b"a", &sheet_of(65_537), Refusal::SheetTooLong);
}

#[test]
fn five_a_line_that_is_no_form() {
    let lines = sheet(&["(w घर (wh))", "(w घरको (hw))"]);
    let refusal = Refusal::SheetNoForm { start: 16 };
    assert_eq!(check_sheet(&lines), Err(refusal));
    assert_eq!(refusal.start(), Some(16));
    all_refuse("घर".as_bytes(), &lines, refusal);
    // A last stretch without 0A.
    all_refuse(b"", b"(w a (w))", Refusal::SheetNoForm { start: 0 });
}

#[test]
fn six_a_line_not_above_the_one_before() {
    let lines = sheet(&["(w घर (wh))", "(w घर (wh))"]);
    let refusal = Refusal::SheetNotAbove { start: 16 };
    assert_eq!(check_sheet(&lines), Err(refusal));
    assert_eq!(refusal.start(), Some(16));
    all_refuse("घर".as_bytes(), &lines, refusal);
}

#[test]
fn seven_more_than_64_readings() {
    let (word, sheet) = (SEVENTY_SEVEN.as_bytes(), every_run(SEVENTY_SEVEN));
    let found = refusals(word, &sheet);
    assert_eq!(found[..4], [Some(Refusal::TooManyReadings); 4]);
    assert_eq!(found[4..], [None; 8]);
}

#[test]
fn eight_an_output_shorter_than_the_answer() {
    let (word, sheet) = ("घरले".as_bytes(), "(w घर (wh))\n".as_bytes());
    let size = write_readings(word, sheet, &mut [0; 100]).expect("100 bytes are enough");
    assert_eq!(write_readings(word, sheet, &mut vec![0; size - 1]), Err(Refusal::OutputTooShort));
    assert_eq!(raw::readings(word, sheet, &mut [0; 17]), 8);
    assert_eq!(raw::candidates(word, sheet, &mut [0; 32]), 8);
    assert_eq!(raw::decompose(word, sheet, &mut [0; 32]), 8);
}

#[test]
fn the_lowest_number_and_the_earlier_line() {
    let bad = sheet_of(65_537);
    all_refuse(&[0xFF; 193], &bad, Refusal::WordTooLong);
    all_refuse(b"\0\xFF", &bad, Refusal::WordNotUtf8);
    all_refuse(b" ", &bad, Refusal::WordForbidden);
    all_refuse(b"", b"(w b (w))\n(w a (w))\n\n", Refusal::SheetNotAbove { start: 10 });
    all_refuse(b"", b"(w b (w))\n\n(w a (w))\n", Refusal::SheetNoForm { start: 10 });
    // The word and the sheet come before the buffer, and so does 7.
    assert_eq!(raw::readings(b" ", b"", &mut []), 3);
    assert_eq!(raw::candidates(b"", b"\n", &mut []), 5);
    assert_eq!(raw::readings(SEVENTY_SEVEN.as_bytes(), &every_run(SEVENTY_SEVEN), &mut []), 7);
    assert_eq!(raw::listing(SEVENTY_SEVEN.as_bytes(), &every_run(SEVENTY_SEVEN), &mut []), 7);
}

#[test]
fn a_refusal_is_an_error_with_its_number() {
    let error: Box<dyn std::error::Error> = Box::new(Refusal::SheetNoForm { start: 16 });
    assert_eq!(error.to_string(), "the sheet's line at byte 16 is no form (refused 5)");
    assert_eq!(Refusal::OutputTooShort.to_string(), "the output is shorter than the answer (refused 8)");
}
