//! What a sheet's lines refer to, each number that can be refused with, and what is left of what was lent.

use yunthirel::{Reference, Refusal, check_references, raw, write_references};

const SHEET: &str =
    "(k छ (comp))\n(k ले (post))\n(l खोजि (खोज्नु))\n(l गरि (गर्नु))\n(l पढि (पढ्नु))\n(w खोज्नु (wh))\n(w पढ्नु (whv))\n";
const REPORT: &str = "(check 3)\n(k छ unused)\n(l खोजि notverb)\n(l गरि missing)\n";

#[test]
fn references_of_a_sheet() {
    let at = |line: &str| SHEET.find(line).expect("a line");
    let found = check_references(SHEET.as_bytes()).expect("accepted");
    assert_eq!(
        found,
        [
            Reference::Unused { name: "छ", start: 0 },
            Reference::NotVerb { name: "खोजि", start: at("(l खोजि") },
            Reference::Missing { name: "गरि", start: at("(l गरि") },
        ]
    );
    assert_eq!(found.iter().map(|line| format!("{line}\n")).collect::<String>(), REPORT["(check 3)\n".len()..]);
    assert_eq!((found[2].name(), found[2].start()), ("गरि", at("(l गरि")));
    // The names are parts of the sheet that was lent.
    assert_eq!(found[0].name().as_ptr(), SHEET[3..].as_ptr());
    assert_eq!(check_references(b""), Ok(vec![]));
}

#[test]
fn refused_sheets() {
    assert_eq!(check_references(&[b'a'; 65_537]), Err(Refusal::SheetTooLong));
    assert_eq!(check_references(b"(k a (post))"), Err(Refusal::SheetNoForm { start: 0 }));
    assert_eq!(write_references(b"(k a (post))\n(k a (comp))\n", &mut []), Err(Refusal::SheetNotAbove { start: 13 }));
}

#[test]
fn what_is_left_of_a_buffer() {
    let size = REPORT.len();
    for length in [0, 1, size - 1, size, size + 7] {
        let mut out = vec![77; length];
        let written = write_references(SHEET.as_bytes(), &mut out);
        if length < size {
            assert_eq!((written, out), (Err(Refusal::OutputTooShort), vec![77; length]));
        } else {
            assert_eq!(written, Ok(size));
            assert_eq!((&out[..size], &out[size..]), (REPORT.as_bytes(), &vec![77; length - size][..]));
        }
    }
    for length in 0..6 {
        let mut list = vec![77; length];
        let code = raw::findings(SHEET.as_bytes(), &mut list);
        if length < 3 {
            assert_eq!((code, list), (8, vec![77; length]));
        } else {
            assert_eq!((raw::number(code), raw::above(code)), (0, 3));
            assert_eq!(&list[3..], &vec![77; length - 3][..]);
        }
    }
}

#[test]
fn room_that_is_always_enough() {
    // 4,096 lines of 16 bytes, whose report lines are as long.
    let sheet: String = (0..4_096).map(|k| format!("(k {k:04} (post))\n")).collect();
    let mut out = vec![0; sheet.len() + raw::REPORT_HEAD];
    assert_eq!(write_references(sheet.as_bytes(), &mut out), Ok(65_549));
    assert!(out.starts_with(b"(check 4096)\n(k 0000 unused)\n"));
    assert_eq!(check_references(sheet.as_bytes()).map(|found| found.len()), Ok(4_096));
}
