//! Every case of document 01's "Readings worked by hand".

mod common;

use common::*;

#[test]
fn shared_letters() {
    assert_eq!(
        readings("घरले", &["(w घर (wh))", "(w घरल (w))"]),
        "(list 2)\n(r घर घर () ((ले case)) 279 d)\n(r घरल घरल () ((ले case shared)) 129 d)\n"
    );
    assert_eq!(
        readings("घरतिरे", &["(w घरत (w))"]),
        "(list 1)\n(r घरत घरत () ((तिर case shared) (रे particle shared)) 146 d)\n"
    );
}

#[test]
fn the_listing() {
    assert_eq!(readings("घरले", &["(w घर (wh))"]), "(list 1)\n(r घर घर () ((ले case)) 279 d)\n");
}

#[test]
fn with_the_word_itself_known() {
    assert_eq!(
        readings("घरले", &["(w घर (wh))", "(w घरले (w))"]),
        "(list 2)\n(r घर घर () ((ले case)) 339 d)\n(r घरले घरले () () 104 d)\n"
    );
}

#[test]
fn two_rows_of_one_prefix() {
    assert_eq!(
        readings("निःशुल्क", &["(w शुल्क (h))"]),
        "(list 2)\n(r निःशुल्क शुल्क (निर्) () 188 d)\n(r निःशुल्क शुल्क (निस्) () 188 d)\n"
    );
}

#[test]
fn what_a_short_prefix_leaves() {
    assert_eq!(readings("अमानव", &["(w मानव (w))"]), "(list 1)\n(r अमानव मानव (अ) () 135 d)\n");
    assert_eq!(readings("असफल", &["(w सफल (w))"]), "(list 0)\n");
}

#[test]
fn progressive_forms() {
    let verbs = ["(w खानु (hv))", "(w रहनु (hv))"];
    assert_eq!(readings("खाइरहेको", &verbs), "(list 1)\n(r खाइरहेको खाइरहेको () () 8 b)\n");
    assert_eq!(line("खाइरहेको", &verbs, "progressive"), "progressive खाइ खानु रहेको रहनु affirmative");
    assert_eq!(line("नखाइरहेको", &verbs, "progressive"), "progressive नखाइ खानु रहेको रहनु negative");
}

#[test]
fn a_link_line_that_fails() {
    let sheet = ["(l गरि (गर्नु))", "(w गरनु (hv))", "(w रहनु (hv))"];
    assert_eq!(line("गरिरहेको", &sheet, "progressive"), "progressive none");
    assert_eq!(line("गरिरहेको", &sheet[1..], "progressive"), "progressive गरि गरनु रहेको रहनु affirmative");
}

#[test]
fn decompose_strips_two_suffixes() {
    assert_eq!(line("घरकोता", &["(w घर (w))", "(w घरको (w))"], "decomposition"), "decomposition घर d 0 2 ता को");
}

#[test]
fn the_empty_word() {
    assert_eq!(readings("", &["(w घर (wh))"]), "(list 0)\n");
    assert_eq!(answers::readings_program(b""), b"(list 0)\n");
    assert_eq!(
        answer("", &[]),
        "(list 0)\nsupported no\ncandidates 0\nknown no\ndecomposition  d 0 0\nprogressive none\norigin d unknown 00000000\n"
    );
}

#[test]
fn sixty_three_readings() {
    let word = "निःनिःघरकोकोकोको";
    let listing = readings(word, &strs(&every_run(word)));
    assert!(listing.starts_with("(list 63)\n"));
    assert_eq!(listing.lines().count(), 64);
}

#[test]
fn seventy_seven_readings_are_refused() {
    let word = "निःनिःघरकोकोकोक्यारे";
    let lines = every_run(word);
    assert_eq!(readings(word, &strs(&lines)), "(refused 7)\n");
    let sheet = sheet(&strs(&lines));
    let (text, forms) = acceptance::check(word.as_bytes(), sheet.as_bytes()).expect("both are accepted");
    assert_eq!(answers::with_sheet(&forms, || shabda::analyze_affixes(text).len()), 77);
}

#[test]
fn word_of_192_and_193_bytes() {
    let word = "घ".repeat(64);
    assert_eq!(word.len(), 192);
    assert_eq!(readings(&word, &[&format!("(w {word} (w))")]), format!("(list 1)\n(r {word} {word} () () 164 d)\n"));
    assert_eq!(readings(&format!("{word}a"), &[]), "(refused 1)\n");
}

#[test]
fn sheet_of_65536_and_65537_bytes() {
    let (good, long) = (sheet_of(65_536), sheet_of(65_537));
    assert_eq!((good.len(), long.len()), (65_536, 65_537));
    assert_eq!(acceptance("घरले".as_bytes(), &good), "0");
    assert_eq!(acceptance("घरले".as_bytes(), &long), "4");
}
