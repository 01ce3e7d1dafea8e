//! Points that document 01's words leave open and that the source settles.

mod common;

use common::*;

const VERBS: [&str; 2] = ["(w खानु (hv))", "(w रहनु (hv))"];

#[test]
fn the_main_form_is_the_linked_form() {
    assert_eq!(line("नखाइरहेकी", &VERBS, "progressive"), "progressive नखाइ खानु रहेकी रहनु negative");
}

#[test]
fn only_readings_leave_a_progressive_form_whole() {
    let sheet = ["(w खाइरहे (wht))", VERBS[0], VERBS[1]];
    assert_eq!(readings("खाइरहेको", &sheet), "(list 1)\n(r खाइरहेको खाइरहेको () () 8 t)\n");
    assert_eq!(line("खाइरहेको", &sheet, "decomposition"), "decomposition खाइरहे t 0 1 को");
    assert_eq!(line("खाइरहेको", &sheet, "candidate "), "candidate खाइरहे wh t 283 0 1 को");
    assert_eq!(line("खाइरहेको", &sheet, "origin"), "origin t kosha 3F666666");
}

#[test]
fn origin_asks_both_remainders_and_the_table_of_the_word_alone() {
    assert_eq!(line("घरले", &["(w घर (hb))", "(w घरल (ht))"], "origin"), "origin b kosha 3F666666");
    assert_eq!(line("घरले", &["(w घरल (ht))"], "origin"), "origin t kosha 3F666666");
    assert_eq!(line("रूप", &[], "origin"), "origin t override 3F800000");
    assert_eq!(line("रूपले", &[], "origin"), "origin d unknown 00000000");
    assert_eq!(line("कले", &["(w क (ht))"], "origin"), "origin d unknown 00000000");
}

#[test]
fn a_headword_without_tag_stops_the_search() {
    assert_eq!(line("घरले", &["(w घर (ht))", "(w घरले (h))"], "origin"), "origin d unknown 00000000");
    assert_eq!(line("घरले", &["(w घर (h))", "(w घरल (ht))"], "origin"), "origin d unknown 00000000");
    assert_eq!(line("घरले", &["(w घर (ht))", "(w घरले (w))"], "origin"), "origin t kosha 3F666666");
}

#[test]
fn candidates_take_every_remainder() {
    let sheet = ["(w घर (w))", "(w घरल (w))"];
    assert_eq!(lines("घरले", &sheet, "candidate "), ["candidate घरल w d 129 0 1 ले", "candidate घर w d 129 0 1 ले"]);
}

#[test]
fn what_stands_after_the_prefix_need_not_be_known() {
    assert_eq!(lines("प्रमानवता", &["(w मानव (w))"], "candidate "), ["candidate मानव w d 154 1 प्र 1 ता"]);
    assert_eq!(line("प्रमानवता", &["(w मानव (w))"], "decomposition"), "decomposition प्रमानवता d 0 0");
}

#[test]
fn a_link_decides_its_own_search_alone() {
    let sheet = ["(l नखाइ (जानु))", VERBS[0], VERBS[1]];
    assert_eq!(line("नखाइरहेको", &sheet, "progressive"), "progressive नखाइ खानु रहेको रहनु negative");
}

#[test]
fn sixty_is_given_once() {
    assert_eq!(readings("घर", &["(w घरको (w))"]), "(list 1)\n(r घर घर () () 62 d)\n");
    assert_eq!(readings("घर", &["(w घरको (w))", "(w घरले (h))"]), "(list 1)\n(r घर घर () () 62 d)\n");
    assert_eq!(readings("घर", &["(w घरले (h))"]), "(list 1)\n(r घर घर () () 62 d)\n");
}

#[test]
fn a_headword_comes_first_among_candidates_of_equal_score() {
    let sheet = ["(w प्रमानवीको (h))", "(w मानव (w))", "(w मानवी (w))", "(w मानवीको (w))", "(w मानवीकोता (w))"];
    let found = lines("प्रमानवीकोता", &sheet, "candidate ");
    assert_eq!(found[0], "candidate प्रमानवीको h d 187 0 1 ता");
    assert_eq!(found[1], "candidate मानव w d 187 1 प्र 3 ता को ई");
}

#[test]
fn nukta_counts_anywhere_but_first() {
    assert_eq!(line("\u{93C}क", &[], "origin"), "origin d unknown 00000000");
    assert_eq!(line("क\u{93C}", &[], "origin"), "origin a heuristic 3F266666");
    assert_eq!(line("कमल\u{93C}", &[], "origin"), "origin a heuristic 3F266666");
    assert_eq!(line("\u{958}", &[], "origin"), "origin a heuristic 3F266666");
}

#[test]
fn e_on_another_name_is_accepted_and_does_nothing() {
    assert_eq!(line("घर", &["(w घर (hpe))"], "candidates"), "candidates 1");
    assert_eq!(line("तिनी", &["(w तिन (w))", "(w तिनी (hpe))"], "decomposition"), "decomposition तिन d 0 1 ई");
    assert_eq!(line("तिनी", &["(w तिन (w))", "(w तिनी (hp))"], "decomposition"), "decomposition तिनी d 0 0");
}

#[test]
fn pronouns_lose_case_markers_in_readings() {
    assert_eq!(
        readings("तिनीले", &["(w तिनी (whp))", "(w तिनीले (hp))"]),
        "(list 2)\n(r तिनी तिनी () ((ले case)) 341 d)\n(r तिनीले तिनीले () () 156 d)\n"
    );
}

#[test]
fn the_program_gives_4_before_all_else() {
    let mut input = vec![0xFF; 65_537];
    assert_eq!(answers::readings_program(&input), b"(refused 4)\n");
    input.pop();
    assert_eq!(answers::readings_program(&input), b"(refused 1)\n");
}

#[test]
fn has_known_root_never_gives_7() {
    let word = "निःनिःघरकोकोकोक्यारे";
    let runs = every_run(word);
    assert_eq!(line(word, &strs(&runs), "supported"), "supported 7");
    assert_eq!(line(word, &strs(&runs), "known"), "known yes");
}

#[test]
fn checks_in_their_order() {
    let form = "(w घर (w))\n".as_bytes();
    assert_eq!(acceptance(b"", b"\n"), "5 0");
    assert_eq!(acceptance(&[0xFF; 193], b"\n"), "1");
    assert_eq!(acceptance(&[0x00, 0xFF], b"\n"), "2");
    assert_eq!(acceptance(b" ", b"\n"), "3");
    assert_eq!(acceptance(b"", &[b'\n'; 65_537]), "4");
    // both malformed and out of order
    assert_eq!(acceptance(b"", &[form, b"(w a (x))\n"].concat()), format!("5 {}", form.len()));
    // 6 on an earlier line beats 5 on a later one, and the other way round
    assert_eq!(acceptance(b"", &[form, form, b"\n"].concat()), format!("6 {}", form.len()));
    assert_eq!(acceptance(b"", &[form, b"\n", form].concat()), format!("5 {}", form.len()));
    assert_eq!(acceptance(b"", &form[..form.len() - 1]), "5 0");
}

#[test]
fn sixteen_candidates() {
    let word = "निःघरपहाडितएको";
    assert_eq!(line(word, &strs(&every_run(word)), "candidates"), "candidates 16");
}

#[test]
fn twenty_four_suffix_labels() {
    let mut word = "अपमानव".to_string();
    let mut names = vec!["मानव".to_string()];
    for suffix in shabda::tables::SUFFIXES.iter().rev() {
        word.push_str(suffix);
        names.push(word["अप".len()..].to_string());
    }
    names.sort();
    let sheet: Vec<String> = names.iter().map(|name| format!("(w {name} (w))")).collect();
    assert!(word.len() <= 192);
    let found = line(&word, &strs(&sheet), "decomposition");
    assert!(found.starts_with("decomposition मानव d 1 अप 24 उन्जेल ईकरण "), "{found}");
    let best = line(&word, &strs(&sheet), "candidate ");
    let score: usize = best.split(' ').nth(4).and_then(|text| text.parse().ok()).expect("a score");
    assert_eq!(score, 100 + 20 + 24 * 15 + 10 + word.chars().count());
}
