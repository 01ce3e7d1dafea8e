//! Decompositions and root candidates that document 01 or its bounds name, put to the port and to the oracle.

use blocks::Case;
use compare::QUESTIONS;

/// A sheet of `w` lines in their order.
fn sheet(lines: &[(&str, &str)]) -> Vec<u8> {
    let mut lines: Vec<_> = lines.to_vec();
    lines.sort_by_key(|(name, _)| name.as_bytes());
    lines.iter().flat_map(|(name, letters)| format!("(w {name} ({letters}))\n").into_bytes()).collect()
}

/// Every run of whole characters, known by w.
fn every_run(word: &str) -> Vec<u8> {
    let places: Vec<usize> = word.char_indices().map(|(at, _)| at).chain([word.len()]).collect();
    let mut runs: Vec<&str> = Vec::new();
    for (i, &from) in places.iter().enumerate() {
        runs.extend(places[i + 1..].iter().map(|&to| &word[from..to]));
    }
    runs.retain(|run| run.len() <= 210);
    runs.sort_by_key(|run| run.as_bytes());
    runs.dedup();
    let mut text = Vec::new();
    for run in runs {
        text.extend(format!("(w {run} (w))\n").into_bytes());
    }
    text
}

/// Both answers to a question, which must be the same.
fn answer(question: &str, word: &str, sheet: Vec<u8>) -> String {
    let case = Case { word: word.as_bytes().to_vec(), sheet };
    let question = QUESTIONS.iter().find(|known| known.name == question).expect("a question of that name");
    let port = (question.port)(&case);
    assert_eq!((question.oracle)(&case), port, "{word}");
    port
}

#[test]
fn every_suffix_row_is_tried() {
    let found = answer("decomposition", "घरकोता", sheet(&[("घर", "w"), ("घरको", "w")]));
    assert_eq!(found, "decomposition घर d 0 2 ता को");
}

#[test]
fn twenty_four_labels_after_a_prefix() {
    let suffixes: String = shabda::tables::SUFFIXES.iter().rev().copied().collect();
    let word = format!("निःघरबा{suffixes}");
    assert_eq!(word.len(), 192);
    // The pieces on the way alone: every run of such a word would not fit a sheet.
    let mut piece = word.strip_prefix("निः").expect("it begins so");
    let mut lines = vec![(piece, "w")];
    for suffix in shabda::tables::SUFFIXES {
        piece = piece.strip_suffix(suffix).expect("it ends so");
        lines.push((piece, "w"));
    }
    let found = answer("decomposition", &word, sheet(&lines));
    assert!(found.starts_with("decomposition घरबा "), "{found}");
    assert!(found.contains(" 1 निर् 24 "), "{found}");
    assert!(found.ends_with(" ई ई"), "{found}");
}

#[test]
fn sixteen_candidates() {
    let word = "निःघरपहाडितएको";
    let found = answer("candidates", word, every_run(word));
    assert!(found.starts_with("candidates 16\n"), "{found}");
}

#[test]
fn the_shared_remainder_where_the_plain_one_is_no_word() {
    let found = answer("decomposition", "घरको", sheet(&[("घर", "h"), ("घरक", "w")]));
    assert_eq!(found, "decomposition घरक d 0 1 को");
}

#[test]
fn a_pronoun_with_and_without_its_spelling() {
    let kept = answer("decomposition", "हामी", sheet(&[("हाम", "w"), ("हामी", "whp")]));
    assert_eq!(kept, "decomposition हामी b 0 0");
    let spelled = answer("decomposition", "हामी", sheet(&[("हाम", "w"), ("हामी", "whpe")]));
    assert_eq!(spelled, "decomposition हाम b 0 1 ई");
}

#[test]
fn two_candidates_ordered_by_h() {
    let lines = [("घरबार", "w"), ("घरबारको", "w"), ("घरबारकोता", "w"), ("घरबारकोतापन", "w"), ("उपघरबारकोता", "h")];
    let found = answer("candidates", "उपघरबारकोतापन", sheet(&lines));
    let rows: Vec<&str> = found.lines().collect();
    assert!(rows[1].starts_with("candidate उपघरबारकोता h "), "{found}");
    assert!(rows[2].starts_with("candidate घरबार w "), "{found}");
    let scores = [1, 2].map(|row| rows[row].split(' ').nth(4));
    assert_eq!(scores[0], scores[1]);
}

#[test]
fn a_score_past_612() {
    let suffixes: String = shabda::tables::SUFFIXES.iter().rev().copied().collect();
    let word = format!("निःघरबा{suffixes}");
    let mut piece = word.strip_prefix("निः").expect("it begins so");
    let mut lines = vec![(piece, "wh")];
    for suffix in shabda::tables::SUFFIXES {
        piece = piece.strip_suffix(suffix).expect("it ends so");
        lines.push((piece, "wh"));
    }
    let found = answer("candidates", &word, sheet(&lines));
    let best = found.lines().nth(1).and_then(|row| row.split(' ').nth(4)).expect("a score");
    assert!(best.parse::<u16>().expect("a number") > 612, "{found}");
}

#[test]
fn a_short_buffer_is_refused_and_left() {
    let sheet = sheet(&[("घर", "w")]);
    let mut out = [0xAA; 32];
    assert_eq!(compare::port::decompose("घर".as_bytes(), &sheet, &mut out), 8);
    assert_eq!(compare::port::candidates("घर".as_bytes(), &sheet, &mut out), 8);
    assert_eq!(out, [0xAA; 32]);
}
