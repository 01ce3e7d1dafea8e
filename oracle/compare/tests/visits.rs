//! How many pieces a word visits, on words whose number is known: the oracle and the library say it.

use blocks::Case;
use compare::{NAMES, functions, oracle};
use std::collections::BTreeSet;

/// A sheet in which every run of the word's characters is known by w.
fn every_run(word: &str) -> String {
    let ends: Vec<usize> = word.char_indices().map(|(at, _)| at).chain([word.len()]).collect();
    let runs: BTreeSet<&str> = ends
        .iter()
        .flat_map(|&from| ends.iter().filter(move |&&to| from < to).map(move |&to| &word[from..to]))
        .collect();
    runs.iter().map(|run| format!("(w {run} (w))\n")).collect()
}

fn visits(word: &str, sheet: &str) -> [String; 2] {
    let case = Case { word: word.into(), sheet: sheet.into() };
    let at = NAMES.iter().position(|&name| name == "visits").unwrap();
    [oracle::answers(&case)[at].clone(), functions::answers(&functions::LIBRARY, &case)[at].clone()]
}

#[test]
fn known_numbers() {
    let heavy =
        [("निःनिःघरकोकोकोको", 304), ("निःनिःघरकोकोकोक्यारे", 320), ("निःनिःघरहरूकोमालेक्यारे", 320), ("घरले", 28), ("", 0)];
    for (word, number) in heavy {
        let text = format!("visits {number}");
        assert_eq!(visits(word, &every_run(word)), [text.clone(), text.clone()], "{word} with every run known");
        assert_eq!(visits(word, ""), [text.clone(), text], "{word} with nothing known");
    }
    let progressive = "(w खानु (hv))\n(w रहनु (hv))\n";
    assert_eq!(visits("खाइरहेको", progressive), ["visits 2", "visits 2"]);
    assert_eq!(visits("खाइरहेको", ""), ["visits 28", "visits 28"]);
    assert_eq!(visits("(", ""), ["(refused 3)", "(refused 3)"]);
}
