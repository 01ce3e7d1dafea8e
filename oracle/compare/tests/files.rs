//! Words of files: their sheets are good, the full ones are full, and what they hold is compared.

use blocks::Case;
use compare::files::Words;
use compare::{Compared, NAMES};

const LINES: &str = "घर\nघरको\nघरले\nखानु\nखाइरहेको\nरहनु\n(\nघर\n";

fn words() -> Words {
    Words::of_lines(LINES.as_bytes(), 5)
}

/// The names of the sheet's `w` lines.
fn names(case: &Case) -> Vec<String> {
    let text = String::from_utf8(case.sheet.clone()).expect("a sheet is UTF-8");
    let lines = text.lines().filter_map(|line| line.strip_prefix("(w "));
    lines.map(|line| line[..line.find(' ').expect("a name ends")].to_string()).collect()
}

/// The sheet's `l` lines.
fn links(case: &Case) -> Vec<(String, String)> {
    let text = String::from_utf8(case.sheet.clone()).expect("a sheet is UTF-8");
    let lines = text.lines().filter_map(|line| line.strip_prefix("(l ")?.strip_suffix("))")?.split_once(" ("));
    lines.map(|(link, infinitive)| (link.to_string(), infinitive.to_string())).collect()
}

#[test]
fn links_decide() {
    // Cases without a link line of खाइ, those with the lemma of such a line, and those in which it shuts out खानु for none.
    let (mut without, mut another, mut none) = (0, 0, 0);
    for seed in 0..100 {
        // खाइरहेको with the lines of its own questions.
        let case = Words::of_lines(LINES.as_bytes(), seed).case(8);
        assert_eq!(acceptance::check_sheet(&case.sheet).err(), None, "seed {seed}");
        let compared = Compared::of(&case);
        assert_eq!(compared.differences(), [0; 0], "seed {seed}");
        let links = links(&case);
        assert!(links.iter().all(|(link, infinitive)| link.ends_with('इ') && infinitive.ends_with("नु")));
        let found = &compared.oracle[NAMES.iter().position(|&name| name == "progressive").expect("a question")];
        let lemma = found.split(' ').nth(2);
        match links.iter().find(|(link, _)| link == "खाइ") {
            None => {
                assert_eq!(lemma, Some("खानु"), "seed {seed}");
                without += 1;
            }
            Some((_, infinitive)) if names(&case).contains(infinitive) => {
                assert_eq!(lemma, Some(infinitive.as_str()), "seed {seed}");
                another += u32::from(infinitive != "खानु");
            }
            Some(_) => {
                assert_eq!(found, "progressive none", "seed {seed}");
                none += 1;
            }
        }
    }
    assert!(
        without > 20 && another > 5 && none > 2,
        "{without} without a link, {another} by one, {none} shut out by one"
    );
}

#[test]
fn each_word_twice() {
    let words = words();
    assert_eq!(words.count(), 2 * LINES.lines().count() as u64);
    for index in 0..words.count() {
        let case = words.case(index);
        assert_eq!(case.word, LINES.lines().nth(index as usize / 2).expect("a line").as_bytes());
        assert_eq!(acceptance::check_sheet(&case.sheet).err(), None);
        if index % 2 == 1 {
            assert!((65_500..=65_536).contains(&case.sheet.len()), "{} bytes", case.sheet.len());
        }
        assert_eq!(Compared::of(&case).differences(), [0; 0], "case {index}");
    }
}

#[test]
fn a_word_is_answered_by_the_others() {
    let words = words();
    // घरको is a run of no other word, and घर with one of the texts.
    assert_eq!(names(&words.case(4)), ["घर", "घरको", "रहनु"]);
    // खाइरहेको asks for its infinitive and for that of its ending, and else for what link lines name.
    let own = ["खानु", "रहनु"];
    let (asked, links) = (names(&words.case(8)), links(&words.case(8)));
    assert!(own.iter().all(|own| asked.iter().any(|name| name == own)), "{asked:?}");
    let named = |name: &String| own.contains(&name.as_str()) || links.iter().any(|(_, infinitive)| infinitive == name);
    assert!(asked.iter().all(named), "{asked:?} with {links:?}");
    // On a full sheet the word is known itself.
    assert!(names(&words.case(9)).contains(&"खाइरहेको".to_string()));
}
