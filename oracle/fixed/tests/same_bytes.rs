//! The files of this folder are what the command makes, byte for byte, and keep their limits.

use std::path::Path;

#[test]
fn made_again_the_files_are_the_same() {
    let folder = Path::new(env!("CARGO_MANIFEST_DIR"));
    for (name, bytes) in fixed::files().expect("bytes are written") {
        let kept = std::fs::read(folder.join(name)).unwrap_or_else(|error| panic!("{name}: {error}"));
        assert!(kept == bytes, "{name} is not what the command makes");
    }
}

#[test]
fn every_number_of_a_refusal_is_there() {
    let answers: Vec<String> =
        fixed::list().iter().map(|case| answers::acceptance_line(&case.word, &case.sheet)).collect();
    for number in 0..=6 {
        let head = number.to_string();
        assert!(answers.iter().any(|answer| answer.split(' ').next() == Some(&head)), "no answer {number}");
    }
}

#[test]
fn sizes_keep_their_limits() {
    let sheets: Vec<usize> = fixed::list().iter().map(|case| case.sheet.len()).collect();
    assert!(sheets.iter().filter(|&&size| size > 8_192).count() <= 3);
    let files = fixed::files().expect("bytes are written");
    assert!(files[0].1.len() + files[1].1.len() <= 420_000);
    assert!(files[2].1.len() + files[3].1.len() < 60_000);
}

/// The programs of the gate replay these lists: what they are fed and held to is what the oracle says.
#[test]
fn the_programs_replay_these_lists() {
    let crates = Path::new(env!("CARGO_MANIFEST_DIR")).join("../../crates");
    let read = |name: &str| std::fs::read(crates.join(name)).unwrap_or_else(|error| panic!("{name}: {error}"));
    let (cases, printed) = (read("worked/stdin"), read("worked/stdout"));
    let list = fixed::list();
    let mut rest = blocks::read_cases(&cases[..]).expect("cases in blocks");
    assert!(rest.len() >= list.len(), "fewer cases than the list has");
    let mut expected = Vec::new();
    for case in rest.drain(..) {
        expected.extend(answers::listing(&case.word, &case.sheet));
    }
    assert!(printed == expected, "crates/worked/stdout is not what the oracle says for crates/worked/stdin");
    assert!(
        cases.starts_with(&fixed::files().expect("bytes are written")[0].1),
        "crates/worked/stdin does not begin with the list"
    );
}
