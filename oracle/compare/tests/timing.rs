//! What the benchmark refuses to time, and what it has no time for.

use compare::timing::{READINGS, Times, times};
use std::process::Command;

/// The status and what is said on standard error.
fn bench(arguments: &[&str]) -> (Option<i32>, String) {
    let output = Command::new(env!("CARGO_BIN_EXE_bench")).args(arguments).output().expect("bench runs");
    (output.status.code(), String::from_utf8_lossy(&output.stderr).into_owned())
}

#[test]
fn none_of_the_words_and_no_round() {
    assert_eq!(bench(&["--sample", "0"]), (Some(2), "bench: --sample wants 1 or more\n".to_string()));
    assert_eq!(bench(&["--rounds", "0"]), (Some(2), "bench: --rounds wants 1 or more\n".to_string()));
}

#[test]
fn an_empty_sheet_has_no_line_to_be_refused() {
    let (empty, full) = (times(&READINGS, "घरले", b"", 1), times(&READINGS, "घरले", "(w घर (wh))\n".as_bytes(), 1));
    assert_eq!((empty.refused, empty.asking()), (None, None));
    assert!(full.refused.is_some_and(|refused| refused < 1e6));
    let mut sum = Times::ZERO;
    sum.add(full);
    assert_eq!(sum.refused, full.refused);
    sum.add(empty);
    assert_eq!(sum.refused, None);
    assert_eq!(sum.call, full.call + empty.call);
}
