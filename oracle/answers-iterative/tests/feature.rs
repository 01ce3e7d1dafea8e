//! The feature is on here: case markers are stripped without being asked of the lexicon.

#[test]
fn stacked_case_markers_are_stripped() {
    let answer = answers_iterative::answer("गाईप्रतिको".as_bytes(), "(w गाई (w))\n".as_bytes());
    let text = String::from_utf8(answer).expect("an answer is text");
    assert!(text.contains("\ndecomposition गाई b 0 2 प्रति को\n"), "{text}");
}
