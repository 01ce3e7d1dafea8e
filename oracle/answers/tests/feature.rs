//! The feature `iterative-decompose` is off here: every remainder is asked of the lexicon.

#[test]
fn a_remainder_that_is_not_known_is_not_taken() {
    let answer = answers::answer("गाईप्रतिको".as_bytes(), "(w गाई (w))\n".as_bytes());
    let text = String::from_utf8(answer).expect("an answer is text");
    assert!(text.contains("\ndecomposition गाईप्रतिको b 0 0\n"), "{text}");
}
