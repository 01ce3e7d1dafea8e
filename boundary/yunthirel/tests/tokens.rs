//! The words of a text, each number that can be refused with, and what is left of a lent list.

use yunthirel::{Refusal, Token, raw, tokenize};

fn words(text: &str) -> Vec<(&str, usize, usize)> {
    tokenize(text.as_bytes()).expect("accepted").iter().map(|token| (token.text, token.start, token.end)).collect()
}

#[test]
fn words_of_texts() {
    assert_eq!(words(""), []);
    assert_eq!(words("one, two। ।"), []);
    assert_eq!(words("राम, घर (home) ॥"), [("राम", 0, 9), ("घर", 11, 17), ("॥", 25, 28)]);
    assert_eq!(words("क\u{200D}ख\u{200B}ग"), [("क\u{200D}ख\u{200B}ग", 0, 15)]);
    assert_eq!(words("abc२०८१\u{3000}–x"), [("abc२०८१", 0, 15)]);
    let text = "राम।".as_bytes();
    // The texts are parts of the text that was lent.
    let tokens = tokenize(text).expect("accepted");
    assert_eq!(tokens, [Token { text: "राम", start: 0, end: 9 }]);
    assert_eq!(tokens[0].text.as_ptr(), text.as_ptr());
}

#[test]
fn nine_comes_first() {
    let long = [0xFF; 65_537];
    assert_eq!(tokenize(&long), Err(Refusal::TextTooLong));
    assert_eq!(tokenize(&long[..65_536]), Err(Refusal::TextNotUtf8));
    assert_eq!(raw::tokens(&long, &mut []), 9);
    assert_eq!(
        (Refusal::TextTooLong.number(), Refusal::TextNotUtf8.number(), Refusal::ListTooShort.number()),
        (9, 2, 10)
    );
}

#[test]
fn an_end_at_65536() {
    let text = format!("a{}", "क".repeat(21_845));
    assert_eq!(words(&text), [(&text[..], 0, 65_536)]);
    let most = "क,".repeat(16_384);
    assert_eq!(words(&most).len(), 16_384);
}

#[test]
fn what_is_left_of_a_list() {
    let text = "राम, घर".as_bytes();
    for length in 0..7 {
        let mut list = vec![77; length];
        let code = raw::tokens(text, &mut list);
        if length < 4 {
            assert_eq!((code, list), (10, vec![77; length]));
        } else {
            assert_eq!((raw::number(code), raw::above(code)), (0, 2));
            assert_eq!((&list[..4], &list[4..]), (&[0, 9, 11, 17][..], &vec![77; length - 4][..]));
        }
    }
    let mut list = [77; 8];
    assert_eq!(raw::tokens("राम \u{FF}".as_bytes().split_last().expect("bytes").1, &mut list), 2);
    assert_eq!(list, [77; 8]);
}
