//! Words out of running text.
#![forbid(unsafe_code)]

use crate::raw;
use crate::refusal::{Refusal, no_answer};

/// A token: a longest run of characters that neither Unicode's White_Space nor the source's punctuation list holds, with one at least
/// in U+0900 to U+097F.
#[derive(Debug, Clone, Copy, PartialEq, Eq, Hash)]
pub struct Token<'t> {
    /// The part of the text.
    pub text: &'t str,
    /// Its first byte in the text.
    pub start: usize,
    /// The byte behind its last.
    pub end: usize,
}

/// The tokens of a text, in its order; no two overlap, and an empty list means that there is none. Refused with 9 for a text of more
/// than 65,536 bytes, else with 2 for one that is not UTF-8.
///
/// ```
/// use yunthirel::{Refusal, tokenize};
/// let tokens = tokenize("राम, घर (home) ॥".as_bytes())?;
/// assert_eq!(tokens.iter().map(|token| token.text).collect::<Vec<_>>(), ["राम", "घर", "॥"]);
/// assert_eq!((tokens[1].start, tokens[1].end), (11, 17));
/// assert_eq!(tokenize(b"\xFF"), Err(Refusal::TextNotUtf8));
/// # Ok::<(), Refusal>(())
/// ```
pub fn tokenize(text: &[u8]) -> Result<Vec<Token<'_>>, Refusal> {
    // A token has three bytes or more, and a byte stands between two: this is always enough.
    let mut list = vec![0; (2 * text.len().div_ceil(4)).min(raw::TOKENS_ROOM)];
    let code = raw::tokens(text, &mut list);
    let found = match raw::number(code) {
        0 => tokens(text, &list, raw::above(code)).map(Ok),
        // The list is long enough.
        10 => None,
        _ => Refusal::of_tokens_code(code).map(Err),
    };
    found.unwrap_or_else(|| no_answer("yunthirel_tokens", &format!("gave {code:#x}")))
}

/// The tokens of the list's first numbers, each a part of the text that begins where the one before it ends or later.
fn tokens<'t>(text: &'t [u8], list: &[u32], count: usize) -> Option<Vec<Token<'t>>> {
    let text = std::str::from_utf8(text).ok()?;
    let mut from = 0;
    let (pairs, _) = list.get(..count.checked_mul(2)?)?.as_chunks::<2>();
    let token = |&[start, end]: &[u32; 2]| {
        let (start, end) = (start as usize, end as usize);
        let part = text.get(start..end).filter(|part| from <= start && !part.is_empty())?;
        from = end;
        Some(Token { text: part, start, end })
    };
    pairs.iter().map(token).collect()
}

#[cfg(test)]
mod tests {
    use super::*;

    #[test]
    fn lists_that_are_no_tokens() {
        let text = "क ख".as_bytes();
        assert_eq!(tokens(text, &[0, 3, 4, 7], 2).map(|tokens| tokens.len()), Some(2));
        for (list, count) in [
            (&[0, 3][..], 2),
            (&[0, 0], 1),
            (&[3, 0], 1),
            (&[0, 8], 1),
            (&[0, 2], 1),
            (&[4, 7, 0, 3], 2),
            (&[0, 3, 0, 3], 2),
            (&[0, 3], usize::MAX),
        ] {
            assert_eq!(tokens(text, list, count), None, "{list:?}");
        }
    }
}
