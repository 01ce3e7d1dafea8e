//! Texts put to the source's `tokenize`, to the library's function with its lists, and to the crate over it.

use std::fmt::Write;
use std::sync::LazyLock;
use yunthirel::raw;

/// The function that is asked: the library's, or another in its place where a test plants a wrong one.
pub type Fill = fn(&[u8], &mut [u32]) -> u64;

/// A text's most bytes.
const LIMIT: usize = 65_536;

/// All three sides' answers for a text.
pub struct Compared {
    pub oracle: String,
    pub function: String,
    pub api: String,
}

impl Compared {
    pub fn of(text: &[u8]) -> Compared {
        Compared { oracle: oracle(text), function: function(raw::tokens, text), api: api(text) }
    }

    pub fn differs(&self) -> bool {
        self.function != self.oracle || self.api != self.oracle
    }
}

/// What the program `tokens` prints, for tokens by their places, without the last 0A.
fn listing(tokens: impl ExactSizeIterator<Item = (usize, usize)>) -> String {
    let mut text = format!("(list {})", tokens.len());
    for (start, end) in tokens {
        write!(text, "\n(t {start} {end})").expect("a text takes all");
    }
    text
}

/// The source's answer. It takes UTF-8 of any length, so that 9 and 2 are document 02's.
pub fn oracle(text: &[u8]) -> String {
    if text.len() > LIMIT {
        return "(refused 9)".to_string();
    }
    let Ok(text) = std::str::from_utf8(text) else {
        return "(refused 2)".to_string();
    };
    let tokens = parikshak::tokenize(text);
    assert!(tokens.iter().all(|token| token.text == text[token.start..token.end]));
    listing(tokens.iter().map(|token| (token.start, token.end)))
}

/// The crate's answer. A token's text is the part of the lent text at its places.
pub fn api(text: &[u8]) -> String {
    match yunthirel::tokenize(text) {
        Err(refusal) => format!("(refused {})", refusal.number()),
        Ok(tokens) => {
            match tokens.iter().find(|token| !std::ptr::eq(token.text.as_bytes(), &text[token.start..token.end])) {
                Some(token) => format!("no part of the text: {token:?}"),
                None => listing(tokens.iter().map(|token| (token.start, token.end))),
            }
        }
    }
}

/// What a list holds before the call.
static OLD: LazyLock<Vec<u32>> =
    LazyLock::new(|| (0..raw::TOKENS_ROOM as u32 + 64).map(|at| at.wrapping_mul(0x9E37_79B9) ^ 0xA5A5_5A5A).collect());

/// The function's answer, or what is wrong: past the answer and after a refusal a list must hold what it held; one without a number,
/// one of half the answer and ones that are a number or a token too short are refused with 10 and left, and one that just fits is
/// filled with the same numbers, whatever it held; so is one with a number more than fits, which is left.
pub fn function(ask: Fill, text: &[u8]) -> String {
    // Four tokens more than a text of so many bytes can have.
    let room = (2 * (text.len() + 1).div_ceil(4)).min(raw::TOKENS_ROOM) + 8;
    let before = &OLD[..room];
    let mut list = before.to_vec();
    let code = ask(text, &mut list);
    let (number, count) = (raw::number(code), raw::above(code));
    if number != 0 {
        if list != before {
            return format!("refused with {number} and wrote");
        }
        if ask(text, &mut []) != code {
            return format!("refused with {number}, and otherwise without a list");
        }
        return if count == 0 { format!("(refused {number})") } else { format!("{number} with {count}") };
    }
    let size = 2 * count;
    if size > room - 8 || list[size..] != before[size..] {
        return format!("{count} tokens, and wrote past {size} numbers");
    }
    list.truncate(size);
    for short in [0, size / 2, size.saturating_sub(2), size.saturating_sub(1)].into_iter().filter(|&short| short < size)
    {
        let mut part = before[..short].to_vec();
        let again = ask(text, &mut part);
        if (raw::number(again), raw::above(again)) != (10, 0) || part != before[..short] {
            return format!("{} in {short} numbers of {size}, not 10, or wrote", raw::number(again));
        }
    }
    for more in [0, 1] {
        let mut exact: Vec<u32> = before[..size + more].iter().map(|&number| !number).collect();
        let again = ask(text, &mut exact);
        if again != code || exact[..size] != list || (more == 1 && exact[size] != !before[size]) {
            return format!("{} in {} numbers of {size}, or other numbers", raw::number(again), size + more);
        }
    }
    listing(list.chunks_exact(2).map(|token| (token[0] as usize, token[1] as usize)))
}
