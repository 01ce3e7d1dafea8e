//! Which words and sheets are accepted.
#![forbid(unsafe_code)]

use crate::raw;
use crate::refusal::{Refusal, refused};

/// Whether the word is accepted; else 1, 2 or 3.
///
/// ```
/// use yunthirel::{Refusal, check_word};
/// assert_eq!(check_word("घर".as_bytes()), Ok(()));
/// assert_eq!(check_word(b"\x80"), Err(Refusal::WordNotUtf8));
/// ```
pub fn check_word(word: &[u8]) -> Result<(), Refusal> {
    match raw::check_word(word) {
        0 => Ok(()),
        code => Err(refused("yunthirel_check_word", 1..=3, code)),
    }
}

/// Whether the sheet is accepted; else 4, 5 or 6. Every function here that takes a sheet makes this check by itself.
///
/// ```
/// use yunthirel::{Refusal, check_sheet};
/// assert_eq!(check_sheet("(w घर (wh))\n".as_bytes()), Ok(()));
/// assert_eq!(check_sheet("(w घर (wh))\n(w क (w))\n".as_bytes()), Err(Refusal::SheetNotAbove { start: 16 }));
/// ```
pub fn check_sheet(sheet: &[u8]) -> Result<(), Refusal> {
    match raw::check_sheet(sheet) {
        0 => Ok(()),
        code => Err(refused("yunthirel_check_sheet", 4..=6, code)),
    }
}
