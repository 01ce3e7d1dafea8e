//! Why a word, a sheet, a text, a buffer or a list was refused.
#![forbid(unsafe_code)]

use crate::raw;
use std::fmt;
use std::ops::RangeInclusive;

/// The causes. Where several apply, the lowest number is given, except that of 5 and 6 the earlier line decides.
#[derive(Debug, Clone, Copy, PartialEq, Eq, Hash)]
#[non_exhaustive]
pub enum Refusal {
    /// 1: the word has more than 192 bytes.
    WordTooLong,
    /// 2: the word is not UTF-8.
    WordNotUtf8,
    /// 3: the word holds a byte 00 to 20, 28, 29 or 7F (hexadecimal).
    WordForbidden,
    /// 4: the sheet has more than 65,536 bytes, or its used length is longer than the buffer that it stands in.
    SheetTooLong,
    /// 5: the sheet's first faulty line is no form.
    SheetNoForm {
        /// The line's first byte in the sheet.
        start: usize,
    },
    /// 6: the sheet's first faulty line is a form, and not above the line before.
    SheetNotAbove {
        /// The line's first byte in the sheet.
        start: usize,
    },
    /// 7: the word has more than 64 readings.
    TooManyReadings,
    /// 8: the output is shorter than the answer.
    OutputTooShort,
    /// 9: the text has more than 65,536 bytes. It is given before all else.
    TextTooLong,
    /// 2: the text is not UTF-8.
    TextNotUtf8,
    /// 10: the list of tokens is too short.
    ListTooShort,
    /// 11: the given line is no single form with its 0A.
    NoSingleForm,
    /// 12: the sheet has no line of the given line's first letter and name.
    NothingToWithdraw,
    /// 13: the sheet's new length passes the buffer or 65,536 bytes.
    NoRoom,
}

/// No faulty line begins further on: a longer sheet is refused with 4.
const SHEET_LIMIT: usize = 65_536;

impl Refusal {
    /// The refusal that a code of [`raw`](crate::raw) says of a word, a sheet or what was lent for an answer, or none where it cannot be read as one: for another number, or for anything
    /// above the number but a place in a sheet for 5 and 6.
    pub fn of_code(code: u64) -> Option<Refusal> {
        let start = raw::above(code);
        match (raw::number(code), start) {
            (1, 0) => Some(Refusal::WordTooLong),
            (2, 0) => Some(Refusal::WordNotUtf8),
            (3, 0) => Some(Refusal::WordForbidden),
            (4, 0) => Some(Refusal::SheetTooLong),
            (5, 0..SHEET_LIMIT) => Some(Refusal::SheetNoForm { start }),
            (6, 0..SHEET_LIMIT) => Some(Refusal::SheetNotAbove { start }),
            (7, 0) => Some(Refusal::TooManyReadings),
            (8, 0) => Some(Refusal::OutputTooShort),
            (9, 0) => Some(Refusal::TextTooLong),
            (10, 0) => Some(Refusal::ListTooShort),
            (11, 0) => Some(Refusal::NoSingleForm),
            (12, 0) => Some(Refusal::NothingToWithdraw),
            (13, 0) => Some(Refusal::NoRoom),
            _ => None,
        }
    }

    /// The same of a code of [`raw::tokens`](crate::raw::tokens), whose 2 is said of the text.
    pub fn of_tokens_code(code: u64) -> Option<Refusal> {
        match Refusal::of_code(code)? {
            Refusal::WordNotUtf8 => Some(Refusal::TextNotUtf8),
            refusal @ (Refusal::TextTooLong | Refusal::ListTooShort) => Some(refusal),
            _ => None,
        }
    }

    /// The number.
    pub fn number(self) -> u8 {
        match self {
            Refusal::WordTooLong => 1,
            Refusal::WordNotUtf8 => 2,
            Refusal::WordForbidden => 3,
            Refusal::SheetTooLong => 4,
            Refusal::SheetNoForm { .. } => 5,
            Refusal::SheetNotAbove { .. } => 6,
            Refusal::TooManyReadings => 7,
            Refusal::OutputTooShort => 8,
            Refusal::TextTooLong => 9,
            Refusal::TextNotUtf8 => 2,
            Refusal::ListTooShort => 10,
            Refusal::NoSingleForm => 11,
            Refusal::NothingToWithdraw => 12,
            Refusal::NoRoom => 13,
        }
    }

    /// The faulty line's first byte in the sheet, which 5 and 6 have.
    pub fn start(self) -> Option<usize> {
        match self {
            Refusal::SheetNoForm { start } | Refusal::SheetNotAbove { start } => Some(start),
            _ => None,
        }
    }
}

impl fmt::Display for Refusal {
    fn fmt(&self, f: &mut fmt::Formatter) -> fmt::Result {
        match self {
            Refusal::WordTooLong => write!(f, "the word has more than 192 bytes"),
            Refusal::WordNotUtf8 => write!(f, "the word is not UTF-8"),
            Refusal::WordForbidden => write!(f, "the word holds a byte that no word may hold"),
            Refusal::SheetTooLong => write!(f, "the sheet has more than 65,536 bytes, or than its buffer"),
            Refusal::SheetNoForm { start } => write!(f, "the sheet's line at byte {start} is no form"),
            Refusal::SheetNotAbove { start } => {
                write!(f, "the sheet's line at byte {start} is not above the line before")
            }
            Refusal::TooManyReadings => write!(f, "the word has more than 64 readings"),
            Refusal::OutputTooShort => write!(f, "the output is shorter than the answer"),
            Refusal::TextTooLong => write!(f, "the text has more than 65,536 bytes"),
            Refusal::TextNotUtf8 => write!(f, "the text is not UTF-8"),
            Refusal::ListTooShort => write!(f, "the list is too short for the tokens"),
            Refusal::NoSingleForm => write!(f, "the given line is no single form"),
            Refusal::NothingToWithdraw => write!(f, "the sheet has no such line"),
            Refusal::NoRoom => write!(f, "there is no room for the line"),
        }?;
        write!(f, " (refused {})", self.number())
    }
}

impl std::error::Error for Refusal {}

/// Numbers that a sheet can be refused with.
pub(crate) const SHEETS: RangeInclusive<u8> = 4..=6;
/// Numbers that a word and a sheet can be refused with.
pub(crate) const INPUTS: RangeInclusive<u8> = 1..=6;
/// The same, and more than 64 readings.
pub(crate) const LISTS: RangeInclusive<u8> = 1..=7;

/// The refusal that `code` says, one of those that the function can give.
pub(crate) fn refused(function: &str, possible: RangeInclusive<u8>, code: u64) -> Refusal {
    let refusal = Refusal::of_code(code).filter(|refusal| possible.contains(&refusal.number()));
    refusal.unwrap_or_else(|| no_answer(function, &format!("gave {code:#x}")))
}

/// For what cannot be read as an answer: the library gives none such, and a wrong answer would be worse.
pub(crate) fn no_answer(function: &str, what: &str) -> ! {
    panic!("{function} {what}, which is none of its answers: the archive and this crate do not belong together")
}

#[cfg(test)]
mod tests {
    use super::*;

    #[test]
    fn codes_that_are_no_refusal() {
        for code in [
            0,
            14,
            16,
            255,
            256,
            1 + 256,
            9 + 256,
            10 + 256,
            11 + 256,
            12 + 256,
            13 + 256,
            4 + 256,
            7 + 256,
            8 + 256,
            5 + 256 * SHEET_LIMIT as u64,
            u64::MAX,
        ] {
            assert_eq!(Refusal::of_code(code), None, "{code}");
        }
    }

    #[test]
    fn numbers_and_places_come_back() {
        for code in [1, 2, 3, 4, 5, 6, 7, 8, 9, 10, 11, 12, 13, 5 + 256 * 12, 6 + 256 * 65_535] {
            let refusal = Refusal::of_code(code).expect("a refusal");
            assert_eq!(u64::from(refusal.number()) + 256 * refusal.start().unwrap_or(0) as u64, code);
        }
    }

    #[test]
    fn codes_of_tokens() {
        assert_eq!(Refusal::of_tokens_code(9), Some(Refusal::TextTooLong));
        assert_eq!(Refusal::of_tokens_code(2), Some(Refusal::TextNotUtf8));
        assert_eq!(Refusal::of_tokens_code(10), Some(Refusal::ListTooShort));
        for code in [0, 1, 3, 4, 5, 6, 7, 8, 11, 12, 13, 256, 2 + 256, 9 + 256, 10 + 256] {
            assert_eq!(Refusal::of_tokens_code(code), None, "{code}");
        }
    }

    #[test]
    #[should_panic(expected = "yunthirel_check_word gave 0x4, which is none of its answers")]
    fn a_number_that_a_function_never_gives() {
        refused("yunthirel_check_word", 1..=3, 4);
    }
}
