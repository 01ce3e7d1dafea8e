//! The library's functions as they are: slices in, a code out. Every input is allowed and has one answer.
//!
//! The lowest byte of a code is 0 for an answer, and else the [`Refusal`](crate::Refusal)'s number, which
//! [`Refusal::of_code`](crate::Refusal::of_code) reads; above it stands the answer's value, or the place that comes with a refusal.
//! After a refusal, 8 and 10 among them, a lent buffer or list is as it was; after an answer it is so past the answer.
//!
//! Only this module has unsafe code.
#![allow(unsafe_code)]

/// The bytes of one reading in [`readings`]: stem's end, root's start and score as two bytes each, the low one first; two prefix
/// rows; four segments, each a row, the number of its kind and its mark (shared 1); how many prefixes, how many segments; the numbers of
/// the root's origin and of the source; the confidence as the four bytes of an `f32`, the low one first.
pub const READING_ROW: usize = 28;

/// The bytes of one candidate in [`candidates`], and of a decomposition in [`decompose`]: root's start and end, prefix row, how
/// many prefixes, how many suffixes, origin, letters (w 1, h 2), score as two bytes, the low one first, and 24 suffix rows. A
/// decomposition has neither letters nor score.
pub const CANDIDATE_ROW: usize = 33;

/// Bytes that are always enough for [`readings`]: 64 rows.
pub const READINGS_ROOM: usize = 64 * READING_ROW;

/// Bytes that are always enough for [`candidates`]: 16 rows.
pub const CANDIDATES_ROOM: usize = 16 * CANDIDATE_ROW;

/// Bytes that are always enough for [`listing`].
pub const LISTING_ROOM: usize = 37_386;

/// Numbers that are always enough for [`tokens`]: two for each of 16,384 tokens.
pub const TOKENS_ROOM: usize = 2 * 16_384;

/// Numbers that are always enough for [`findings`]: one for each line of a sheet.
pub const MOST_LINES: usize = 6_553;

/// Bytes that are always enough for [`references`], beside those of the sheet.
pub const REPORT_HEAD: usize = 13;

/// The most bytes of a sheet.
pub const SHEET_LIMIT: usize = 65_536;

/// Bytes of a report of [`rescue`] that are always enough for each byte of the sheet.
pub const REPORT_BYTES: usize = 19;

/// The number in a code's lowest byte.
pub const fn number(code: u64) -> u8 {
    (code & 0xFF) as u8
}

/// What stands above the number: an answer's value, such as how many rows or bytes there are, or the faulty line's first byte.
pub const fn above(code: u64) -> usize {
    (code >> 8) as usize
}

/// The code of a no, and of an accepted word or sheet.
pub const NO: u64 = 0;

/// The code of a yes.
pub const YES: u64 = 1 << 8;

mod foreign {
    // SAFETY: these are the library's declarations. Each function reads as many bytes at a pointer as the length after it says, and
    // writes nothing but what is lent as `*mut`, within its length; each is defined for all bytes and keeps no pointer.
    unsafe extern "C" {
        pub fn yunthirel_check_word(word: *const u8, word_len: usize) -> u64;
        pub fn yunthirel_check_sheet(sheet: *const u8, sheet_len: usize) -> u64;
        pub fn yunthirel_progressive(word: *const u8, word_len: usize, sheet: *const u8, sheet_len: usize) -> u64;
        pub fn yunthirel_has_progressive(word: *const u8, word_len: usize, sheet: *const u8, sheet_len: usize) -> u64;
        pub fn yunthirel_has_analysis(word: *const u8, word_len: usize, sheet: *const u8, sheet_len: usize) -> u64;
        pub fn yunthirel_has_known_root(word: *const u8, word_len: usize, sheet: *const u8, sheet_len: usize) -> u64;
        pub fn yunthirel_origin(word: *const u8, word_len: usize, sheet: *const u8, sheet_len: usize) -> u64;
        pub fn yunthirel_confidence(word: *const u8, word_len: usize, sheet: *const u8, sheet_len: usize) -> f32;
        pub fn yunthirel_readings(
            word: *const u8,
            word_len: usize,
            sheet: *const u8,
            sheet_len: usize,
            out: *mut u8,
            out_len: usize,
        ) -> u64;
        pub fn yunthirel_listing(
            word: *const u8,
            word_len: usize,
            sheet: *const u8,
            sheet_len: usize,
            out: *mut u8,
            out_len: usize,
        ) -> u64;
        pub fn yunthirel_surface(
            word: *const u8,
            word_len: usize,
            row: *const u8,
            row_len: usize,
            out: *mut u8,
            out_len: usize,
        ) -> u64;
        pub fn yunthirel_candidates(
            word: *const u8,
            word_len: usize,
            sheet: *const u8,
            sheet_len: usize,
            out: *mut u8,
            out_len: usize,
        ) -> u64;
        pub fn yunthirel_decompose(
            word: *const u8,
            word_len: usize,
            sheet: *const u8,
            sheet_len: usize,
            out: *mut u8,
            out_len: usize,
        ) -> u64;
        pub fn yunthirel_visits(word: *const u8, word_len: usize, sheet: *const u8, sheet_len: usize) -> u64;
        pub fn yunthirel_references(sheet: *const u8, sheet_len: usize, out: *mut u8, out_len: usize) -> u64;
        pub fn yunthirel_findings(sheet: *const u8, sheet_len: usize, list: *mut u32, list_len: usize) -> u64;
        pub fn yunthirel_rescue(
            sheet: *const u8,
            sheet_len: usize,
            kept: *mut u8,
            kept_len: usize,
            report: *mut u8,
            report_len: usize,
        ) -> u64;
        pub fn yunthirel_put_line(
            buffer: *mut u8,
            buffer_len: usize,
            used: usize,
            line: *const u8,
            line_len: usize,
        ) -> u64;
        pub fn yunthirel_withdraw_line(
            buffer: *mut u8,
            buffer_len: usize,
            used: usize,
            line: *const u8,
            line_len: usize,
        ) -> u64;
        pub fn yunthirel_tokens(text: *const u8, text_len: usize, list: *mut u32, list_len: usize) -> u64;
    }
}

/// 0 for an accepted word, else 1, 2 or 3.
pub fn check_word(word: &[u8]) -> u64 {
    // SAFETY: pointer and length are those of one slice, lent for the call.
    unsafe { foreign::yunthirel_check_word(word.as_ptr(), word.len()) }
}

/// 0 for an accepted sheet, 4, or 5 or 6 and above it the faulty line's first byte.
pub fn check_sheet(sheet: &[u8]) -> u64 {
    // SAFETY: as above.
    unsafe { foreign::yunthirel_check_sheet(sheet.as_ptr(), sheet.len()) }
}

/// The refusal; 0 for no progressive form; else above the number a bit that is set, negative (1 bit), the main form's end in the word (8
/// bits), the lemma's length (8) and its place in the sheet.
pub fn progressive(word: &[u8], sheet: &[u8]) -> u64 {
    // SAFETY: as above, for two slices.
    unsafe { foreign::yunthirel_progressive(word.as_ptr(), word.len(), sheet.as_ptr(), sheet.len()) }
}

/// The refusal; [`YES`] for a supported progressive form, [`NO`] for none.
pub fn has_progressive(word: &[u8], sheet: &[u8]) -> u64 {
    // SAFETY: as above.
    unsafe { foreign::yunthirel_has_progressive(word.as_ptr(), word.len(), sheet.as_ptr(), sheet.len()) }
}

/// The refusal, 7 for more than 64 readings among them; [`YES`] for a word with readings, [`NO`] for one without.
pub fn has_analysis(word: &[u8], sheet: &[u8]) -> u64 {
    // SAFETY: as above.
    unsafe { foreign::yunthirel_has_analysis(word.as_ptr(), word.len(), sheet.as_ptr(), sheet.len()) }
}

/// The refusal, which is never 7; else above the number how many pieces are visited.
pub fn visits(word: &[u8], sheet: &[u8]) -> u64 {
    // SAFETY: as above.
    unsafe { foreign::yunthirel_visits(word.as_ptr(), word.len(), sheet.as_ptr(), sheet.len()) }
}

/// The refusal; [`YES`] for a word with root candidates, [`NO`] for one without.
pub fn has_known_root(word: &[u8], sheet: &[u8]) -> u64 {
    // SAFETY: as above.
    unsafe { foreign::yunthirel_has_known_root(word.as_ptr(), word.len(), sheet.as_ptr(), sheet.len()) }
}

/// The refusal; else above the number origin (2 bits) and source (2).
pub fn origin(word: &[u8], sheet: &[u8]) -> u64 {
    // SAFETY: as above.
    unsafe { foreign::yunthirel_origin(word.as_ptr(), word.len(), sheet.as_ptr(), sheet.len()) }
}

/// How surely the origin is known; 0.0 for a refused word or sheet.
pub fn confidence(word: &[u8], sheet: &[u8]) -> f32 {
    // SAFETY: as above.
    unsafe { foreign::yunthirel_confidence(word.as_ptr(), word.len(), sheet.as_ptr(), sheet.len()) }
}

/// The refusal, 7 for more than 64 readings and 8 for too short an `out` among them; else the number of readings, each a
/// row of [`READING_ROW`] bytes in `out`.
pub fn readings(word: &[u8], sheet: &[u8], out: &mut [u8]) -> u64 {
    // SAFETY: as above, and the third slice is lent for writing and is no part of the others.
    unsafe {
        foreign::yunthirel_readings(word.as_ptr(), word.len(), sheet.as_ptr(), sheet.len(), out.as_mut_ptr(), out.len())
    }
}

/// Writes the word back from one of its rows, and gives the number of bytes: for each row of [`readings`] the word itself. The refusal, 1
/// to 3 of the word and 8 for too short an `out` among them.
pub fn surface(word: &[u8], row: &[u8], out: &mut [u8]) -> u64 {
    let (word_at, row_at, out_at) = (word.as_ptr(), row.as_ptr(), out.as_mut_ptr());
    // SAFETY: as above.
    unsafe { foreign::yunthirel_surface(word_at, word.len(), row_at, row.len(), out_at, out.len()) }
}

/// The same list as the text that the program `readings` prints, and the number of its bytes.
pub fn listing(word: &[u8], sheet: &[u8], out: &mut [u8]) -> u64 {
    // SAFETY: as above.
    unsafe {
        foreign::yunthirel_listing(word.as_ptr(), word.len(), sheet.as_ptr(), sheet.len(), out.as_mut_ptr(), out.len())
    }
}

/// The refusal, 8 for too short an `out` among them; else the number of root candidates, each a row of
/// [`CANDIDATE_ROW`] bytes in `out`.
pub fn candidates(word: &[u8], sheet: &[u8], out: &mut [u8]) -> u64 {
    let (word_at, sheet_at, out_at) = (word.as_ptr(), sheet.as_ptr(), out.as_mut_ptr());
    // SAFETY: as above.
    unsafe { foreign::yunthirel_candidates(word_at, word.len(), sheet_at, sheet.len(), out_at, out.len()) }
}

/// The refusal, 8 for an `out` of less than [`CANDIDATE_ROW`] bytes among them; else 0, with the decomposition in `out`.
pub fn decompose(word: &[u8], sheet: &[u8], out: &mut [u8]) -> u64 {
    let (word_at, sheet_at, out_at) = (word.as_ptr(), sheet.as_ptr(), out.as_mut_ptr());
    // SAFETY: as above.
    unsafe { foreign::yunthirel_decompose(word_at, word.len(), sheet_at, sheet.len(), out_at, out.len()) }
}

/// The refusal, 9, 2 or 10, which [`Refusal::of_tokens_code`](crate::Refusal::of_tokens_code) reads; else how many tokens the text has,
/// first byte and byte behind the last of each in `list`, one after the other.
pub fn tokens(text: &[u8], list: &mut [u32]) -> u64 {
    // SAFETY: as above; the list's length is in numbers, as the library has it.
    unsafe { foreign::yunthirel_tokens(text.as_ptr(), text.len(), list.as_mut_ptr(), list.len()) }
}

/// The refusal, 4 to 6 of the sheet and 8 for too short an `out`; else the number of bytes of the report in `out`.
pub fn references(sheet: &[u8], out: &mut [u8]) -> u64 {
    // SAFETY: as above.
    unsafe { foreign::yunthirel_references(sheet.as_ptr(), sheet.len(), out.as_mut_ptr(), out.len()) }
}

/// The refusal, 4 to 6 of the sheet and 8 for too short a list; else how many lines of the sheet have a reference that does not hold, a
/// number for each in `list`: what is wrong in the lowest byte (1 missing, 2 notverb, 3 unused), above it the line's first byte.
pub fn findings(sheet: &[u8], list: &mut [u32]) -> u64 {
    // SAFETY: as above; the list's length is in numbers, as the library has it.
    unsafe { foreign::yunthirel_findings(sheet.as_ptr(), sheet.len(), list.as_mut_ptr(), list.len()) }
}

/// The refusal, 4 for a sheet over its limit and 8 for an output that is too short, and then neither is written; else the sizes of what
/// was written, [`kept_size`] and [`report_size`].
pub fn rescue(sheet: &[u8], kept: &mut [u8], report: &mut [u8]) -> u64 {
    let (kept_at, report_at) = (kept.as_mut_ptr(), report.as_mut_ptr());
    // SAFETY: as above, and neither of the two slices that are lent for writing is a part of the other or of the sheet.
    unsafe { foreign::yunthirel_rescue(sheet.as_ptr(), sheet.len(), kept_at, kept.len(), report_at, report.len()) }
}

/// The refusal, 4 to 6 of the used length and the sheet, 11 of the line and 13 for a new length that does not fit; else the new length of
/// the sheet at the front of `buffer`, into which the line was put.
pub fn put_line(buffer: &mut [u8], used: usize, line: &[u8]) -> u64 {
    let (buffer_at, line_at) = (buffer.as_mut_ptr(), line.as_ptr());
    // SAFETY: as above; the used length may be any number.
    unsafe { foreign::yunthirel_put_line(buffer_at, buffer.len(), used, line_at, line.len()) }
}

/// The refusal, 4 to 6 and 11 likewise and 12 where there is no such line; else the new length of the sheet at the front of `buffer`, from
/// which the line was withdrawn.
pub fn withdraw_line(buffer: &mut [u8], used: usize, line: &[u8]) -> u64 {
    let (buffer_at, line_at) = (buffer.as_mut_ptr(), line.as_ptr());
    // SAFETY: as above.
    unsafe { foreign::yunthirel_withdraw_line(buffer_at, buffer.len(), used, line_at, line.len()) }
}

/// How many bytes the kept sheet has, by a code of [`rescue`] whose number is 0.
pub const fn kept_size(code: u64) -> usize {
    (code >> 8 & 0xFF_FFFF) as usize
}

/// How many bytes the report has, by the same code.
pub const fn report_size(code: u64) -> usize {
    (code >> 32) as usize
}
