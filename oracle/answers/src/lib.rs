//! The source's answers for a word and a sheet, in the text form that oracle/README.md describes.

mod lines;
mod marks;

pub use lines::{Each, best_candidate, best_reading};

use acceptance::{Form, Refusal};
use varnavinyas_kosha::{KindLine, Sheet, put_in_force};

/// Every answer for the word and the sheet, or the refusal.
pub fn answer(word: &[u8], sheet: &[u8]) -> Vec<u8> {
    let text = match acceptance::check(word, sheet) {
        Ok((word, forms)) => with_sheet(&forms, || lines::all(word)),
        Err(refusal) => lines::refused(refusal),
    };
    text.into_bytes()
}

/// Each answer by itself for an accepted word and sheet.
pub fn each(word: &str, forms: &[Form]) -> Each {
    with_sheet(forms, || lines::each(word))
}

/// The listing alone, or the refusal: what the program `readings` prints for them.
pub fn listing(word: &[u8], sheet: &[u8]) -> Vec<u8> {
    let text = match acceptance::check(word, sheet) {
        Ok((word, forms)) => with_sheet(&forms, || lines::listing(word)),
        Err(refusal) => lines::refused(refusal),
    };
    text.into_bytes()
}

/// What the program `readings` prints for the bytes of its standard input.
pub fn readings_program(input: &[u8]) -> Vec<u8> {
    if input.len() > acceptance::SHEET_LIMIT {
        return lines::refused(Refusal::plain(4)).into_bytes();
    }
    match input.iter().position(|&byte| byte == 0x0A) {
        Some(end) => listing(&input[..end], &input[end + 1..]),
        None => listing(input, b""),
    }
}

/// `0` for an accepted word and sheet, else `N` or `N START`.
pub fn acceptance_line(word: &[u8], sheet: &[u8]) -> String {
    match acceptance::check(word, sheet) {
        Ok(_) => "0".to_string(),
        Err(refusal) => refusal.to_string(),
    }
}

/// Runs `question` with the sheet's lines as the source's lexicon.
pub fn with_sheet<R>(forms: &[Form], question: impl FnOnce() -> R) -> R {
    // The maps of the sheet before are filled anew, so that their room is used again.
    let mut sheet = put_in_force(Sheet::default());
    sheet.clear();
    for form in forms {
        match *form {
            Form::Kind { suffix, post: true } => sheet.add_kind(suffix, KindLine::Post),
            Form::Kind { suffix, post: false } => sheet.add_kind(suffix, KindLine::Comp),
            Form::Link { link, infinitive } => sheet.add_link(link, infinitive),
            Form::Word { name, letters } => sheet.add_word(name, letters),
        }
    }
    put_in_force(sheet);
    question()
}
