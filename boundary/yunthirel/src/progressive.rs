//! Progressive forms: खाइरहेको and the like.
#![forbid(unsafe_code)]

use crate::raw;
use crate::refusal::{INPUTS, Refusal, no_answer, refused};

/// A progressive form's parts.
#[derive(Debug, Clone, Copy, PartialEq, Eq, Hash)]
pub struct ProgressiveAnalysis<'w, 's> {
    /// The linked form, with its न where it is negative.
    pub main_form: &'w str,
    /// The main form's infinitive, as its line in the sheet names it.
    pub main_lemma: &'s str,
    /// The rest of the word: रहेको, रहेकी or रहेका.
    pub auxiliary_form: &'w str,
    /// The auxiliary's infinitive, always रहनु.
    pub auxiliary_lemma: &'static str,
    /// Whether a leading न was taken off to find the lemma.
    pub negative: bool,
}

impl<'w, 's> ProgressiveAnalysis<'w, 's> {
    /// The form that a code of [`raw::progressive`] says for this word and sheet; none for codes that cannot be read as one.
    ///
    /// Checked is that it says a form, that the main form and the rest are parts of the word and UTF-8, and that the lemma is a part
    /// of the sheet, UTF-8 and not empty; not that the library gives this code.
    pub fn of_code(word: &'w [u8], sheet: &'s [u8], code: u64) -> Option<ProgressiveAnalysis<'w, 's>> {
        let value = raw::above(code);
        if raw::number(code) != 0 || value & 1 != 1 {
            return None;
        }
        let (main_end, lemma_len, lemma_at) = (value >> 2 & 0xFF, value >> 10 & 0xFF, value >> 18);
        Some(ProgressiveAnalysis {
            main_form: word.get(..main_end).and_then(text)?,
            main_lemma: sheet.get(lemma_at..)?.get(..lemma_len).and_then(text).filter(|lemma| !lemma.is_empty())?,
            auxiliary_form: word.get(main_end..).and_then(text)?,
            auxiliary_lemma: "रहनु",
            negative: value >> 1 & 1 != 0,
        })
    }
}

fn text(bytes: &[u8]) -> Option<&str> {
    std::str::from_utf8(bytes).ok()
}

/// The parts of the word as a progressive form, or none.
///
/// # Errors
/// 1 to 6 for the word and the sheet.
///
/// ```
/// let found = yunthirel::analyze_progressive("नखाइरहेको".as_bytes(), "(w खानु (hv))\n(w रहनु (hv))\n".as_bytes())?;
/// let found = found.expect("a progressive form");
/// assert_eq!((found.main_form, found.main_lemma, found.auxiliary_form), ("नखाइ", "खानु", "रहेको"));
/// assert!(found.negative);
/// # Ok::<(), yunthirel::Refusal>(())
/// ```
pub fn analyze_progressive<'w, 's>(
    word: &'w [u8],
    sheet: &'s [u8],
) -> Result<Option<ProgressiveAnalysis<'w, 's>>, Refusal> {
    let code = raw::progressive(word, sheet);
    match raw::number(code) {
        0 if code == raw::NO => Ok(None),
        0 => match ProgressiveAnalysis::of_code(word, sheet, code) {
            Some(found) => Ok(Some(found)),
            None => no_answer("yunthirel_progressive", &format!("gave {code:#x}")),
        },
        _ => Err(refused("yunthirel_progressive", INPUTS, code)),
    }
}

/// Whether the word is a supported progressive form.
///
/// # Errors
/// 1 to 6 for the word and the sheet.
pub fn has_supported_progressive_form(word: &[u8], sheet: &[u8]) -> Result<bool, Refusal> {
    match raw::has_progressive(word, sheet) {
        raw::NO => Ok(false),
        raw::YES => Ok(true),
        code => Err(refused("yunthirel_has_progressive", INPUTS, code)),
    }
}
