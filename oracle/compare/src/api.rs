//! The answers of the crate over the library.

use crate::functions::text_of;
use crate::{Answers, texts};
use blocks::Case;
use std::panic::catch_unwind;
use yunthirel::Refusal;

/// Where the crate panics, since the library gave what is no answer, that is the answer.
pub fn answers(case: &Case) -> Answers {
    catch_unwind(|| asked(&case.word, &case.sheet)).unwrap_or_else(|_| std::array::from_fn(|_| "panicked".to_string()))
}

fn asked(word: &[u8], sheet: &[u8]) -> Answers {
    [
        said(yunthirel::check_word(word), |()| texts::ACCEPTED.to_string()),
        said(yunthirel::check_sheet(sheet), |()| texts::ACCEPTED.to_string()),
        said(yunthirel::analyze_affixes(word, sheet), |list| texts::readings(&list)),
        listing(word, sheet),
        said(yunthirel::best_analysis(word, sheet), |best| texts::best_analysis(best.as_ref())),
        said(yunthirel::has_supported_analysis(word, sheet), |yes| texts::yes_or_no("has_analysis", yes)),
        said(yunthirel::lookup_root_candidates(word, sheet), |list| texts::candidates(&list)),
        said(yunthirel::best_root(word, sheet), |best| texts::best_root(best.as_ref())),
        said(yunthirel::has_known_root(word, sheet), |yes| texts::yes_or_no("has_known_root", yes)),
        said(yunthirel::decompose(word, sheet), |found| texts::decomposition(&found)),
        said(yunthirel::analyze_progressive(word, sheet), texts::progressive),
        said(yunthirel::has_supported_progressive_form(word, sheet), |yes| texts::yes_or_no("has_progressive", yes)),
        said(yunthirel::classify_with_provenance(word, sheet), texts::origin),
        said(yunthirel::classify(word, sheet), texts::classify),
        visits(word, sheet),
    ]
}

fn said<T>(answer: Result<T, Refusal>, text: impl FnOnce(T) -> String) -> String {
    answer.map_or_else(texts::refused, text)
}

fn listing(word: &[u8], sheet: &[u8]) -> String {
    let mut out = vec![0; yunthirel::raw::LISTING_ROOM];
    said(yunthirel::write_readings(word, sheet, &mut out), |size| text_of(&out[..size]))
}

/// The number by itself, which the number beside the list must be.
fn visits(word: &[u8], sheet: &[u8]) -> String {
    let alone = yunthirel::visits(word, sheet);
    match (yunthirel::analyze_affixes_with_visits(word, sheet), alone) {
        (Ok(counted), Ok(number))
            if counted.visits == number && counted.readings == yunthirel::analyze_affixes(word, sheet) =>
        {
            texts::visits(number)
        }
        (Err(refusal), Err(other)) if refusal == other => texts::refused(refusal),
        (counted, alone) => format!("no answer: {counted:?} beside {alone:?}"),
    }
}
