//! The oracle's answers.

use crate::{Answers, texts};
use acceptance::Refusal;
use answers::Each;
use blocks::Case;

/// The oracle is asked for each case once. Word and sheet are checked apart, since each is a question by itself.
pub fn answers(case: &Case) -> Answers {
    let word = acceptance::check_word(&case.word);
    let forms = acceptance::check_sheet(&case.sheet);
    let check_word = said(word.as_ref().err());
    let check_sheet = said(forms.as_ref().err());
    match (word, forms) {
        (Ok(word), Ok(forms)) => {
            let Each {
                readings,
                listing,
                best_analysis,
                has_analysis,
                candidates,
                best_root,
                has_known_root,
                decomposition,
                progressive,
                has_progressive,
                origin,
                classify,
            } = answers::each(word, &forms);
            [
                check_word,
                check_sheet,
                readings,
                listing,
                best_analysis,
                has_analysis,
                candidates,
                best_root,
                has_known_root,
                decomposition,
                progressive,
                has_progressive,
                origin,
                classify,
                // By a copy of the source that counts, also where the list is refused with 7.
                texts::visits(answers::with_sheet(&forms, || shabda_visits::visits(word))),
            ]
        }
        // The word's numbers are the lower ones.
        (Err(refusal), _) | (_, Err(refusal)) => texts::all(check_word, check_sheet, said(Some(&refusal))),
    }
}

fn said(refusal: Option<&Refusal>) -> String {
    match refusal {
        None => texts::ACCEPTED.to_string(),
        Some(refusal) => format!("(refused {refusal})"),
    }
}
