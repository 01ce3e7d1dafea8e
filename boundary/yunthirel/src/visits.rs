//! How much looking a word costs, with its readings or alone.
#![forbid(unsafe_code)]

use crate::raw;
use crate::readings::{Reading, analyze_affixes};
use crate::refusal::{INPUTS, Refusal, no_answer, refused};

/// The most pieces that any word visits under any sheet.
pub const MOST_VISITS: usize = 5_000;

/// A word's readings, and how many pieces the source's walk visits for them.
#[derive(Debug, Clone, PartialEq)]
pub struct Counted<'w> {
    /// The readings, or 7 where there are more than 64.
    pub readings: Result<Vec<Reading<'w>>, Refusal>,
    /// The pieces visited, also where the readings are refused with 7. Never more than [`MOST_VISITS`].
    pub visits: usize,
}

/// How many pieces the source's walk visits for the word: each entry into the suffix walk and each entry into the prefix walk counts
/// one, repeats included. Words with more than 64 readings have their number too; an empty word has 0.
///
/// # Errors
/// 1 to 6 for the word and the sheet.
///
/// ```
/// assert_eq!(yunthirel::visits("घरले".as_bytes(), "(w घर (wh))\n".as_bytes())?, 28);
/// assert_eq!(yunthirel::visits(b"", b"")?, 0);
/// # Ok::<(), yunthirel::Refusal>(())
/// ```
pub fn visits(word: &[u8], sheet: &[u8]) -> Result<usize, Refusal> {
    let code = raw::visits(word, sheet);
    if raw::number(code) != 0 {
        return Err(refused("yunthirel_visits", INPUTS, code));
    }
    match raw::above(code) {
        visits @ ..=MOST_VISITS => Ok(visits),
        visits => no_answer("yunthirel_visits", &format!("gave {visits}")),
    }
}

/// The word's readings as [`analyze_affixes`] gives them, and the number of pieces visited beside them.
///
/// # Errors
/// 1 to 6 for the word and the sheet. More than 64 readings leave the number standing.
///
/// ```
/// let counted = yunthirel::analyze_affixes_with_visits("घरले".as_bytes(), "(w घर (wh))\n".as_bytes())?;
/// assert_eq!(counted.visits, 28);
/// assert_eq!(counted.readings?[0].root, "घर");
/// # Ok::<(), yunthirel::Refusal>(())
/// ```
pub fn analyze_affixes_with_visits<'w>(word: &'w [u8], sheet: &[u8]) -> Result<Counted<'w>, Refusal> {
    let visits = visits(word, sheet)?;
    Ok(Counted { readings: analyze_affixes(word, sheet), visits })
}
