//! Where a word comes from, and how that is known.
#![forbid(unsafe_code)]

use crate::raw;
use crate::refusal::{INPUTS, Refusal, no_answer, refused};

/// Where a word comes from.
#[derive(Debug, Clone, Copy, PartialEq, Eq, Hash)]
pub enum Origin {
    /// Taken over from Sanskrit as it is; t in a sheet.
    Tatsam,
    /// Grown out of Sanskrit; b in a sheet.
    Tadbhav,
    /// Native; d in a sheet.
    Deshaj,
    /// From another language; a in a sheet.
    Aagantuk,
}

impl Origin {
    pub(crate) fn of_number(number: u8) -> Option<Origin> {
        [Origin::Tatsam, Origin::Tadbhav, Origin::Deshaj, Origin::Aagantuk].get(usize::from(number)).copied()
    }

    /// The letter that tags the origin in a sheet: t, b, d or a.
    pub fn letter(self) -> char {
        match self {
            Origin::Tatsam => 't',
            Origin::Tadbhav => 'b',
            Origin::Deshaj => 'd',
            Origin::Aagantuk => 'a',
        }
    }
}

/// How an origin is known.
#[derive(Debug, Clone, Copy, PartialEq, Eq, Hash)]
pub enum OriginSource {
    /// The table of origins has the word.
    Override,
    /// The sheet tags the word, or what is left of it under a suffix.
    Kosha,
    /// By marks in the word's letters.
    Heuristic,
    /// It is not known: the origin given is Deshaj.
    Unknown,
}

impl OriginSource {
    pub(crate) fn of_number(number: u8) -> Option<OriginSource> {
        let sources = [OriginSource::Override, OriginSource::Kosha, OriginSource::Heuristic, OriginSource::Unknown];
        sources.get(usize::from(number)).copied()
    }

    /// Whether a decision from this source can be so sure.
    pub(crate) fn is_so_sure(self, confidence: f32) -> bool {
        let sure: &[f32] = match self {
            OriginSource::Override => &[1.0],
            OriginSource::Kosha => &[0.95, 0.90],
            OriginSource::Heuristic => &[0.65],
            OriginSource::Unknown => &[0.0],
        };
        sure.iter().any(|sure| sure.to_bits() == confidence.to_bits())
    }

    /// The source's name: `override`, `kosha`, `heuristic` or `unknown`.
    pub fn as_str(self) -> &'static str {
        match self {
            OriginSource::Override => "override",
            OriginSource::Kosha => "kosha",
            OriginSource::Heuristic => "heuristic",
            OriginSource::Unknown => "unknown",
        }
    }
}

/// An origin with its source and how surely it is known.
#[derive(Debug, Clone, Copy, PartialEq)]
pub struct OriginDecision {
    /// Where the word comes from.
    pub origin: Origin,
    /// How that is known.
    pub source: OriginSource,
    /// How surely: 0.0, 0.65, 0.90, 0.95 or 1.0.
    pub confidence: f32,
}

impl OriginDecision {
    /// The decision that a code of [`raw::origin`] and the number of [`raw::confidence`] say; none for codes that cannot be read as one.
    ///
    /// Checked is that nothing but origin and source stands in the code; the confidence is taken as it is.
    pub fn of_code(code: u64, confidence: f32) -> Option<OriginDecision> {
        if raw::number(code) != 0 || code >> 12 != 0 {
            return None;
        }
        let origin = Origin::of_number((code >> 8 & 3) as u8)?;
        let source = OriginSource::of_number((code >> 10 & 3) as u8)?;
        Some(OriginDecision { origin, source, confidence })
    }
}

/// The word's origin, its source and how surely it is known.
///
/// # Errors
/// 1 to 6 for the word and the sheet.
///
/// ```
/// use yunthirel::{Origin, OriginSource, classify_with_provenance};
/// let found = classify_with_provenance("घरले".as_bytes(), "(w घर (hb))\n".as_bytes())?;
/// assert_eq!((found.origin, found.source, found.confidence), (Origin::Tadbhav, OriginSource::Kosha, 0.90));
/// # Ok::<(), yunthirel::Refusal>(())
/// ```
pub fn classify_with_provenance(word: &[u8], sheet: &[u8]) -> Result<OriginDecision, Refusal> {
    let code = raw::origin(word, sheet);
    decision(code, || raw::confidence(word, sheet))
}

/// The word's origin alone.
///
/// # Errors
/// 1 to 6 for the word and the sheet.
pub fn classify(word: &[u8], sheet: &[u8]) -> Result<Origin, Refusal> {
    decision(raw::origin(word, sheet), || 0.0).map(|decision| decision.origin)
}

/// The confidence is asked for where there is a decision.
fn decision(code: u64, confidence: impl FnOnce() -> f32) -> Result<OriginDecision, Refusal> {
    if raw::number(code) != 0 {
        return Err(refused("yunthirel_origin", INPUTS, code));
    }
    match OriginDecision::of_code(code, confidence()) {
        Some(decision) => Ok(decision),
        None => no_answer("yunthirel_origin", &format!("gave {code:#x}")),
    }
}
