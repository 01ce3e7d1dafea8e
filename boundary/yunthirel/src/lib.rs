//! Word analysis for Nepali root indexes: readings, root candidates, decomposition, progressive form and origin, each for a word
//! and a *sheet* of the lexicon's answers; and the words of a running text.
//!
//! The answers are made by the proved library (`rt lib` in crates/exports); this crate lends it the slices and reads its codes. Words
//! and sheets are bytes, since any bytes have an answer: a word or sheet that breaks a rule is refused with a [`Refusal`].
//!
//! ```
//! let word = "घरले".as_bytes();
//! let sheet = "(w घर (wh))\n".as_bytes();
//!
//! let readings = yunthirel::analyze_affixes(word, sheet)?;
//! assert_eq!(readings.len(), 1);
//! assert_eq!(readings[0].root, "घर");
//! assert_eq!(readings[0].suffix_segments[0].text, "ले");
//! assert_eq!(readings[0].score, 279);
//! assert_eq!(readings[0].origin, yunthirel::Origin::Deshaj);
//!
//! let refusal = yunthirel::analyze_affixes(word, b"(w \n").unwrap_err();
//! assert_eq!((refusal.number(), refusal.start()), (5, Some(0)));
//! # Ok::<(), yunthirel::Refusal>(())
//! ```
//!
//! Functions and fields have the names of the Rust source that the library is a port of, except that its `AffixAnalysis` is
//! [`Reading`] here. Left out are the fields `surface`, `suffixes` and `prefix_segments` of analyses, the kind `Prefix`, and the
//! functions `is_documented`, `supported_origin` and `source_language`; [`check_word`], [`check_sheet`], [`check_references`], [`write_references`], [`rescue_sheet`], [`put_line`], [`put_line_into`], [`withdraw_line`], [`withdraw_line_from`] and [`write_readings`] are
//! not the source's, nor are [`Reading::surface`], the mark `shared` of a segment, origin, source and confidence of a reading, and [`visits`]. Texts are parts of what was lent: stems and roots of the word, a lemma of the sheet.
//!
//! A code or row of the library that cannot be read as an answer makes this crate panic: then the archive and this crate do not
//! belong together. Numbers, places, ranges and unused bytes are checked, as each `of_code` and `of_row` says; whether an answer is
//! the right one is not.
//!
//! [`raw`] has the library's functions as they are, for callers with buffers of their own. It is the one module with unsafe code:
//! the crate denies it, each other module forbids it, and this file holds no code.
#![deny(unsafe_code)]
#![warn(missing_docs)]

mod check;
mod edits;
pub mod labels;
mod origin;
mod progressive;
pub mod raw;
mod readings;
mod references;
mod refusal;
mod rescue;
mod roots;
mod tokens;
mod visits;

pub use check::{check_sheet, check_word};
pub use edits::{put_line, put_line_into, withdraw_line, withdraw_line_from};
pub use origin::{Origin, OriginDecision, OriginSource, classify, classify_with_provenance};
pub use progressive::{ProgressiveAnalysis, analyze_progressive, has_supported_progressive_form};
pub use readings::{
    AffixKind, AffixSegment, Reading, analyze_affixes, best_analysis, has_supported_analysis, write_readings,
};
pub use references::{Reference, check_references, write_references};
pub use refusal::Refusal;
pub use rescue::{Cut, Rescue, Why, rescue_sheet};
pub use roots::{Morpheme, RootCandidate, best_root, decompose, has_known_root, lookup_root_candidates};
pub use tokens::{Token, tokenize};
pub use visits::{Counted, MOST_VISITS, analyze_affixes_with_visits, visits};
