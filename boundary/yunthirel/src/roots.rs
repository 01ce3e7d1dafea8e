//! A word's decomposition and its root candidates.
#![forbid(unsafe_code)]

use crate::labels::{PREFIX_LABELS, SUFFIXES};
use crate::origin::Origin;
use crate::raw::{self, CANDIDATE_ROW, CANDIDATES_ROOM};
use crate::refusal::{INPUTS, Refusal, no_answer, refused};

/// A decomposition: the word without one prefix and every suffix that leaves a known word.
#[derive(Debug, Clone, PartialEq, Eq, Hash)]
pub struct Morpheme<'w> {
    /// What is left of the word; the word where nothing was taken off.
    pub root: &'w str,
    /// The label of at most one prefix.
    pub prefixes: Vec<&'static str>,
    /// The labels of at most 24 suffixes, in the order in which they were taken off.
    pub suffixes: Vec<&'static str>,
    /// The whole word's origin.
    pub origin: Origin,
}

/// A root that the word can be filed under.
#[derive(Debug, Clone, PartialEq, Eq, Hash)]
pub struct RootCandidate<'w> {
    /// The root, a part of the word.
    pub root: &'w str,
    /// The label of at most one prefix.
    pub prefixes: Vec<&'static str>,
    /// The labels of at most 24 suffixes, in the order in which they were taken off.
    pub suffixes: Vec<&'static str>,
    /// The root's origin.
    pub origin: Origin,
    /// Whether the root's line has w.
    pub known_word: bool,
    /// Whether the root's line has h.
    pub known_headword: bool,
    /// What the candidates are ranked by first.
    pub score: u16,
}

impl<'w> Morpheme<'w> {
    /// The decomposition that the bytes of [`raw::decompose`] are for this word; none for bytes that cannot be read as one.
    ///
    /// Checked is that the root is a part of the word and UTF-8, that counts, rows and origin are in their ranges, and that places
    /// which are not used are 0, those of letters and score among them; not that the library gives this row.
    pub fn of_row(word: &'w [u8], row: &[u8; CANDIDATE_ROW]) -> Option<Morpheme<'w>> {
        let Parts { root, prefixes, suffixes, origin } = Parts::of_row(word, row)?;
        (row[6..9] == [0; 3]).then_some(Morpheme { root, prefixes, suffixes, origin })
    }
}

impl<'w> RootCandidate<'w> {
    /// The candidate that a row of [`raw::candidates`] is for this word; none for bytes that cannot be read as one.
    ///
    /// Checked is that the root is a part of the word and UTF-8, that counts, rows, origin and letters are in their ranges, and that
    /// places which are not used are 0; not that the library gives this row, nor its score.
    pub fn of_row(word: &'w [u8], row: &[u8; CANDIDATE_ROW]) -> Option<RootCandidate<'w>> {
        let Parts { root, prefixes, suffixes, origin } = Parts::of_row(word, row)?;
        // A candidate is known by w, by h or by both.
        (1..=3).contains(&row[6]).then_some(RootCandidate {
            root,
            prefixes,
            suffixes,
            origin,
            known_word: row[6] & 1 != 0,
            known_headword: row[6] & 2 != 0,
            score: u16::from_le_bytes([row[7], row[8]]),
        })
    }
}

/// What both rows hold.
struct Parts<'w> {
    root: &'w str,
    prefixes: Vec<&'static str>,
    suffixes: Vec<&'static str>,
    origin: Origin,
}

impl<'w> Parts<'w> {
    fn of_row(word: &'w [u8], row: &[u8; CANDIDATE_ROW]) -> Option<Parts<'w>> {
        let root = std::str::from_utf8(word.get(usize::from(row[0])..usize::from(row[1]))?).ok()?;
        let (prefixes, unused) = row[2..3].split_at_checked(usize::from(row[3]))?;
        let (suffixes, rest) = row[9..].split_at_checked(usize::from(row[4]))?;
        if unused.iter().chain(rest).any(|&byte| byte != 0) {
            return None;
        }
        Some(Parts {
            root,
            prefixes: prefixes
                .iter()
                .map(|&row| PREFIX_LABELS.get(usize::from(row)).copied())
                .collect::<Option<_>>()?,
            suffixes: suffixes.iter().map(|&row| SUFFIXES.get(usize::from(row)).copied()).collect::<Option<_>>()?,
            origin: Origin::of_number(row[5])?,
        })
    }
}

/// The word's decomposition. The empty word's has an empty root.
///
/// # Errors
/// 1 to 6 for the word and the sheet.
///
/// ```
/// let found = yunthirel::decompose("घरकोता".as_bytes(), "(w घर (w))\n(w घरको (w))\n".as_bytes())?;
/// assert_eq!(found.root, "घर");
/// assert_eq!(found.suffixes, ["ता", "को"]);
/// # Ok::<(), yunthirel::Refusal>(())
/// ```
pub fn decompose<'w>(word: &'w [u8], sheet: &[u8]) -> Result<Morpheme<'w>, Refusal> {
    let mut row = [0; CANDIDATE_ROW];
    match raw::decompose(word, sheet, &mut row) {
        0 => Ok(Morpheme::of_row(word, &row)
            .unwrap_or_else(|| no_answer("yunthirel_decompose", &format!("stored {row:?}")))),
        code => Err(refused("yunthirel_decompose", INPUTS, code)),
    }
}

/// The word's root candidates in rank order, at most 16.
///
/// # Errors
/// 1 to 6 for the word and the sheet.
///
/// ```
/// let found = yunthirel::lookup_root_candidates("घरले".as_bytes(), "(w घर (wh))\n(w घरल (w))\n".as_bytes())?;
/// assert_eq!(found.iter().map(|candidate| candidate.root).collect::<Vec<_>>(), ["घर", "घरल"]);
/// # Ok::<(), yunthirel::Refusal>(())
/// ```
pub fn lookup_root_candidates<'w>(word: &'w [u8], sheet: &[u8]) -> Result<Vec<RootCandidate<'w>>, Refusal> {
    let mut rows = [0; CANDIDATES_ROOM];
    let count = stored(word, sheet, &mut rows)?;
    let (rows, _) = rows.as_chunks();
    Ok(rows[..count].iter().map(|row| candidate(word, row)).collect())
}

/// The candidate of highest rank, or none.
///
/// # Errors
/// 1 to 6 for the word and the sheet.
pub fn best_root<'w>(word: &'w [u8], sheet: &[u8]) -> Result<Option<RootCandidate<'w>>, Refusal> {
    let mut rows = [0; CANDIDATES_ROOM];
    let count = stored(word, sheet, &mut rows)?;
    let (rows, _) = rows.as_chunks();
    Ok(rows[..count].first().map(|row| candidate(word, row)))
}

/// Whether the word has a root candidate.
///
/// # Errors
/// 1 to 6 for the word and the sheet; never 7.
pub fn has_known_root(word: &[u8], sheet: &[u8]) -> Result<bool, Refusal> {
    match raw::has_known_root(word, sheet) {
        raw::NO => Ok(false),
        raw::YES => Ok(true),
        code => Err(refused("yunthirel_has_known_root", INPUTS, code)),
    }
}

/// The number of rows that the library stores.
fn stored(word: &[u8], sheet: &[u8], rows: &mut [u8; CANDIDATES_ROOM]) -> Result<usize, Refusal> {
    let code = raw::candidates(word, sheet, rows);
    if raw::number(code) != 0 {
        return Err(refused("yunthirel_candidates", INPUTS, code));
    }
    let count = raw::above(code);
    if count > CANDIDATES_ROOM / CANDIDATE_ROW {
        no_answer("yunthirel_candidates", &format!("gave {count} rows"));
    }
    Ok(count)
}

fn candidate<'w>(word: &'w [u8], row: &[u8; CANDIDATE_ROW]) -> RootCandidate<'w> {
    RootCandidate::of_row(word, row).unwrap_or_else(|| no_answer("yunthirel_candidates", &format!("stored {row:?}")))
}
