//! A word's readings: stem, root, prefixes, suffixes, score and the root's origin, in rank order.
#![forbid(unsafe_code)]

use crate::labels::{AFFIXES, PREFIX_LABELS};
use crate::origin::{Origin, OriginSource};
use crate::raw::{self, READING_ROW, READINGS_ROOM};
use crate::refusal::{LISTS, Refusal, no_answer, refused};

/// The kind of a suffix.
#[derive(Debug, Clone, Copy, PartialEq, Eq, Hash)]
pub enum AffixKind {
    /// A particle, as नै.
    Particle,
    /// A case marker, as ले.
    CaseMarker,
    /// A plural marker, as हरू.
    PluralMarker,
    /// By a kind line of the sheet, `post`.
    Postposition,
    /// By a kind line of the sheet, `comp`.
    ComparisonMarker,
}

impl AffixKind {
    /// The kind's name in a listing: `particle`, `case`, `plural`, `post` or `comp`.
    pub fn as_str(self) -> &'static str {
        match self {
            AffixKind::Particle => "particle",
            AffixKind::CaseMarker => "case",
            AffixKind::PluralMarker => "plural",
            AffixKind::Postposition => "post",
            AffixKind::ComparisonMarker => "comp",
        }
    }

    fn of_number(number: u8) -> Option<AffixKind> {
        let kinds = [
            AffixKind::Particle,
            AffixKind::CaseMarker,
            AffixKind::PluralMarker,
            AffixKind::Postposition,
            AffixKind::ComparisonMarker,
        ];
        kinds.get(usize::from(number)).copied()
    }
}

/// A suffix of a reading.
#[derive(Debug, Clone, Copy, PartialEq, Eq, Hash)]
pub struct AffixSegment {
    /// The suffix as the tables have it.
    pub text: &'static str,
    /// Its kind.
    pub kind: AffixKind,
    /// Whether its first letter is also the last one of what stands before it: the word has that letter once.
    pub shared: bool,
}

/// One reading of a word.
#[derive(Debug, Clone, PartialEq)]
pub struct Reading<'w> {
    /// The word without its suffixes.
    pub stem: &'w str,
    /// The stem without its prefixes.
    pub root: &'w str,
    /// The labels of at most two prefixes, outermost first.
    pub prefixes: Vec<&'static str>,
    /// At most four suffixes, nearest the stem first.
    pub suffix_segments: Vec<AffixSegment>,
    /// At most 612.
    pub score: u16,
    /// Where the root comes from, as [`classify_with_provenance`](crate::classify_with_provenance) says it of the root alone.
    pub origin: Origin,
    /// How that is known.
    pub source: OriginSource,
    /// How surely: 0.0, 0.65, 0.90, 0.95 or 1.0.
    pub confidence: f32,
}

impl<'w> Reading<'w> {
    /// The word put back together: the stem, then its suffixes nearest first, a shared letter written once. For every reading that
    /// [`analyze_affixes`] gives this is the word: proved of the library's rows ([`raw::surface`]), tested of this function.
    ///
    /// ```
    /// let sheet = "(w घर (wh))\n(w घरल (w))\n".as_bytes();
    /// for reading in yunthirel::analyze_affixes("घरले".as_bytes(), sheet)? {
    ///     assert_eq!(reading.surface(), "घरले");
    /// }
    /// # Ok::<(), yunthirel::Refusal>(())
    /// ```
    pub fn surface(&self) -> String {
        let mut text = self.stem.to_string();
        for segment in &self.suffix_segments {
            let mut characters = segment.text.chars();
            if segment.shared {
                characters.next();
            }
            text.push_str(characters.as_str());
        }
        text
    }

    /// The reading that a row of [`raw::readings`] is for this word; none for bytes that cannot be read as one.
    ///
    /// Checked is that stem and root are parts of the word and UTF-8, that counts, rows, kinds, marks, origin and source are in their
    /// ranges, that the confidence is one of the source's, and that places which are not used are 0; not that the library gives this
    /// row, nor its score.
    pub fn of_row(word: &'w [u8], row: &[u8; READING_ROW]) -> Option<Reading<'w>> {
        let number = |at: usize| u16::from_le_bytes([row[at], row[at + 1]]);
        let stem = std::str::from_utf8(word.get(..usize::from(number(0)))?).ok()?;
        let root = stem.get(usize::from(number(2))..)?;
        let (prefixes, unused) = row[6..8].split_at_checked(usize::from(row[20]))?;
        let (segments, rest) = row[8..20].split_at_checked(3 * usize::from(row[21]))?;
        if unused.iter().chain(rest).any(|&byte| byte != 0) {
            return None;
        }
        let (origin, source) = (Origin::of_number(row[22])?, OriginSource::of_number(row[23])?);
        let confidence = f32::from_le_bytes([row[24], row[25], row[26], row[27]]);
        if !source.is_so_sure(confidence) {
            return None;
        }
        let label = |&row: &u8| PREFIX_LABELS.get(usize::from(row)).copied();
        let segment = |bytes: &[u8]| {
            let text = AFFIXES.get(usize::from(bytes[0])).copied()?;
            let shared = match bytes[2] {
                0 => false,
                1 => true,
                _ => return None,
            };
            Some(AffixSegment { text, kind: AffixKind::of_number(bytes[1])?, shared })
        };
        Some(Reading {
            stem,
            root,
            prefixes: prefixes.iter().map(label).collect::<Option<_>>()?,
            suffix_segments: segments.chunks_exact(3).map(segment).collect::<Option<_>>()?,
            score: number(4),
            origin,
            source,
            confidence,
        })
    }
}

/// The word's readings in rank order, at most 64.
///
/// # Errors
/// 1 to 6 for the word and the sheet, 7 for more than 64 readings.
///
/// ```
/// use yunthirel::{AffixKind, analyze_affixes};
/// let readings = analyze_affixes("निःशुल्कमा".as_bytes(), "(w शुल्क (h))\n".as_bytes())?;
/// assert_eq!(readings[0].prefixes, ["निर्"]);
/// assert_eq!(readings[1].prefixes, ["निस्"]);
/// assert_eq!((readings[0].stem, readings[0].root), ("निःशुल्क", "शुल्क"));
/// assert_eq!(readings[0].suffix_segments[0].kind, AffixKind::CaseMarker);
/// // घरले as घर and ले, or as घरल and ले with ल written once.
/// let readings = analyze_affixes("घरले".as_bytes(), "(w घर (wh))\n(w घरल (w))\n".as_bytes())?;
/// assert_eq!((readings[0].stem, readings[0].suffix_segments[0].shared), ("घर", false));
/// assert_eq!((readings[1].stem, readings[1].suffix_segments[0].shared), ("घरल", true));
/// // Each root with its origin: घर has a tag, घरको is what को leaves it of.
/// use yunthirel::{Origin, OriginSource};
/// let readings = analyze_affixes("घरको".as_bytes(), "(w घर (ht))\n(w घरको (w))\n".as_bytes())?;
/// let sure = readings.iter().map(|reading| (reading.root, reading.origin, reading.source, reading.confidence));
/// assert!(sure.eq([
///     ("घर", Origin::Tatsam, OriginSource::Kosha, 0.95),
///     ("घरको", Origin::Tatsam, OriginSource::Kosha, 0.90),
/// ]));
/// # Ok::<(), yunthirel::Refusal>(())
/// ```
pub fn analyze_affixes<'w>(word: &'w [u8], sheet: &[u8]) -> Result<Vec<Reading<'w>>, Refusal> {
    let mut rows = [0; READINGS_ROOM];
    let count = stored(word, sheet, &mut rows)?;
    let (rows, _) = rows.as_chunks();
    Ok(rows[..count].iter().map(|row| reading(word, row)).collect())
}

/// The word's reading of highest rank, or none.
///
/// # Errors
/// As [`analyze_affixes`].
pub fn best_analysis<'w>(word: &'w [u8], sheet: &[u8]) -> Result<Option<Reading<'w>>, Refusal> {
    let mut rows = [0; READINGS_ROOM];
    let count = stored(word, sheet, &mut rows)?;
    let (rows, _) = rows.as_chunks();
    Ok(rows[..count].first().map(|row| reading(word, row)))
}

/// Whether the word has a reading.
///
/// # Errors
/// As [`analyze_affixes`].
pub fn has_supported_analysis(word: &[u8], sheet: &[u8]) -> Result<bool, Refusal> {
    match raw::has_analysis(word, sheet) {
        raw::NO => Ok(false),
        raw::YES => Ok(true),
        code => Err(refused("yunthirel_has_analysis", LISTS, code)),
    }
}

/// Writes the readings at the front of `out`, as the program `readings` prints them, and gives the number of bytes. What is past
/// them, and all of `out` after a refusal, is as it was. [`raw::LISTING_ROOM`] bytes are always enough.
///
/// # Errors
/// As [`analyze_affixes`]; 8 where `out` is shorter than the text.
///
/// ```
/// let mut out = [b'.'; 64];
/// let size = yunthirel::write_readings("घरले".as_bytes(), "(w घर (wh))\n".as_bytes(), &mut out)?;
/// assert_eq!(std::str::from_utf8(&out[..size]), Ok("(list 1)\n(r घर घर () ((ले case)) 279 d)\n"));
/// assert!(out[size..].iter().all(|&byte| byte == b'.'));
/// # Ok::<(), yunthirel::Refusal>(())
/// ```
pub fn write_readings(word: &[u8], sheet: &[u8], out: &mut [u8]) -> Result<usize, Refusal> {
    let code = raw::listing(word, sheet, out);
    let size = raw::above(code);
    if raw::number(code) != 0 {
        return Err(refused("yunthirel_listing", 1..=8, code));
    }
    if size > out.len() {
        no_answer("yunthirel_listing", &format!("gave {size} bytes of {}", out.len()));
    }
    Ok(size)
}

/// The number of rows that the library stores.
fn stored(word: &[u8], sheet: &[u8], rows: &mut [u8; READINGS_ROOM]) -> Result<usize, Refusal> {
    let code = raw::readings(word, sheet, rows);
    if raw::number(code) != 0 {
        return Err(refused("yunthirel_readings", LISTS, code));
    }
    let count = raw::above(code);
    if count > READINGS_ROOM / READING_ROW {
        no_answer("yunthirel_readings", &format!("gave {count} rows"));
    }
    Ok(count)
}

fn reading<'w>(word: &'w [u8], row: &[u8; READING_ROW]) -> Reading<'w> {
    Reading::of_row(word, row).unwrap_or_else(|| no_answer("yunthirel_readings", &format!("stored {row:?}")))
}
