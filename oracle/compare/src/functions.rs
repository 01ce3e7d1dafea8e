//! The answers of the library's functions, with every buffer checked.

use crate::{Answers, buffers, texts};
use blocks::Case;
use shabda::tables::PREFIX_FORMS;
use yunthirel::raw::{self, CANDIDATE_ROW, CANDIDATES_ROOM, LISTING_ROOM, READING_ROW, READINGS_ROOM};
use yunthirel::{Morpheme, OriginDecision, ProgressiveAnalysis, Reading, Refusal, RootCandidate};

type Check = fn(&[u8]) -> u64;
type Ask = fn(&[u8], &[u8]) -> u64;
type Fill = fn(&[u8], &[u8], &mut [u8]) -> u64;

/// The functions that are asked: the library's, or others in their place where a test plants a wrong one.
#[derive(Clone, Copy)]
pub struct Functions {
    pub check_word: Check,
    pub check_sheet: Check,
    pub readings: Fill,
    pub listing: Fill,
    pub surface: Fill,
    pub has_analysis: Ask,
    pub has_known_root: Ask,
    pub candidates: Fill,
    pub decompose: Fill,
    pub progressive: Ask,
    pub has_progressive: Ask,
    pub origin: Ask,
    pub confidence: fn(&[u8], &[u8]) -> f32,
    pub visits: Ask,
}

pub const LIBRARY: Functions = Functions {
    check_word: raw::check_word,
    check_sheet: raw::check_sheet,
    readings: raw::readings,
    listing: raw::listing,
    surface: raw::surface,
    has_analysis: raw::has_analysis,
    has_known_root: raw::has_known_root,
    candidates: raw::candidates,
    decompose: raw::decompose,
    progressive: raw::progressive,
    has_progressive: raw::has_progressive,
    origin: raw::origin,
    confidence: raw::confidence,
    visits: raw::visits,
};

pub fn answers(functions: &Functions, case: &Case) -> Answers {
    let (word, sheet) = (&case.word[..], &case.sheet[..]);
    let [readings, best_analysis] = readings(functions, word, sheet);
    let [candidates, best_root] = candidates(functions, word, sheet);
    let [origin, classify] = origin((functions.origin)(word, sheet), (functions.confidence)(word, sheet));
    [
        check((functions.check_word)(word)),
        check((functions.check_sheet)(sheet)),
        readings,
        listing(functions, word, sheet),
        best_analysis,
        yes_or_no("has_analysis", (functions.has_analysis)(word, sheet)),
        candidates,
        best_root,
        yes_or_no("has_known_root", (functions.has_known_root)(word, sheet)),
        decomposition(functions, word, sheet),
        progressive(word, sheet, (functions.progressive)(word, sheet)),
        yes_or_no("has_progressive", (functions.has_progressive)(word, sheet)),
        origin,
        classify,
        visits((functions.visits)(word, sheet)),
    ]
}

/// The refusal that a code says. Codes that say none are shown, so that they differ.
fn refused(code: u64) -> String {
    Refusal::of_code(code).map_or_else(|| format!("no answer: {code:#x}"), texts::refused)
}

fn check(code: u64) -> String {
    if code == 0 { texts::ACCEPTED.to_string() } else { refused(code) }
}

fn yes_or_no(question: &str, code: u64) -> String {
    match code {
        raw::NO => texts::yes_or_no(question, false),
        raw::YES => texts::yes_or_no(question, true),
        _ => refused(code),
    }
}

fn visits(code: u64) -> String {
    if raw::number(code) == 0 { texts::visits(raw::above(code)) } else { refused(code) }
}

/// The rows of an answer, each read by `of_row`; else the text of a refusal, or of what is wrong.
fn rows<T, const ROW: usize>(
    ask: impl Fn(&mut [u8]) -> u64,
    room: usize,
    of_row: impl Fn(&[u8; ROW]) -> Option<T>,
) -> Result<Vec<T>, String> {
    let (code, bytes) = buffers::filled(ask, room, |code| ROW * raw::above(code))?;
    if raw::number(code) != 0 {
        return Err(refused(code));
    }
    let (rows, _) = bytes.as_chunks::<ROW>();
    rows.iter().map(|row| of_row(row).ok_or_else(|| format!("no answer: {row:?}"))).collect()
}

/// Whether these rows' forms, one after the other, are what stands before the root. Some labels have several rows, so that the oracle's
/// labels alone do not tell which row it is.
fn are_forms(rows: &[u8], before: &[u8]) -> bool {
    rows.iter().flat_map(|&row| PREFIX_FORMS[usize::from(row)].1.bytes()).eq(before.iter().copied())
}

/// The same of a candidate or a decomposition.
fn is_after_form(word: &[u8], row: &[u8; CANDIDATE_ROW]) -> bool {
    are_forms(&row[2..2 + usize::from(row[3])], &word[..usize::from(row[0])])
}

/// The list, and its first row.
fn readings(functions: &Functions, word: &[u8], sheet: &[u8]) -> [String; 2] {
    let ask = |out: &mut [u8]| (functions.readings)(word, sheet, out);
    let of_row = |row: &[u8; READING_ROW]| {
        let prefixes = usize::from(row[20]);
        let root = usize::from(u16::from_le_bytes([row[2], row[3]]));
        // The row puts its word back together: the forms and the root the stem, the stem and its suffixes the word.
        let joins = |reading: &Reading| reading.surface().as_bytes() == word && written_back(functions, word, row);
        Reading::of_row(word, row).filter(joins).filter(|_| are_forms(&row[6..6 + prefixes], &word[..root]))
    };
    match rows(ask, READINGS_ROOM, of_row) {
        Ok(list) => [texts::readings(&list), texts::best_analysis(list.first())],
        Err(text) => [text.clone(), text],
    }
}

/// Whether the library writes the word back from the row, into every buffer.
fn written_back(functions: &Functions, word: &[u8], row: &[u8; READING_ROW]) -> bool {
    let ask = |out: &mut [u8]| (functions.surface)(word, row, out);
    buffers::filled(ask, word.len(), raw::above).is_ok_and(|(code, bytes)| raw::number(code) == 0 && bytes == word)
}

fn listing(functions: &Functions, word: &[u8], sheet: &[u8]) -> String {
    let ask = |out: &mut [u8]| (functions.listing)(word, sheet, out);
    match buffers::filled(ask, LISTING_ROOM, raw::above) {
        Ok((code, bytes)) if raw::number(code) == 0 => text_of(&bytes),
        Ok((code, _)) => refused(code),
        Err(text) => text,
    }
}

/// A text of lines, without its last 0A.
pub fn text_of(bytes: &[u8]) -> String {
    let text = String::from_utf8_lossy(bytes);
    text.strip_suffix('\n').map_or_else(|| format!("no 0A at the end of {text}"), str::to_string)
}

/// The candidates, and the first of them.
fn candidates(functions: &Functions, word: &[u8], sheet: &[u8]) -> [String; 2] {
    let ask = |out: &mut [u8]| (functions.candidates)(word, sheet, out);
    let of_row = |row: &[u8; CANDIDATE_ROW]| RootCandidate::of_row(word, row).filter(|_| is_after_form(word, row));
    match rows(ask, CANDIDATES_ROOM, of_row) {
        Ok(list) => [texts::candidates(&list), texts::best_root(list.first())],
        Err(text) => [text.clone(), text],
    }
}

fn decomposition(functions: &Functions, word: &[u8], sheet: &[u8]) -> String {
    let ask = |out: &mut [u8]| (functions.decompose)(word, sheet, out);
    match buffers::filled(ask, CANDIDATE_ROW, |_| CANDIDATE_ROW) {
        Ok((0, bytes)) => {
            let row: &[u8; CANDIDATE_ROW] = bytes[..].try_into().expect("the bytes of one row");
            let found = Morpheme::of_row(word, row).filter(|_| is_after_form(word, row));
            found.map_or_else(|| format!("no answer: {row:?}"), |found| texts::decomposition(&found))
        }
        Ok((code, _)) => refused(code),
        Err(text) => text,
    }
}

fn progressive(word: &[u8], sheet: &[u8], code: u64) -> String {
    match (code, ProgressiveAnalysis::of_code(word, sheet, code)) {
        (0, _) => texts::progressive(None),
        (_, Some(found)) if is_name(sheet, found.main_lemma) => texts::progressive(Some(found)),
        (_, Some(_)) => format!("{code:#x}: the lemma is no name of a w line"),
        (_, None) => refused(code),
    }
}

/// Whether the part of the sheet stands in it as the name of a `w` line.
fn is_name(sheet: &[u8], part: &str) -> bool {
    let from = part.as_ptr() as usize - sheet.as_ptr() as usize;
    let (before, after) = (&sheet[..from], &sheet[from + part.len()..]);
    let head = before.strip_suffix(b"(w ");
    head.is_some_and(|head| head.is_empty() || head.ends_with(b"\n")) && after.starts_with(b" ")
}

/// The decision, and its origin alone. A refusal has confidence 0.0.
fn origin(code: u64, confidence: f32) -> [String; 2] {
    match (OriginDecision::of_code(code, confidence), confidence.to_bits()) {
        (Some(found), _) => [texts::origin(found), texts::classify(found.origin)],
        (None, 0) => [refused(code), refused(code)],
        (None, bits) => [format!("{} with confidence {bits:08X}", refused(code)), refused(code)],
    }
}
