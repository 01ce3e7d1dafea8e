//! Which suffixes of a reading share their first letter: a plain second reading of the rule, since the source keeps no mark.

use shabda::AffixAnalysis;

/// For each suffix of the reading, nearest the stem first, whether what was left keeps the suffix's first character. Strip by strip
/// from the word's end, each remainder plain or shared, until the stem is left; the earliest such way.
pub fn marks(reading: &AffixAnalysis) -> Vec<bool> {
    let outermost_first: Vec<&str> =
        reading.suffix_segments.iter().rev().map(|segment| segment.text.as_str()).collect();
    let mut marks = strips(&reading.surface, &outermost_first, &reading.stem).expect("a reading has a path");
    marks.reverse();
    marks
}

fn strips(piece: &str, texts: &[&str], stem: &str) -> Option<Vec<bool>> {
    let Some((text, rest)) = texts.split_first() else {
        return (piece == stem).then(Vec::new);
    };
    let plain = piece.strip_suffix(text).filter(|left| !left.is_empty())?;
    let first = text.chars().next()?;
    let shared = (text.chars().count() > 1).then(|| format!("{plain}{first}"));
    let behind = |mark: bool, left: &str| strips(left, rest, stem).map(|marks| [vec![mark], marks].concat());
    behind(false, plain).or_else(|| behind(true, &shared?))
}
