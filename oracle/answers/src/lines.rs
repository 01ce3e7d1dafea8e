//! The lines of an answer. Each ends in 0A; words stand in them byte for byte.

use crate::marks::marks;
use acceptance::{Refusal, check_count};
use shabda::{AffixAnalysis, AffixKind, AffixSegment, OriginDecision, OriginSource, RootCandidate};
use varnavinyas_types::Origin;

pub fn refused(refusal: Refusal) -> String {
    format!("(refused {refusal})\n")
}

/// Every answer for an accepted word under the sheet in force.
pub fn all(word: &str) -> String {
    let readings = shabda::analyze_affixes(word);
    let candidates = shabda::lookup_root_candidates(word);
    [list(&readings), supported(&readings), roots(&candidates), decomposition(word), progressive(word), origin(word)]
        .concat()
}

/// The answers one by one. A field is the text of its line or lines, without the last 0A.
pub struct Each {
    /// The listing, each row with the source and the confidence of its root's origin behind it.
    pub readings: String,
    pub listing: String,
    pub best_analysis: String,
    pub has_analysis: String,
    pub candidates: String,
    pub best_root: String,
    pub has_known_root: String,
    pub decomposition: String,
    pub progressive: String,
    pub has_progressive: String,
    pub origin: String,
    pub classify: String,
}

/// Each answer for an accepted word under the sheet in force. The source's `best_analysis`, `has_supported_analysis`, `best_root` and
/// `has_known_root` make the lists once more and are not asked; a test shows that they say what stands here.
pub fn each(word: &str) -> Each {
    let readings = shabda::analyze_affixes(word);
    let found = shabda::lookup_root_candidates(word);
    let [best_analysis, has_analysis] = match check_count(readings.len()) {
        Ok(()) => [best_reading(readings.first()), format!("has_analysis {}\n", yes_or_no(!readings.is_empty()))],
        Err(refusal) => [refused(refusal), refused(refusal)],
    };
    let without_end = |text: String| text.strip_suffix('\n').map(str::to_string).expect("a line ends in 0A");
    Each {
        readings: without_end(list_by(&readings, told)),
        listing: without_end(list(&readings)),
        best_analysis: without_end(best_analysis),
        has_analysis: without_end(has_analysis),
        candidates: without_end(candidates(&found)),
        best_root: without_end(best_candidate(found.first())),
        has_known_root: format!("has_known_root {}", yes_or_no(!found.is_empty())),
        decomposition: without_end(decomposition(word)),
        progressive: without_end(progressive(word)),
        has_progressive: without_end(has_progressive(word)),
        origin: without_end(origin(word)),
        classify: format!("classify {}", tag(shabda::classify(word))),
    }
}

/// What `each` says of a word whose best reading is this one.
pub fn best_reading(reading: Option<&AffixAnalysis>) -> String {
    format!("best_analysis {}\n", reading.map_or("none".to_string(), told))
}

/// What `each` says of a word whose best candidate is this one.
pub fn best_candidate(candidate: Option<&RootCandidate>) -> String {
    format!("best_root {}\n", candidate.map_or("none".to_string(), candidate_text))
}

/// Document 01's listing, or `(refused 7)`.
pub fn listing(word: &str) -> String {
    list(&shabda::analyze_affixes(word))
}

fn list(readings: &[AffixAnalysis]) -> String {
    list_by(readings, row)
}

fn list_by(readings: &[AffixAnalysis], row: fn(&AffixAnalysis) -> String) -> String {
    if let Err(refusal) = check_count(readings.len()) {
        return refused(refusal);
    }
    let mut text = format!("(list {})\n", readings.len());
    readings.iter().for_each(|reading| {
        text.push_str(&row(reading));
        text.push('\n');
    });
    text
}

fn row(reading: &AffixAnalysis) -> String {
    let marks = marks(reading);
    let segments: Vec<String> = reading.suffix_segments.iter().zip(marks).map(segment).collect();
    format!(
        "(r {} {} ({}) ({}) {} {})",
        reading.stem,
        reading.root,
        reading.prefixes.join(" "),
        segments.join(" "),
        reading.score,
        tag(shabda::classify_with_provenance(&reading.root).origin)
    )
}

/// A row, and behind it what the source says of the root's origin: how it is known, and how surely.
fn told(reading: &AffixAnalysis) -> String {
    let decision = shabda::classify_with_provenance(&reading.root);
    format!("{} {} {:08X}", row(reading), source(&decision), decision.confidence.to_bits())
}

fn segment((segment, shared): (&AffixSegment, bool)) -> String {
    let kind = match segment.kind {
        AffixKind::Particle => "particle",
        AffixKind::CaseMarker => "case",
        AffixKind::PluralMarker => "plural",
        AffixKind::Postposition => "post",
        AffixKind::ComparisonMarker => "comp",
        AffixKind::Prefix => unreachable!("no suffix segment is a prefix"),
    };
    let shared = if shared { " shared" } else { "" };
    format!("({} {kind}{shared})", segment.text)
}

/// `has_supported_analysis`, which gives 7 where the list does. The source makes the list once
/// more for it and for `best_analysis`; a test shows that both say what the list says.
fn supported(readings: &[AffixAnalysis]) -> String {
    match check_count(readings.len()) {
        Ok(()) => format!("supported {}\n", yes_or_no(!readings.is_empty())),
        Err(refusal) => format!("supported {refusal}\n"),
    }
}

/// The root candidates, and `has_known_root`; that and `best_root` are tested likewise.
fn roots(found: &[RootCandidate]) -> String {
    candidates(found) + &format!("known {}\n", yes_or_no(!found.is_empty()))
}

fn candidates(found: &[RootCandidate]) -> String {
    let mut text = format!("candidates {}\n", found.len());
    found.iter().for_each(|candidate| {
        text.push_str("candidate ");
        text.push_str(&candidate_text(candidate));
        text.push('\n');
    });
    text
}

fn candidate_text(candidate: &RootCandidate) -> String {
    let known = match (candidate.known_word, candidate.known_headword) {
        (true, true) => "wh",
        (true, false) => "w",
        (false, true) => "h",
        (false, false) => unreachable!("a candidate is known"),
    };
    format!(
        "{} {known} {} {}{}{}",
        candidate.root,
        tag(candidate.origin),
        candidate.score,
        labels(&candidate.prefixes),
        labels(&candidate.suffixes)
    )
}

fn decomposition(word: &str) -> String {
    let found = shabda::decompose(word);
    format!(
        "decomposition {} {}{}{}\n",
        found.root,
        tag(found.origin),
        labels(&found.prefixes),
        labels(&found.suffixes)
    )
}

fn progressive(word: &str) -> String {
    match shabda::analyze_progressive(word) {
        None => "progressive none\n".to_string(),
        Some(found) => format!(
            "progressive {} {} {} {} {}\n",
            found.main_form,
            found.main_lemma,
            found.auxiliary_form,
            found.auxiliary_lemma,
            if found.negative { "negative" } else { "affirmative" }
        ),
    }
}

/// The source's own yes or no, which is no line of `all`.
fn has_progressive(word: &str) -> String {
    format!("has_progressive {}\n", yes_or_no(shabda::has_supported_progressive_form(word)))
}

fn origin(word: &str) -> String {
    let decision = shabda::classify_with_provenance(word);
    format!("origin {} {} {:08X}\n", tag(decision.origin), source(&decision), decision.confidence.to_bits())
}

fn source(decision: &OriginDecision) -> &'static str {
    match decision.source {
        OriginSource::Override => "override",
        OriginSource::Kosha => "kosha",
        OriginSource::Heuristic => "heuristic",
        OriginSource::Unknown => "unknown",
    }
}

/// A count and the labels, each after a space.
fn labels(labels: &[String]) -> String {
    let mut text = format!(" {}", labels.len());
    for label in labels {
        text.push(' ');
        text.push_str(label);
    }
    text
}

fn tag(origin: Origin) -> char {
    match origin {
        Origin::Tatsam => 't',
        Origin::Tadbhav => 'b',
        Origin::Deshaj => 'd',
        Origin::Aagantuk => 'a',
    }
}

fn yes_or_no(answer: bool) -> &'static str {
    if answer { "yes" } else { "no" }
}
