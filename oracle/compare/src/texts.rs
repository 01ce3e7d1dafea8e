//! What the library gives, written as the oracle writes it.

use crate::Answers;
use yunthirel::{AffixSegment, Morpheme, Origin, OriginDecision, ProgressiveAnalysis, Reading, Refusal, RootCandidate};

/// What a check says of a word or a sheet without fault.
pub const ACCEPTED: &str = "accepted";

/// The same text for every question but the two checks.
pub fn all(check_word: String, check_sheet: String, other: String) -> Answers {
    let mut answers: Answers = std::array::from_fn(|_| other.clone());
    answers[0] = check_word;
    answers[1] = check_sheet;
    answers
}

pub fn refused(refusal: Refusal) -> String {
    match refusal.start() {
        None => format!("(refused {})", refusal.number()),
        Some(start) => format!("(refused {} {start})", refusal.number()),
    }
}

/// How many pieces are visited.
pub fn visits(number: usize) -> String {
    format!("visits {number}")
}

/// The rows as in a listing, each with the source and the confidence of its root's origin behind it.
pub fn readings(readings: &[Reading]) -> String {
    let mut text = format!("(list {})", readings.len());
    for reading in readings {
        text.push('\n');
        text.push_str(&row(reading));
    }
    text
}

fn row(reading: &Reading) -> String {
    let segment = |segment: &AffixSegment| {
        let shared = if segment.shared { " shared" } else { "" };
        format!("({} {}{shared})", segment.text, segment.kind.as_str())
    };
    let segments: Vec<String> = reading.suffix_segments.iter().map(segment).collect();
    format!(
        "(r {} {} ({}) ({}) {} {}) {} {:08X}",
        reading.stem,
        reading.root,
        reading.prefixes.join(" "),
        segments.join(" "),
        reading.score,
        reading.origin.letter(),
        reading.source.as_str(),
        reading.confidence.to_bits()
    )
}

pub fn best_analysis(reading: Option<&Reading>) -> String {
    format!("best_analysis {}", reading.map_or("none".to_string(), row))
}

pub fn candidates(candidates: &[RootCandidate]) -> String {
    let mut text = format!("candidates {}", candidates.len());
    for found in candidates {
        text.push_str("\ncandidate ");
        text.push_str(&candidate(found));
    }
    text
}

fn candidate(candidate: &RootCandidate) -> String {
    let w = if candidate.known_word { "w" } else { "" };
    let h = if candidate.known_headword { "h" } else { "" };
    format!(
        "{} {w}{h} {} {}{}{}",
        candidate.root,
        candidate.origin.letter(),
        candidate.score,
        labels(&candidate.prefixes),
        labels(&candidate.suffixes)
    )
}

pub fn best_root(found: Option<&RootCandidate>) -> String {
    format!("best_root {}", found.map_or("none".to_string(), candidate))
}

pub fn decomposition(found: &Morpheme) -> String {
    let labels = [labels(&found.prefixes), labels(&found.suffixes)].concat();
    format!("decomposition {} {}{labels}", found.root, found.origin.letter())
}

/// A count and the labels, each after a space.
fn labels(labels: &[&str]) -> String {
    let mut text = format!(" {}", labels.len());
    for label in labels {
        text.push(' ');
        text.push_str(label);
    }
    text
}

pub fn progressive(found: Option<ProgressiveAnalysis>) -> String {
    let Some(found) = found else {
        return "progressive none".to_string();
    };
    let sign = if found.negative { "negative" } else { "affirmative" };
    let (main, lemma) = (found.main_form, found.main_lemma);
    format!("progressive {main} {lemma} {} {} {sign}", found.auxiliary_form, found.auxiliary_lemma)
}

pub fn origin(found: OriginDecision) -> String {
    format!("origin {} {} {:08X}", found.origin.letter(), found.source.as_str(), found.confidence.to_bits())
}

pub fn classify(origin: Origin) -> String {
    format!("classify {}", origin.letter())
}

pub fn yes_or_no(question: &str, yes: bool) -> String {
    format!("{question} {}", if yes { "yes" } else { "no" })
}
