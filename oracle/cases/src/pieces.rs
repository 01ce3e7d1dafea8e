//! A word's own questions: its runs, and those of them that strips reach.

use shabda::tables::{CASE_MARKERS, PARTICLES, PLURAL_MARKERS, PREFIX_FORMS, SUFFIXES};
use std::collections::BTreeSet;

/// Every run of whole characters.
pub fn runs(word: &str) -> Vec<&str> {
    let mut starts: Vec<usize> = word.char_indices().map(|(place, _)| place).collect();
    starts.push(word.len());
    let mut found = BTreeSet::new();
    for (i, &from) in starts.iter().enumerate() {
        for &to in &starts[i + 1..] {
            found.insert(&word[from..to]);
        }
    }
    found.into_iter().collect()
}

const MOST_PIECES: usize = 200;

/// The word and what strips of any table leave of it, nearest first. Wider than the source's
/// walks, so that a walk which goes too far finds something there.
pub fn pieces(word: &str) -> Vec<&str> {
    let mut found = vec![word];
    let mut next = 0;
    while next < found.len() && found.len() < MOST_PIECES {
        let piece = found[next];
        for rest in suffix_rests(piece).into_iter().chain(prefix_rests(piece)) {
            if !rest.is_empty() && !found.contains(&rest) {
                found.push(rest);
            }
        }
        next += 1;
    }
    found.truncate(MOST_PIECES);
    found.retain(|piece| !piece.is_empty());
    found
}

fn suffix_rests(piece: &str) -> Vec<&str> {
    let tables = [PARTICLES, CASE_MARKERS, PLURAL_MARKERS, SUFFIXES, shabda::STRIP_SUFFIXES];
    let mut rests = Vec::new();
    for suffix in tables.concat() {
        if let Some(rest) = piece.strip_suffix(suffix) {
            rests.push(rest);
            let first = suffix.chars().next().map_or(0, char::len_utf8);
            rests.push(&piece[..rest.len() + first]);
        }
    }
    rests
}

fn prefix_rests(piece: &str) -> Vec<&str> {
    PREFIX_FORMS.iter().filter_map(|&(_, form, _)| piece.strip_prefix(form)).collect()
}
