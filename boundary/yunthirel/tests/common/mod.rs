//! Sheets that the tests share.
#![allow(dead_code)]

/// A sheet of these lines.
pub fn sheet(lines: &[&str]) -> Vec<u8> {
    lines.iter().flat_map(|line| [line.as_bytes(), b"\n"].concat()).collect()
}

/// A sheet in which every run of the word's characters is known by w.
pub fn every_run(word: &str) -> Vec<u8> {
    let places: Vec<usize> = word.char_indices().map(|(at, _)| at).chain([word.len()]).collect();
    let mut runs: Vec<&str> = Vec::new();
    for (i, &from) in places.iter().enumerate() {
        runs.extend(places[i + 1..].iter().map(|&to| &word[from..to]));
    }
    runs.sort();
    runs.dedup();
    runs.iter().flat_map(|run| format!("(w {run} (w))\n").into_bytes()).collect()
}

/// A good sheet of exactly `length` bytes: lines of 20 bytes, the last one longer.
pub fn sheet_of(length: usize) -> Vec<u8> {
    let mut sheet = Vec::new();
    let mut k = 0;
    while length - sheet.len() >= 40 {
        sheet.extend(format!("(w {k:011} (w))\n").into_bytes());
        k += 1;
    }
    let name = "z".repeat(length - sheet.len() - "(w  (w))\n".len());
    sheet.extend(format!("(w {name} (w))\n").into_bytes());
    assert_eq!(sheet.len(), length);
    sheet
}

/// Document 01's word of 63 readings, and the one of 77, with every run known.
pub const SIXTY_THREE: &str = "निःनिःघरकोकोकोको";
pub const SEVENTY_SEVEN: &str = "निःनिःघरकोकोकोक्यारे";
