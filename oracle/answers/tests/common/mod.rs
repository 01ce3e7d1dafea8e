//! Helpers that the tests share.
#![allow(dead_code)]

/// What `readings` prints for the word and the sheet's lines.
pub fn readings(word: &str, lines: &[&str]) -> String {
    text(answers::readings_program(format!("{word}\n{}", sheet(lines)).as_bytes()))
}

/// Every answer for the word and the sheet's lines.
pub fn answer(word: &str, lines: &[&str]) -> String {
    text(answers::answer(word.as_bytes(), sheet(lines).as_bytes()))
}

/// The answer's line that begins with `head`.
pub fn line(word: &str, lines: &[&str], head: &str) -> String {
    let answer = answer(word, lines);
    let found = answer.split('\n').find(|line| line.starts_with(head));
    found.unwrap_or_else(|| panic!("no line {head} in\n{answer}")).to_string()
}

/// The answer's lines that begin with `head`.
pub fn lines(word: &str, lines: &[&str], head: &str) -> Vec<String> {
    let answer = answer(word, lines);
    answer.split('\n').filter(|line| line.starts_with(head)).map(str::to_string).collect()
}

pub fn acceptance(word: &[u8], sheet: &[u8]) -> String {
    answers::acceptance_line(word, sheet)
}

/// A sheet in which every run of the word's characters is known by w.
pub fn every_run(word: &str) -> Vec<String> {
    let chars: Vec<char> = word.chars().collect();
    let mut names: Vec<String> = Vec::new();
    for from in 0..chars.len() {
        for to in from + 1..=chars.len() {
            names.push(chars[from..to].iter().collect());
        }
    }
    names.sort();
    names.dedup();
    names.iter().map(|name| format!("(w {name} (w))")).collect()
}

pub fn strs(lines: &[String]) -> Vec<&str> {
    lines.iter().map(String::as_str).collect()
}

pub fn sheet(lines: &[&str]) -> String {
    lines.iter().map(|line| format!("{line}\n")).collect()
}

/// A good sheet of exactly `length` bytes.
pub fn sheet_of(length: usize) -> Vec<u8> {
    cases::of_length(&mut cases::Random::for_case(7, 7), "घरले", length)
}

fn text(bytes: Vec<u8>) -> String {
    String::from_utf8(bytes).expect("an answer is text")
}
