//! The answers of one sheet. The lines are checked elsewhere; here they are only kept.

use std::collections::HashMap;

#[derive(Debug, Clone, Copy, PartialEq, Eq)]
pub enum KindLine {
    Post,
    Comp,
}

/// The letters of a `w` line, one bit each.
#[derive(Debug, Clone, Copy, PartialEq, Eq)]
pub struct Letters(u16);

impl Letters {
    pub fn of(text: &str) -> Self {
        Letters(text.chars().fold(0, |bits, letter| bits | bit(letter)))
    }

    pub fn has(self, letter: char) -> bool {
        self.0 & bit(letter) != 0
    }
}

fn bit(letter: char) -> u16 {
    match letter {
        'w' => 1,
        'h' => 2,
        'v' => 4,
        'p' => 8,
        'e' => 16,
        't' => 32,
        'b' => 64,
        'd' => 128,
        'a' => 256,
        _ => 0,
    }
}

#[derive(Debug, Default)]
pub struct Sheet {
    words: HashMap<String, (Letters, usize)>,
    /// Names of `w` lines whose letters have e, for `derivation`.
    derived: Vec<String>,
    links: HashMap<String, String>,
    kinds: HashMap<String, KindLine>,
}

impl Sheet {
    pub fn clear(&mut self) {
        self.words.clear();
        self.derived.clear();
        self.links.clear();
        self.kinds.clear();
    }

    pub fn add_word(&mut self, name: &str, letters: &str) {
        let letters = Letters::of(letters);
        self.words.insert(name.to_string(), (letters, self.derived.len()));
        if letters.has('e') {
            self.derived.push(name.to_string());
        }
    }

    pub fn add_link(&mut self, link: &str, infinitive: &str) {
        self.links.insert(link.to_string(), infinitive.to_string());
    }

    pub fn add_kind(&mut self, suffix: &str, kind: KindLine) {
        self.kinds.insert(suffix.to_string(), kind);
    }

    pub fn letters(&self, word: &str) -> Option<Letters> {
        self.words.get(word).map(|&(letters, _)| letters)
    }

    /// The place of `word` among the names with e; it has one only if its letters have e.
    pub fn place(&self, word: &str) -> Option<usize> {
        self.words.get(word).map(|&(_, place)| place)
    }

    /// `[root+ई]`, where root is the name without its last ई or ी; none for any other name.
    pub fn derivation(&self, place: usize) -> Option<String> {
        let name = self.derived.get(place)?;
        let root = name.strip_suffix(['ई', 'ी'])?;
        Some(format!("[{root}+ई]"))
    }

    pub fn infinitive(&self, form: &str) -> Option<&str> {
        self.links.get(form).map(String::as_str)
    }

    pub fn kind(&self, suffix: &str) -> Option<KindLine> {
        self.kinds.get(suffix).copied()
    }
}
