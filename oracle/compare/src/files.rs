//! Files of words: one word a line, each put twice, with a sheet of the lines that answer its own questions and with a full sheet.

use crate::words::LEXICON;
use acceptance::{NAME_LIMIT, SHEET_LIMIT, is_forbidden};
use blocks::Case;
use cases::Random;
use shabda::tables::{CASE_MARKERS, PARTICLES, PLURAL_MARKERS};
use std::collections::{BTreeMap, HashMap};

/// Words, and a lexicon of them: those of the file that can be names, and the roots of `words.rs`.
pub struct Words {
    words: Vec<Vec<u8>>,
    lexicon: HashMap<String, String>,
    /// What fills a sheet: the lexicon's names with their letters, and then names that are made up.
    filling: Vec<(String, String)>,
    /// The lexicon's names in नु, which link lines name.
    infinitives: Vec<String>,
    seed: u64,
}

/// How much stands on a sheet: the lines for the word's own questions alone, or lines of other names too, up to so many bytes.
#[derive(Clone, Copy)]
pub enum Fill {
    Own,
    UpTo(usize),
}

impl Words {
    /// The words of a file's bytes. Which letters a name has is drawn by the seed.
    pub fn of_lines(bytes: &[u8], seed: u64) -> Words {
        let lines = bytes.split(|&byte| byte == b'\n').filter(|line| !line.is_empty());
        Words::of(lines.map(<[u8]>::to_vec).collect(), seed)
    }

    pub fn of(words: Vec<Vec<u8>>, seed: u64) -> Words {
        let mut random = Random::for_case(seed, 0);
        let roots = LEXICON.iter().map(|&(name, letters)| (name.to_string(), letters.to_string()));
        let mut filling: Vec<(String, String)> = roots.collect();
        let mut lexicon: HashMap<String, String> = filling.iter().cloned().collect();
        for name in words.iter().filter_map(|word| name(word)) {
            if !lexicon.contains_key(name) {
                let letters = letters_of(name, &mut random);
                lexicon.insert(name.to_string(), letters.clone());
                filling.push((name.to_string(), letters));
            }
        }
        let names = filling.iter().map(|(name, _)| name);
        let infinitives = names.filter(|name| name.ends_with("नु")).cloned().collect();
        for _ in 0..MADE_UP {
            let name = made_up(&mut random);
            if !lexicon.contains_key(&name) {
                let letters = letters_of(&name, &mut random);
                filling.push((name, letters));
            }
        }
        Words { words, lexicon, filling, infinitives, seed }
    }

    /// A lexicon that knows these names by w and nothing else, with names that are made up to fill a sheet.
    pub fn known(names: Vec<&str>, seed: u64) -> Words {
        let mut random = Random::for_case(seed, 0);
        let lexicon: HashMap<String, String> = names.iter().map(|name| (name.to_string(), "w".to_string())).collect();
        let made = (0..MADE_UP).map(|_| made_up(&mut random)).collect::<Vec<_>>();
        let filling = made.into_iter().filter(|name| !lexicon.contains_key(name)).map(|name| (name, "wh".to_string()));
        Words { words: Vec::new(), filling: filling.collect(), lexicon, infinitives: Vec::new(), seed }
    }

    /// Two cases a word.
    pub fn count(&self) -> u64 {
        2 * self.words.len() as u64
    }

    pub fn case(&self, index: u64) -> Case {
        let word = self.words[(index / 2) as usize].clone();
        let full = index % 2 == 1;
        let mut random = Random::for_case(self.seed, index);
        let mut lines = BTreeMap::new();
        // Kind lines, then link lines: what stands before the `w` lines.
        let mut others = kinds(&mut random);
        if let Some(text) = name(&word) {
            self.answer(text, &mut lines);
            for (link, infinitive) in self.links(text, &mut random) {
                others.push_str(&format!("(l {link} ({infinitive}))\n"));
                // Some infinitives have no line: then the link decides that there is no lemma.
                if random.chance(60) {
                    lines.insert(infinitive, &self.lexicon[infinitive]);
                }
            }
            // The word itself is known on the full sheet alone.
            if !full {
                lines.remove(text);
            }
        }
        if full {
            let from = random.below(self.filling.len());
            fill(SHEET_LIMIT - others.len(), self.filling[from..].iter().chain(&self.filling[..from]), &mut lines);
        }
        Case { word, sheet: (others + &written(&lines)).into_bytes() }
    }

    /// Some of the word's runs that end as a link does, ascending, each with an infinitive of the lexicon.
    fn links<'a, 'w>(&'a self, word: &'w str, random: &mut Random) -> BTreeMap<&'w str, &'a str> {
        let mut links = BTreeMap::new();
        if self.infinitives.is_empty() {
            return links;
        }
        for (at, last) in word.char_indices().filter(|&(_, last)| matches!(last, 'ि' | 'इ')) {
            let end = at + last.len_utf8();
            for (from, _) in word[..end].char_indices() {
                if links.len() < LINKS && random.chance(25) {
                    let infinitive = &self.infinitives[random.below(self.infinitives.len())];
                    links.insert(&word[from..end], infinitive.as_str());
                }
            }
        }
        links
    }

    /// A sheet for the word, without kind lines. What fills it is spread over the whole lexicon.
    pub fn sheet(&self, word: &str, upto: Fill) -> Vec<u8> {
        let mut lines = BTreeMap::new();
        self.answer(word, &mut lines);
        if let Fill::UpTo(limit) = upto {
            let step = (self.filling.len() * 10 / SHEET_LIMIT).max(1);
            let spread = (0..step).flat_map(|from| self.filling[from..].iter().step_by(step));
            fill(limit, spread, &mut lines);
        }
        written(&lines).into_bytes()
    }

    /// The lexicon's lines for the word's own questions: its runs, alone and with the texts that are appended, and रहनु.
    fn answer<'a>(&'a self, word: &str, lines: &mut BTreeMap<&'a str, &'a str>) {
        let mut put = |name: &str| {
            if let Some((name, letters)) = self.lexicon.get_key_value(name) {
                lines.insert(name, letters);
            }
        };
        put("रहनु");
        let places: Vec<usize> = word.char_indices().map(|(at, _)| at).chain([word.len()]).collect();
        let mut asked = String::new();
        for (i, &from) in places.iter().enumerate() {
            for &to in &places[i + 1..] {
                put(&word[from..to]);
                for text in APPENDED.iter().flat_map(|texts| texts.iter()) {
                    asked.clear();
                    asked.push_str(&word[from..to]);
                    asked.push_str(text);
                    put(&asked);
                }
            }
        }
    }
}

/// Lines of other names, as far as whole lines go.
fn fill<'a>(limit: usize, more: impl Iterator<Item = &'a (String, String)>, lines: &mut BTreeMap<&'a str, &'a str>) {
    let length = |name: &str, letters: &str| "(w  ())\n".len() + name.len() + letters.len();
    let mut size: usize = lines.iter().map(|(name, letters)| length(name, letters)).sum();
    for (name, letters) in more {
        let more = length(name, letters);
        if size + more <= limit && !lines.contains_key(name.as_str()) {
            lines.insert(name, letters);
            size += more;
        }
        // The shortest line has 10 bytes.
        if limit < size + 10 {
            break;
        }
    }
}

fn written(lines: &BTreeMap<&str, &str>) -> String {
    lines.iter().map(|(name, letters)| line(name, letters)).collect()
}

/// The texts that are appended in a word's own questions.
const APPENDED: [&[&str]; 4] = [CASE_MARKERS, PLURAL_MARKERS, PARTICLES, &["नु", "्नु", "उनु"]];

/// The word as a name of a line, if it can be one.
fn name(word: &[u8]) -> Option<&str> {
    let good = (1..=NAME_LIMIT).contains(&word.len()) && !word.iter().any(|&byte| is_forbidden(byte));
    std::str::from_utf8(word).ok().filter(|_| good)
}

fn line(name: &str, letters: &str) -> String {
    format!("(w {name} ({letters}))\n")
}

/// Letters that a name could have: infinitives are mostly verbs, and of the names in ई and ी some are pronouns.
fn letters_of(name: &str, random: &mut Random) -> String {
    let mut letters = random.weighted(&[(1, "w"), (1, "h"), (4, "wh")]).to_string();
    if letters.ends_with('h') {
        if name.ends_with("नु") && random.chance(90) {
            letters.push('v');
        }
        if name.ends_with(['ई', 'ी']) && random.chance(20) {
            letters.push_str(random.pick(&["p", "pe"]));
        }
        letters.push_str(random.pick(&["", "t", "b", "d", "a"]));
    }
    letters
}

/// Kind lines for some of the 25 texts.
fn kinds(random: &mut Random) -> String {
    let mut texts: Vec<&str> = [CASE_MARKERS, PLURAL_MARKERS, PARTICLES].concat();
    texts.sort();
    texts.retain(|_| random.chance(10));
    texts.iter().map(|text| format!("(k {text} ({}))\n", random.pick(&["post", "comp"]))).collect()
}

/// Link lines of a sheet at most, so that all of them fit.
const LINKS: usize = 16;

/// More lines than a sheet can hold.
const MADE_UP: usize = 4_000;

fn made_up(random: &mut Random) -> String {
    const SYLLABLES: [&str; 16] =
        ["क", "खा", "गि", "घ", "चु", "ज", "ता", "द", "नि", "प", "बो", "म", "या", "र", "ले", "स"];
    (0..random.range(3, 5)).map(|_| random.pick(&SYLLABLES)).collect()
}
