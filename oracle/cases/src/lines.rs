//! A sheet under construction: its lines by first letter and name, so that they come out ordered.

use std::collections::BTreeMap;

#[derive(Default, Clone)]
pub struct Lines {
    pub kinds: BTreeMap<String, &'static str>,
    pub links: BTreeMap<String, String>,
    pub words: BTreeMap<String, String>,
}

impl Lines {
    /// Each line with its 0A.
    pub fn each(&self) -> Vec<Vec<u8>> {
        let kinds = self.kinds.iter().map(|(name, kind)| format!("(k {name} ({kind}))\n"));
        let links = self.links.iter().map(|(link, lemma)| format!("(l {link} ({lemma}))\n"));
        let words = self.words.iter().map(|(name, letters)| format!("(w {name} ({letters}))\n"));
        kinds.chain(links).chain(words).map(String::into_bytes).collect()
    }

    pub fn bytes(&self) -> Vec<u8> {
        self.each().concat()
    }

    pub fn size(&self) -> usize {
        self.each().iter().map(Vec::len).sum()
    }

    /// Drops `w` lines, here and there over the alphabet, until the sheet fits.
    pub fn fit(&mut self, limit: usize) {
        let mut size = self.size();
        let names: Vec<String> = self.words.keys().cloned().collect();
        // Multiplying by a number prime to the count visits every name once, in a mixed order.
        for i in 0..names.len() {
            if size <= limit {
                return;
            }
            let name = &names[(i * 7919 + 3) % names.len()];
            if let Some(letters) = self.words.remove(name) {
                size -= "(w  ())\n".len() + name.len() + letters.len();
            }
        }
    }

    /// A name that a line may hold: 1 to 210 bytes, and none of the forbidden ones.
    pub fn is_name(name: &str) -> bool {
        (1..=acceptance::NAME_LIMIT).contains(&name.len()) && !name.bytes().any(acceptance::is_forbidden)
    }

    pub fn word(&mut self, name: &str, letters: &str) {
        if Lines::is_name(name) {
            self.words.insert(name.to_string(), letters.to_string());
        }
    }

    pub fn link(&mut self, link: &str, infinitive: &str) {
        let good = Lines::is_name(link) && Lines::is_name(infinitive);
        if good && link.ends_with(['ि', 'इ']) && infinitive.ends_with("नु") {
            self.links.insert(link.to_string(), infinitive.to_string());
        }
    }

    pub fn kind(&mut self, suffix: &str, kind: &'static str) {
        if Lines::is_name(suffix) {
            self.kinds.insert(suffix.to_string(), kind);
        }
    }
}
