//! How the sheet answers.

use crate::slip::{Slip, edits, slip};

const LOOKUP: &str = "oracle/shims/kosha/src/lib.rs";
const SHEET: &str = "oracle/shims/kosha/src/sheet.rs";
const ANSWERS: &str = "oracle/answers/src/lib.rs";

pub fn slips() -> Vec<Slip> {
    vec![
        slip(
            "a name that begins with the question answers",
            SHEET,
            "        self.words.get(word).map(|&(letters, _)| letters)",
            "        self.words.get(word).or_else(|| self.words.iter().find(|(name, _)| name.starts_with(word)).map(|(_, entry)| entry)).map(|&(letters, _)| letters)",
        ),
        slip(
            "a name that the question begins with answers",
            SHEET,
            "        self.words.get(word).map(|&(letters, _)| letters)",
            "        self.words.get(word).or_else(|| self.words.iter().find(|(name, _)| word.starts_with(&name[..]) && name.len() + 3 == word.len()).map(|(_, entry)| entry)).map(|&(letters, _)| letters)",
        ),
        slip(
            "a question of more than 209 bytes is unknown",
            SHEET,
            "        self.words.get(word).map(|&(letters, _)| letters)",
            "        self.words.get(word).filter(|_| word.len() < 210).map(|&(letters, _)| letters)",
        ),
        slip(
            "a lemma of more than 209 bytes is unknown",
            SHEET,
            "        self.links.get(form).map(String::as_str)",
            "        self.links.get(form).map(String::as_str).filter(|lemma| lemma.len() < 210)",
        ),
        slip(
            "any link line answers",
            SHEET,
            "        self.links.get(form).map(String::as_str)",
            "        self.links.get(form).or(self.links.values().min()).map(String::as_str)",
        ),
        slip(
            "h counts as contained",
            LOOKUP,
            "is_some_and(|letters| letters.has('w'))",
            "is_some_and(|letters| letters.has('w') || letters.has('h'))",
        ),
        slip("w counts as headword", LOOKUP, ".filter(|letters| letters.has('h'))?", "?"),
        slip("p taken for v", LOOKUP, "        pos.letters.has('v')", "        pos.letters.has('p')"),
        slip("v taken for p", LOOKUP, "        pos.letters.has('p')", "        pos.letters.has('v')"),
        slip(
            "e ignored on a root that holds ी",
            LOOKUP,
            ".is_some_and(|text| text.contains(wanted))",
            ".is_some_and(|text| text.contains(wanted) && !text.contains(\"ी\"))",
        ),
        edits(
            "tags b and d exchanged",
            LOOKUP,
            &[("('b', Origin::Tadbhav)", "('d', Origin::Tadbhav)"), ("('d', Origin::Deshaj)", "('b', Origin::Deshaj)")],
        ),
        slip("tag a taken for d", LOOKUP, "('a', Origin::Aagantuk)", "('a', Origin::Deshaj)"),
        slip("tag d is no tag", LOOKUP, "('d', Origin::Deshaj)", "('x', Origin::Deshaj)"),
        slip(
            "post taken for comp",
            ANSWERS,
            "sheet.add_kind(suffix, KindLine::Post)",
            "sheet.add_kind(suffix, KindLine::Comp)",
        ),
        slip(
            "kind lines answer for words",
            ANSWERS,
            "=> sheet.add_kind(suffix, KindLine::Post),",
            "=> {\n                sheet.add_kind(suffix, KindLine::Post);\n                sheet.add_word(suffix, \"w\");\n            }",
        ),
    ]
}
