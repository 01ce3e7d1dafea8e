//! Stands in for the source's lexicon: every question is answered from the sheet in force.
//!
//! The sheet in force is held per thread and owned, so nothing is leaked however many sheets are
//! asked. For that, `lookup` hands back an entry by value and `pos` is a handle instead of a
//! `&'static str`; the source only ever asks it what a `&str` there would be asked.

mod sheet;

pub use sheet::{KindLine, Letters, Sheet};
use std::cell::RefCell;
use varnavinyas_types::Origin;

thread_local! {
    static IN_FORCE: RefCell<Sheet> = RefCell::new(Sheet::default());
}

/// Puts `sheet` in force for this thread and hands back the one that was.
pub fn put_in_force(sheet: Sheet) -> Sheet {
    IN_FORCE.with(|slot| slot.replace(sheet))
}

/// The questions that `work` asks, each counted once. Counted in debug builds alone, so that nothing is timed with it.
#[cfg(debug_assertions)]
pub fn questions(work: impl FnOnce()) -> usize {
    ASKED.with(|asked| asked.borrow_mut().clear());
    work();
    ASKED.with(|asked| asked.borrow().len())
}

#[cfg(debug_assertions)]
thread_local! {
    static ASKED: RefCell<std::collections::BTreeSet<(char, String)>> = RefCell::default();
}

/// Notes a question: the letter of the line that would answer it, and the name.
fn note(_letter: char, _name: &str) {
    #[cfg(debug_assertions)]
    ASKED.with(|asked| asked.borrow_mut().insert((_letter, _name.to_string())));
}

fn ask<R>(question: impl FnOnce(&Sheet) -> R) -> R {
    IN_FORCE.with(|slot| question(&slot.borrow()))
}

/// The lexicon itself holds nothing: the sheet in force does.
pub struct Kosha;

static KOSHA: Kosha = Kosha;

pub fn kosha() -> &'static Kosha {
    &KOSHA
}

impl Kosha {
    /// Whether the word's line has w.
    pub fn contains(&self, word: &str) -> bool {
        note('w', word);
        ask(|sheet| sheet.letters(word).is_some_and(|letters| letters.has('w')))
    }

    /// The word's entry, if its line has h.
    pub fn lookup(&self, word: &str) -> Option<WordEntry> {
        note('w', word);
        let letters = ask(|sheet| sheet.letters(word)).filter(|letters| letters.has('h'))?;
        Some(WordEntry {
            pos: Pos { letters, note: letters.has('e').then(|| ask(|sheet| sheet.place(word))).flatten() },
        })
    }

    /// The origin that the word's tag letter names.
    pub fn origin_of(&self, word: &str) -> Option<Origin> {
        let pos = self.lookup(word)?.pos;
        [('t', Origin::Tatsam), ('b', Origin::Tadbhav), ('d', Origin::Deshaj), ('a', Origin::Aagantuk)]
            .into_iter()
            .find_map(|(letter, origin)| pos.letters.has(letter).then_some(origin))
    }

    /// A sheet names no source language.
    pub fn source_language_of(&self, _word: &str) -> Option<&'static str> {
        None
    }
}

/// A headword's entry. The source reads its part of speech alone.
pub struct WordEntry {
    pub pos: Pos,
}

/// What the entry's part-of-speech text would answer.
#[derive(Clone, Copy)]
pub struct Pos {
    letters: Letters,
    /// Where the name stands whose derivation the entry spells, if it spells one.
    note: Option<usize>,
}

impl Pos {
    /// Whether the text holds `wanted`; the source asks this of `[root+ई]` alone.
    pub fn contains(&self, wanted: &str) -> bool {
        self.note.and_then(|place| ask(|sheet| sheet.derivation(place))).is_some_and(|text| text.contains(wanted))
    }
}

pub mod part_of_speech {
    use crate::Pos;

    pub fn is_verb(pos: Pos) -> bool {
        pos.letters.has('v')
    }

    pub fn is_pronoun(pos: Pos) -> bool {
        pos.letters.has('p')
    }

    /// A sheet tells no nouns; `tokenize` never asks.
    pub fn is_noun(_pos: Pos) -> bool {
        false
    }
}

/// The link line of `form`, as the source's inventory row of form and infinitive.
pub fn link_line(form: &str) -> Option<(String, String)> {
    note('l', form);
    ask(|sheet| sheet.infinitive(form).map(|lemma| (form.to_string(), lemma.to_string())))
}

/// The kind line of `suffix`.
pub fn kind_line(suffix: &str) -> Option<KindLine> {
    note('k', suffix);
    ask(|sheet| sheet.kind(suffix))
}
