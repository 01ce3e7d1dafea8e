//! Seeded cases: a seed and an index give one word and one sheet, for ever the same.

mod classes;
pub mod corrections;
mod damage;
pub mod limits;
mod lines;
mod pieces;
mod random;
pub mod referring;
pub mod running;
mod sheets;
mod texts;
pub mod torn;
mod words;

pub use classes::{CLASSES, Class, of_length};
pub use random::Random;

use blocks::Case;

/// Cases in one round of all classes, each as often as its weight says.
pub fn round() -> usize {
    CLASSES.iter().map(|class| class.weight).sum()
}

/// The class of a case: a stride through the round mixes the classes, and a whole round has each
/// as often as its weight says.
pub fn class_of(index: u64) -> &'static Class {
    // 211 is prime and does not divide the round, so each place of the round comes once.
    let mut place = (index as usize % round()) * 211 % round();
    for class in CLASSES {
        if place < class.weight {
            return class;
        }
        place -= class.weight;
    }
    unreachable!("the place lies within the round")
}

/// Case `index` of `seed`.
pub fn case(seed: u64, index: u64) -> Case {
    (class_of(index).make)(&mut Random::for_case(seed, index))
}

/// Case `index` of `seed` as the class given would make it.
pub fn case_of(class: &Class, seed: u64, index: u64) -> Case {
    (class.make)(&mut Random::for_case(seed, index))
}

/// A sheet in which every run of the word's characters is known by w.
pub fn every_run(word: &str) -> Vec<u8> {
    let mut lines = lines::Lines::default();
    pieces::runs(word).iter().for_each(|run| lines.word(run, "w"));
    lines.bytes()
}
