//! The Rust of docs/src once more, with a line in each of the two functions that walk a word: how often they are entered.

include!(concat!(env!("OUT_DIR"), "/modules.rs"));

pub use morphology::*;
pub use origin::*;
pub use progressive::*;

use std::cell::Cell;

thread_local! {
    static VISITS: Cell<usize> = const { Cell::new(0) };
}

/// What the two added lines call.
fn count_visit() {
    VISITS.set(VISITS.get() + 1);
}

/// How often `analyze_affixes` enters the suffix walk and the prefix walk for the word, under the sheet in force.
pub fn visits(word: &str) -> usize {
    VISITS.set(0);
    analyze_affixes(word);
    VISITS.get()
}
