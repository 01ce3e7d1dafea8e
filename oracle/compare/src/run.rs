//! Cases put to all sides, on several threads, and what came of it. The oracle's sheet in force is a thread's own.

use crate::{Compared, NAMES};
use blocks::Case;
use std::sync::atomic::{AtomicU64, Ordering};

/// Cases of one kind: how many, and how each is made and named.
pub struct Part<'a> {
    pub count: u64,
    pub case: Box<dyn Fn(u64) -> Case + Sync + 'a>,
    pub name: Box<dyn Fn(u64) -> String + Sync + 'a>,
}

/// Differences that are kept to be shown; the others are only counted.
pub const SHOWN: usize = 20;

/// What came of a run.
#[derive(Default)]
pub struct Outcome {
    pub cases: u64,
    /// Cases by the number that the oracle refuses their readings with, 0 for a list.
    pub numbers: [u64; 8],
    pub questions: [Differences; NAMES.len()],
}

/// The differences of one question: how many, and the first of them by their places among all cases.
#[derive(Default)]
pub struct Differences {
    pub count: u64,
    pub first: Vec<u64>,
}

impl Outcome {
    pub fn count(&self) -> u64 {
        self.questions.iter().map(|question| question.count).sum()
    }

    /// Takes in one case.
    pub fn add(&mut self, place: u64, compared: &Compared) {
        self.cases += 1;
        self.numbers[number(&compared.oracle[2])] += 1;
        for k in compared.differences() {
            let question = &mut self.questions[k];
            question.count += 1;
            if question.first.len() < SHOWN {
                question.first.push(place);
            }
        }
    }

    fn join(&mut self, other: Outcome) {
        self.cases += other.cases;
        self.numbers.iter_mut().zip(other.numbers).for_each(|(all, more)| *all += more);
        for (all, more) in self.questions.iter_mut().zip(other.questions) {
            all.count += more.count;
            all.first.extend(more.first);
            all.first.sort();
            all.first.truncate(SHOWN);
        }
    }
}

/// The number in `(refused N ..`, or 0.
fn number(text: &str) -> usize {
    let digit = text.strip_prefix("(refused ").and_then(|rest| rest.chars().next());
    digit.and_then(|digit| digit.to_digit(10)).map_or(0, |number| number as usize)
}

/// The part in which a place lies, and the case's index there.
pub fn part<'p, 'a>(parts: &'p [Part<'a>], place: u64) -> (&'p Part<'a>, u64) {
    let mut index = place;
    for part in parts {
        if index < part.count {
            return (part, index);
        }
        index -= part.count;
    }
    panic!("place {place} lies past all cases")
}

/// Cases that a thread takes at one go.
const TAKEN: u64 = 64;

/// Puts every case of the parts to all sides.
pub fn run(parts: &[Part], threads: u64) -> Outcome {
    let all = parts.iter().map(|part| part.count).sum();
    let next = AtomicU64::new(0);
    let work = || {
        let mut outcome = Outcome::default();
        loop {
            let from = next.fetch_add(TAKEN, Ordering::Relaxed);
            if from >= all {
                return outcome;
            }
            for place in from..all.min(from + TAKEN) {
                let (part, index) = part(parts, place);
                outcome.add(place, &Compared::of(&exact((part.case)(index))));
            }
        }
    };
    std::thread::scope(|scope| {
        let running: Vec<_> = (0..threads.max(1)).map(|_| scope.spawn(work)).collect();
        running.into_iter().fold(Outcome::default(), |mut outcome, thread| {
            outcome.join(thread.join().expect("a thread of the comparison ended early"));
            outcome
        })
    })
}

/// The case in memory of its exact size, so that a tool which watches memory sees a byte read past it.
fn exact(mut case: Case) -> Case {
    case.word.shrink_to_fit();
    case.sheet.shrink_to_fit();
    case
}
