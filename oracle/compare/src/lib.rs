//! The port beside the oracle. Three sides answer the same questions as text, so that differences can be shown as they are: the
//! oracle, the library's functions with their buffers, and the crate over them.

pub mod api;
mod buffers;
pub mod edits;
pub mod files;
pub mod functions;
pub mod options;
pub mod oracle;
pub mod references;
pub mod rescue;
pub mod run;
mod texts;
pub mod timing;
pub mod tokens;
pub mod words;

/// The library's functions, under the name that the benchmark knows them by.
pub use yunthirel::raw as port;

use blocks::Case;
use functions::LIBRARY;

/// What is asked, in the order of an answer's texts.
pub const NAMES: [&str; 15] = [
    "check_word",
    "check_sheet",
    "readings",
    "listing",
    "best_analysis",
    "has_analysis",
    "candidates",
    "best_root",
    "has_known_root",
    "decomposition",
    "progressive",
    "has_progressive",
    "origin",
    "classify",
    "visits",
];

/// The answers to all questions.
pub type Answers = [String; NAMES.len()];

/// All three sides' answers for a case.
pub struct Compared {
    pub oracle: Answers,
    pub functions: Answers,
    pub api: Answers,
}

impl Compared {
    pub fn of(case: &Case) -> Compared {
        Compared {
            oracle: oracle::answers(case),
            functions: functions::answers(&LIBRARY, case),
            api: api::answers(case),
        }
    }

    /// The questions that one of the library's two sides answers otherwise than the oracle.
    pub fn differences(&self) -> Vec<usize> {
        (0..NAMES.len()).filter(|&k| self.functions[k] != self.oracle[k] || self.api[k] != self.oracle[k]).collect()
    }
}

/// One question by itself, for tests and the benchmark.
pub struct Question {
    pub name: &'static str,
    pub oracle: fn(&Case) -> String,
    pub port: fn(&Case) -> String,
}

impl Question {
    const fn at<const K: usize>() -> Question {
        Question {
            name: NAMES[K],
            oracle: |case| oracle::answers(case)[K].clone(),
            port: |case| functions::answers(&LIBRARY, case)[K].clone(),
        }
    }
}

pub const QUESTIONS: &[Question] = &[
    Question::at::<0>(),
    Question::at::<1>(),
    Question::at::<2>(),
    Question::at::<3>(),
    Question::at::<4>(),
    Question::at::<5>(),
    Question::at::<6>(),
    Question::at::<7>(),
    Question::at::<8>(),
    Question::at::<9>(),
    Question::at::<10>(),
    Question::at::<11>(),
    Question::at::<12>(),
    Question::at::<13>(),
    Question::at::<14>(),
];
