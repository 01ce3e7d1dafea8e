//! How a call of the library is timed beside the Rust's, on the same word and sheet in one run.

use std::hint::black_box;
use std::time::Instant;

/// An answer that both sides give.
pub struct Answer {
    pub name: &'static str,
    pub rust: fn(&str),
    pub port: fn(&[u8], &[u8]),
}

pub const READINGS: Answer = Answer {
    name: "readings",
    rust: |word| {
        black_box(shabda::analyze_affixes(word));
    },
    port: |word, sheet| {
        let mut out = [0; yunthirel::raw::READINGS_ROOM];
        black_box(yunthirel::raw::readings(word, sheet, &mut out));
        black_box(&out);
    },
};

pub const OTHERS: [Answer; 4] = [
    Answer {
        name: "candidates",
        rust: |word| {
            black_box(shabda::lookup_root_candidates(word));
        },
        port: |word, sheet| {
            let mut out = [0; yunthirel::raw::CANDIDATES_ROOM];
            black_box(yunthirel::raw::candidates(word, sheet, &mut out));
            black_box(&out);
        },
    },
    Answer {
        name: "decomposition",
        rust: |word| {
            black_box(shabda::decompose(word));
        },
        port: |word, sheet| {
            let mut out = [0; yunthirel::raw::CANDIDATE_ROW];
            black_box(yunthirel::raw::decompose(word, sheet, &mut out));
            black_box(&out);
        },
    },
    Answer {
        name: "progressive form",
        rust: |word| {
            black_box(shabda::analyze_progressive(word));
        },
        port: |word, sheet| {
            black_box(yunthirel::raw::progressive(word, sheet));
        },
    },
    Answer {
        name: "origin",
        rust: |word| {
            black_box(shabda::classify_with_provenance(word));
        },
        port: |word, sheet| {
            black_box(yunthirel::raw::origin(word, sheet));
        },
    },
];

/// Microseconds, each the smallest of some rounds or a sum of such.
#[derive(Clone, Copy)]
pub struct Times {
    /// The Rust's answer. Its lexicon is in memory; nothing is checked.
    pub rust: f64,
    /// The library's whole call: word and sheet checked, and the answer.
    pub call: f64,
    /// The library's check of the sheet alone.
    pub check: f64,
    /// The same call on the same sheet without its last byte: refused at the last line, so that all is checked and nothing is asked.
    /// None where there is an empty sheet, which has no line to be refused.
    pub refused: Option<f64>,
}

impl Times {
    /// The sum of no times.
    pub const ZERO: Times = Times { rust: 0.0, call: 0.0, check: 0.0, refused: Some(0.0) };

    pub fn add(&mut self, other: Times) {
        self.rust += other.rust;
        self.call += other.call;
        self.check += other.check;
        self.refused = self.refused.zip(other.refused).map(|(sum, more)| sum + more);
    }

    /// The Rust's time against the port's, the check of the sheet counted apart.
    pub fn ratio(&self) -> f64 {
        self.rust / (self.call - self.check)
    }

    /// The same with the refused call counted apart: for large sheets, where two codes that check differ by more than a word takes.
    pub fn asking(&self) -> Option<f64> {
        self.refused.map(|refused| self.rust / (self.call - refused))
    }
}

/// The word's times on the sheet. A round makes each call twice and times the second; without a round there are no times.
pub fn times(answer: &Answer, word: &str, sheet: &[u8], rounds: usize) -> Times {
    let (_, forms) = acceptance::check(word.as_bytes(), sheet).unwrap_or_else(|refusal| panic!("{word}: {refusal}"));
    assert!(rounds > 0, "nothing is timed in 0 rounds");
    let cut = sheet.split_last().map(|(_, cut)| cut);
    let mut best = [f64::MAX; 4];
    answers::with_sheet(&forms, || {
        for _ in 0..rounds {
            least(&mut best[0], || (answer.rust)(black_box(word)));
            least(&mut best[1], || (answer.port)(black_box(word.as_bytes()), black_box(sheet)));
            least(&mut best[2], || {
                black_box(yunthirel::raw::check_sheet(black_box(sheet)));
            });
            if let Some(cut) = cut {
                least(&mut best[3], || (answer.port)(black_box(word.as_bytes()), black_box(cut)));
            }
        }
    });
    Times { rust: best[0], call: best[1], check: best[2], refused: cut.map(|_| best[3]) }
}

fn least(best: &mut f64, call: impl Fn()) {
    call();
    let start = Instant::now();
    call();
    *best = best.min(start.elapsed().as_secs_f64() * 1e6);
}
