//! Plants each slip in a copy of the source, builds the copy, and counts the generated cases that
//! tell it from the true one. Cases are asked 4,000 at a time, until some of them do.
//!
//!     slips --seed S --count N [--only TEXT]
//!
//! `--only` takes the slips whose "area: name" holds the text.
//! Exits 1 if a slip that is not equivalent stays unseen.

mod copy;
mod list;
mod slip;

use blocks::Case;
use copy::Copy;
use slip::Slip;
use std::io::{self, BufReader};

fn main() -> io::Result<()> {
    let options = Options::read();
    let cases: Vec<Case> = (0..options.count).map(|index| cases::case(options.seed, index)).collect();
    let answers: Vec<Vec<u8>> = cases.iter().map(|case| answers::answer(&case.word, &case.sheet)).collect();
    let copy = Copy::make()?;

    let mut sums = Sums::default();
    println!("{:>7} {:>7}  {:24} slip", "differ", "asked", "first class");
    for (area, slips) in list::areas() {
        let mut of_area = Sums::default();
        for slip in slips.iter().filter(|slip| format!("{area}: {}", slip.name).contains(&options.only)) {
            copy.build(slip)?;
            let (found, asked) = search(&copy, &cases, &answers)?;
            let first = found.first().map_or("-", |&index| cases::class_of(index as u64).name);
            println!("{:7} {asked:7}  {first:24} {area}: {}", found.len(), slip.name);
            of_area.count(slip, !found.is_empty());
        }
        println!("{area}: {of_area}");
        sums.add(&of_area);
    }
    println!("{} cases of seed {}: {sums}", options.count, options.seed);
    std::process::exit(i32::from(sums.caught != sums.planted));
}

#[derive(Default)]
struct Sums {
    planted: usize,
    caught: usize,
    /// Named as equivalent, and not caught.
    equivalent: usize,
}

impl Sums {
    fn count(&mut self, slip: &Slip, caught: bool) {
        if slip.equivalent.is_some() && !caught {
            self.equivalent += 1;
        } else {
            self.planted += 1;
            self.caught += usize::from(caught);
        }
    }

    fn add(&mut self, more: &Sums) {
        self.planted += more.planted;
        self.caught += more.caught;
        self.equivalent += more.equivalent;
    }
}

impl std::fmt::Display for Sums {
    fn fmt(&self, f: &mut std::fmt::Formatter) -> std::fmt::Result {
        write!(f, "caught {} of {}, and {} equivalent", self.caught, self.planted, self.equivalent)
    }
}

/// Cases asked at a time.
const PART: usize = 4_000;

/// Indices of the cases whose answers differ, up to the end of the first part that has any, and
/// how many cases were asked. A copy that stops early differs from there on.
fn search(copy: &Copy, cases: &[Case], answers: &[Vec<u8>]) -> io::Result<(Vec<usize>, usize)> {
    let mut found = Vec::new();
    let mut asked = 0;
    for (cases, answers) in cases.chunks(PART).zip(answers.chunks(PART)) {
        let output = copy.answers(cases)?;
        let mut input = BufReader::new(&output[..]);
        for (index, answer) in answers.iter().enumerate() {
            if blocks::read_answer(&mut input).ok().flatten().as_ref() != Some(answer) {
                found.push(asked + index);
            }
        }
        asked += cases.len();
        if !found.is_empty() {
            break;
        }
    }
    Ok((found, asked))
}

struct Options {
    seed: u64,
    count: u64,
    only: String,
}

impl Options {
    fn read() -> Self {
        let mut options = Options { seed: 1, count: 20_000, only: String::new() };
        let mut args = std::env::args().skip(1);
        while let Some(arg) = args.next() {
            let value = args.next().unwrap_or_else(|| refuse(&format!("{arg} wants a value")));
            match arg.as_str() {
                "--seed" => options.seed = value.parse().unwrap_or_else(|_| refuse("a number is wanted")),
                "--count" => options.count = value.parse().unwrap_or_else(|_| refuse("a number is wanted")),
                "--only" => options.only = value,
                _ => refuse(&format!("unknown option {arg}")),
            }
        }
        options
    }
}

fn refuse(message: &str) -> ! {
    eprintln!("slips: {message}");
    std::process::exit(2)
}
