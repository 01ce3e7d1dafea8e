//! Puts the same cases to the port and to the oracle.
//!
//!     compare --seed S --count N [--words FILE]... [--threads T]
//!
//! The cases written out one by one come first, then N of the seed, then the words of `words.rs` and of each file, one a line,
//! each with a sheet for its own questions and with a full one. Prints the count and the differences; exits 1 if there is any.

use blocks::Case;
use compare::files::Words;
use compare::run::{Outcome, Part, SHOWN, part, run};
use compare::words::WORDS;
use compare::{Compared, NAMES, options};
use std::time::Instant;

fn main() {
    let cores = std::thread::available_parallelism().map_or(1, |cores| cores.get() as u64);
    let ([seed, count, threads], files) =
        options::read("compare", [("--seed", 1), ("--count", 100_000), ("--threads", cores)]);
    let written = cases::limits::cases();
    let own = Words::of(WORDS.iter().map(|word| word.as_bytes().to_vec()).collect(), seed);
    let lists: Vec<(&str, Words)> = files.iter().map(|path| (path.as_str(), read(path, seed))).collect();

    let mut parts = vec![
        Part {
            count: written.len() as u64,
            case: Box::new(|index| written[index as usize].clone()),
            name: Box::new(|index| format!("{index} of those written out")),
        },
        Part {
            count,
            case: Box::new(|index| cases::case(seed, index)),
            name: Box::new(|index| format!("{index} of seed {seed}, {}", cases::class_of(index).name)),
        },
    ];
    for (path, words) in [("words.rs", &own)].into_iter().chain(lists.iter().map(|(path, words)| (*path, words))) {
        parts.push(Part {
            count: words.count(),
            case: Box::new(|index| words.case(index)),
            name: Box::new(move |index| format!("{index} of {path} with seed {seed}")),
        });
    }

    let start = Instant::now();
    let outcome = run(&parts, threads);
    let seconds = start.elapsed().as_secs_f64();
    show(&parts, &outcome);
    println!(
        "{} cases, seed {seed}, {threads} threads, {seconds:.0} s; {} differences",
        outcome.cases,
        outcome.count()
    );
    std::process::exit(i32::from(outcome.count() > 0));
}

fn read(path: &str, seed: u64) -> Words {
    match std::fs::read(path) {
        Ok(bytes) => Words::of_lines(&bytes, seed),
        Err(error) => options::refuse("compare", &format!("{path}: {error}")),
    }
}

/// The differences of each question, the first of them in full, and how many cases were refused with which number.
fn show(parts: &[Part], outcome: &Outcome) {
    for (k, question) in outcome.questions.iter().enumerate() {
        for &place in question.first.iter().take(SHOWN) {
            let (part, index) = part(parts, place);
            let case = (part.case)(index);
            println!("{} differs on case {}", NAMES[k], (part.name)(index));
            show_case(&case, k);
        }
    }
    for (name, question) in NAMES.iter().zip(&outcome.questions) {
        println!("{name}: {} cases, {} differences", outcome.cases, question.count);
    }
    let [listed, refused @ ..] = outcome.numbers;
    let numbers: Vec<String> = (1..).zip(refused).map(|(number, count)| format!("{count} with {number}")).collect();
    println!("{listed} cases have a list; refused are {}", numbers.join(", "));
}

fn show_case(case: &Case, k: usize) {
    let compared = Compared::of(case);
    println!("  word      {}", shortened(&case.word));
    println!("  sheet     {}", shortened(&case.sheet));
    println!("  oracle    {}", compared.oracle[k]);
    println!("  functions {}", compared.functions[k]);
    println!("  crate     {}", compared.api[k]);
}

/// The bytes as a Rust literal; of long ones the first and the last.
fn shortened(bytes: &[u8]) -> String {
    const KEPT: usize = 600;
    if bytes.len() <= 2 * KEPT {
        return format!("b\"{}\"", bytes.escape_ascii());
    }
    let (first, last) = (&bytes[..KEPT], &bytes[bytes.len() - KEPT..]);
    format!("b\"{}\" .. b\"{}\" ({} bytes)", first.escape_ascii(), last.escape_ascii(), bytes.len())
}
