//! Puts the same texts to the port and to the source's `tokenize`.
//!
//!     compare-tokens --seed S --count N [--every 1] [--words FILE].. [--threads T]
//!
//! N texts of the seed; with --every 1, each character of Unicode between two letters; each file as texts of up to 65,536 bytes, cut
//! at any byte, one after the other. Prints the count and the differences; exits 1 if there is any.

use cases::running::{self, EVERY};
use compare::options;
use compare::tokens::Compared;
use std::sync::atomic::{AtomicU64, Ordering};
use std::time::Instant;

/// Differences that are shown in full.
const SHOWN: u64 = 20;

/// Texts that a thread takes at one go.
const TAKEN: u64 = 64;

fn main() {
    let cores = std::thread::available_parallelism().map_or(1, |cores| cores.get() as u64);
    let ([seed, count, every, threads], files) =
        options::read("compare-tokens", [("--seed", 1), ("--count", 100_000), ("--every", 0), ("--threads", cores)]);
    let every = if every == 0 { 0 } else { EVERY };
    let files: Vec<Vec<u8>> = files.iter().map(|path| read(path)).collect();
    let pieces: Vec<&[u8]> = files.iter().flat_map(|file| pieces(file)).collect();
    let all = count + every + pieces.len() as u64;

    let next = AtomicU64::new(0);
    let [listed, long, other, differences] = [const { AtomicU64::new(0) }; 4];
    let work = || {
        loop {
            let from = next.fetch_add(TAKEN, Ordering::Relaxed);
            if from >= all {
                return;
            }
            for place in from..all.min(from + TAKEN) {
                let (text, name) = match place {
                    _ if place < count => (running::text(seed, place), running::class_of(place).name),
                    _ if place < count + every => (running::every(place - count), "every character"),
                    _ => (pieces[(place - count - every) as usize].to_vec(), "a file"),
                };
                // In memory of its exact size, so that a tool which watches memory sees a byte read past it.
                let compared = Compared::of(&text.into_boxed_slice());
                let number = match &compared.oracle[..] {
                    "(refused 9)" => &long,
                    "(refused 2)" => &other,
                    _ => &listed,
                };
                number.fetch_add(1, Ordering::Relaxed);
                if compared.differs() && differences.fetch_add(1, Ordering::Relaxed) < SHOWN {
                    println!("text {place} of seed {seed}, {name}, differs");
                    println!("  oracle   {}", compared.oracle.escape_debug());
                    println!("  function {}", compared.function.escape_debug());
                    println!("  crate    {}", compared.api.escape_debug());
                }
            }
        }
    };
    let start = Instant::now();
    std::thread::scope(|scope| (0..threads.max(1)).for_each(|_| drop(scope.spawn(work))));
    let [listed, long, other, differences] = [listed, long, other, differences].map(AtomicU64::into_inner);
    println!("{listed} texts have a list; refused are {long} with 9, {other} with 2");
    let seconds = start.elapsed().as_secs_f64();
    println!("{all} texts, seed {seed}, {threads} threads, {seconds:.0} s; {differences} differences");
    std::process::exit(i32::from(differences > 0));
}

fn read(path: &str) -> Vec<u8> {
    std::fs::read(path).unwrap_or_else(|error| options::refuse("compare-tokens", &format!("{path}: {error}")))
}

/// The file as texts of 1,000 to 65,536 bytes.
fn pieces(file: &[u8]) -> Vec<&[u8]> {
    let mut left = file;
    let mut pieces = Vec::new();
    for size in [1_000, 65_536, 4_096, 20_000, 65_535].into_iter().cycle() {
        if left.is_empty() {
            break;
        }
        let (piece, rest) = left.split_at(size.min(left.len()));
        pieces.push(piece);
        left = rest;
    }
    pieces
}
