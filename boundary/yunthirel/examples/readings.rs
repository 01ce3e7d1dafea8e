//! Prints what the library says of a word and a sheet, as boundary/example.c does.
//!
//!     cargo run --example readings -- WORD SHEET-FILE
//!
//! Ends with status 0 where the word and the sheet are accepted, 1 where they are refused, and 2 where the sheet can't be read.

use std::os::unix::ffi::OsStringExt;
use std::process::ExitCode;
use yunthirel::{Origin, Refusal};

fn main() -> ExitCode {
    let mut args = std::env::args_os().skip(1);
    let (Some(word), Some(path), None) = (args.next(), args.next(), args.next()) else {
        eprintln!("usage: readings WORD SHEET-FILE");
        return ExitCode::from(2);
    };
    let sheet = match std::fs::read(&path) {
        Ok(sheet) => sheet,
        Err(error) => {
            eprintln!("{}: {error}", path.display());
            return ExitCode::from(2);
        }
    };
    let word = word.into_vec();
    println!("{}", String::from_utf8_lossy(&word));
    print_readings(&word, &sheet);
    print_candidates(&word, &sheet);
    print_decomposition(&word, &sheet);
    print_progressive(&word, &sheet);
    print_origin(&word, &sheet);
    let accepted = yunthirel::check_word(&word).and(yunthirel::check_sheet(&sheet));
    if accepted.is_ok() { ExitCode::SUCCESS } else { ExitCode::FAILURE }
}

fn print_readings(word: &[u8], sheet: &[u8]) {
    let readings = match yunthirel::analyze_affixes(word, sheet) {
        Ok(readings) => readings,
        Err(refusal) => return print_refusal("readings", refusal),
    };
    println!("readings: {}", readings.len());
    for reading in readings {
        print!("  {} stem {} root {}", reading.score, reading.stem, reading.root);
        reading.prefixes.iter().for_each(|label| print!(", prefix {label}"));
        reading.suffix_segments.iter().for_each(|segment| {
            let shared = if segment.shared { " shared" } else { "" };
            print!(", {} {}{shared}", segment.kind.as_str(), segment.text)
        });
        println!(", {}, {}, {:.2}", name(reading.origin), reading.source.as_str(), reading.confidence);
    }
}

fn print_candidates(word: &[u8], sheet: &[u8]) {
    let candidates = match yunthirel::lookup_root_candidates(word, sheet) {
        Ok(candidates) => candidates,
        Err(refusal) => return print_refusal("candidates", refusal),
    };
    println!("candidates: {}", candidates.len());
    for candidate in candidates {
        let w = if candidate.known_word { "w" } else { "" };
        let h = if candidate.known_headword { "h" } else { "" };
        print!("  {} {w}{h}", candidate.score);
        print_root(candidate.root, candidate.origin, &candidate.prefixes, &candidate.suffixes);
    }
}

fn print_decomposition(word: &[u8], sheet: &[u8]) {
    match yunthirel::decompose(word, sheet) {
        Ok(found) => {
            print!("decomposition:");
            print_root(found.root, found.origin, &found.prefixes, &found.suffixes);
        }
        Err(refusal) => print_refusal("decomposition", refusal),
    }
}

fn print_root(root: &str, origin: Origin, prefixes: &[&str], suffixes: &[&str]) {
    print!(" {root}, {}", name(origin));
    prefixes.iter().for_each(|label| print!(", prefix {label}"));
    suffixes.iter().for_each(|label| print!(", suffix {label}"));
    println!();
}

fn print_progressive(word: &[u8], sheet: &[u8]) {
    match yunthirel::analyze_progressive(word, sheet) {
        Ok(None) => println!("progressive form: none"),
        Ok(Some(found)) => {
            let sign = if found.negative { ", negative" } else { "" };
            let (main, lemma, auxiliary) = (found.main_form, found.main_lemma, found.auxiliary_form);
            println!("progressive form: {main} of {lemma}, auxiliary {auxiliary}{sign}");
        }
        Err(refusal) => print_refusal("progressive form", refusal),
    }
}

fn print_origin(word: &[u8], sheet: &[u8]) {
    match yunthirel::classify_with_provenance(word, sheet) {
        Ok(found) => {
            println!("origin: {}, {}, {:.2}", name(found.origin), found.source.as_str(), found.confidence);
        }
        Err(refusal) => print_refusal("origin", refusal),
    }
}

fn print_refusal(what: &str, refusal: Refusal) {
    print!("{what}: refused {}", refusal.number());
    if let Some(start) = refusal.start() {
        print!(", line at byte {start}");
    }
    println!();
}

fn name(origin: Origin) -> &'static str {
    match origin {
        Origin::Tatsam => "tatsam",
        Origin::Tadbhav => "tadbhav",
        Origin::Deshaj => "deshaj",
        Origin::Aagantuk => "aagantuk",
    }
}
