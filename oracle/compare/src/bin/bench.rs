//! Times the port beside the Rust, on the same words and sheets in one run. Ratios count; microseconds are shown so that a reader
//! sees what a ratio is made of.
//!
//!     bench [--words FILE]... [--sample N] [--rounds N]
//!
//! A file is a hunspell dictionary or any list of words, one a line; of each, N words are taken, evenly spread. Without a file the
//! words of `words.rs` are. A dash stands where a sheet is empty, so that no call is refused at its last line.

use compare::files::{Fill, Words};
use compare::timing::{Answer, OTHERS, READINGS, Times, times};
use compare::words::WORDS;
use compare::{Compared, options};
use std::collections::BTreeSet;
use std::hint::black_box;
use std::time::Instant;

const SEED: u64 = 1;

fn main() {
    let ([sample, rounds], files) = options::read("bench", [("--sample", 200), ("--rounds", 60)]);
    for (name, number) in [("--sample", sample), ("--rounds", rounds)] {
        if number == 0 {
            options::refuse("bench", &format!("{name} wants 1 or more"));
        }
    }
    let (sample, rounds) = (sample as usize, rounds as usize);
    checks(rounds);
    head("running text");
    let text: Vec<&str> = WORDS.to_vec();
    lists(&text, &Words::of(bytes(&text), SEED), rounds);
    for path in &files {
        let list = std::fs::read_to_string(path).unwrap_or_else(|error| panic!("{path}: {error}"));
        let all = dictionary(&list);
        if all.is_empty() {
            options::refuse("bench", &format!("{path} has no word that is accepted"));
        }
        let words: Vec<&str> = all.iter().copied().step_by((all.len() / sample).max(1)).collect();
        let lexicon = Words::of(bytes(&all), SEED);
        head(&format!("{} of the {} words of {path}", words.len(), all.len()));
        lists(&words, &lexicon, rounds);
        others(&words, &lexicon, rounds);
        by_length(&all, &lexicon, sample, rounds);
        by_sheet(&words, &lexicon, rounds);
    }
    heavy(rounds);
    longest(rounds);
    tokens(rounds);
    edits(rounds);
}

fn bytes(words: &[&str]) -> Vec<Vec<u8>> {
    words.iter().map(|word| word.as_bytes().to_vec()).collect()
}

/// The words of a list: what stands before a dictionary's flags, if it is accepted. A dictionary's first line is a count.
fn dictionary(list: &str) -> Vec<&str> {
    let words = list.lines().map(|line| line.split(['/', '\t']).next().unwrap_or_default());
    let accepted = |word: &&str| {
        !word.is_empty()
            && acceptance::check_word(word.as_bytes()).is_ok()
            && !word.bytes().all(|byte| byte.is_ascii_digit())
    };
    words.filter(accepted).collect::<BTreeSet<_>>().into_iter().collect()
}

fn head(name: &str) {
    println!("\n{name}");
    println!(
        "{:>30} {:>9} {:>9} {:>9} {:>9} {:>10} {:>12} {:>9}",
        "", "Rust, us", "call, us", "check, us", "ref., us", "Rust/port", "Rust/asking", "all/check"
    );
}

fn show(name: &str, times: Times, count: usize) {
    let each = |sum: f64| sum / count as f64;
    println!(
        "{name:>30} {:9.2} {:9.2} {:9.2} {:>9} {:10.1} {:>12} {:9.2}",
        each(times.rust),
        each(times.call),
        each(times.check),
        or_dash(times.refused.map(each), 2),
        times.ratio(),
        or_dash(times.asking(), 1),
        times.call / times.check
    );
}

fn or_dash(number: Option<f64>, places: usize) -> String {
    number.map_or("-".to_string(), |number| format!("{number:.places$}"))
}

/// One row: the sums over words, each with its sheet. All answers of the two sides are the same before any is timed.
fn row(name: &str, answer: &Answer, words: &[&str], sheet_of: impl Fn(&str) -> Vec<u8>, rounds: usize) {
    let mut sum = Times::ZERO;
    for word in words {
        let sheet = sheet_of(word);
        let case = blocks::Case { word: word.as_bytes().to_vec(), sheet };
        let differences = Compared::of(&case).differences();
        assert!(differences.is_empty(), "{word}: other answers than the Rust's to {differences:?}");
        sum.add(times(answer, word, &case.sheet, rounds));
    }
    show(name, sum, words.len());
}

/// Readings on the lines that answer the word's own questions, and on a full sheet.
fn lists(words: &[&str], lexicon: &Words, rounds: usize) {
    row("readings, own sheets", &READINGS, words, |word| lexicon.sheet(word, Fill::Own), rounds);
    row(
        "readings, full sheets",
        &READINGS,
        words,
        |word| lexicon.sheet(word, Fill::UpTo(acceptance::SHEET_LIMIT)),
        rounds,
    );
}

fn others(words: &[&str], lexicon: &Words, rounds: usize) {
    for answer in &OTHERS {
        row(&format!("{}, own sheets", answer.name), answer, words, |word| lexicon.sheet(word, Fill::Own), rounds);
    }
}

/// How the cost grows with the word: readings on own sheets by the number of characters.
fn by_length(all: &[&str], lexicon: &Words, sample: usize, rounds: usize) {
    for (from, to) in [(1, 4), (5, 7), (8, 10), (11, 14), (15, 192)] {
        let words: Vec<&str> = all.iter().copied().filter(|word| (from..=to).contains(&word.chars().count())).collect();
        if words.is_empty() {
            continue;
        }
        let words: Vec<&str> = words.iter().copied().step_by((words.len() * 4 / sample).max(1)).collect();
        let name = format!("{from} to {to} characters");
        row(&name, &READINGS, &words, |word| lexicon.sheet(word, Fill::Own), rounds);
    }
}

/// How the cost grows with the sheet: the same words' readings on sheets that are filled up to so many bytes.
fn by_sheet(words: &[&str], lexicon: &Words, rounds: usize) {
    let some: Vec<&str> = words.iter().copied().step_by(4).collect();
    for limit in [1_024, 4_096, 16_384, 65_536] {
        let name = format!("sheets of {limit} bytes");
        row(&name, &READINGS, &some, |word| lexicon.sheet(word, Fill::UpTo(limit)), rounds);
    }
}

/// Words with many readings, every run of their characters known by w.
fn heavy(rounds: usize) {
    head("heavy words, every run known");
    for word in ["अपरिचितहरूलाई", "निःनिःघरकोकोकोको", "निःनिःघरहरूकोमालेक्यारे"]
    {
        let lexicon = Words::known(runs(word), SEED);
        row(word, &READINGS, &[word], |word| lexicon.sheet(word, Fill::Own), rounds);
        row(
            "  on a full sheet",
            &READINGS,
            &[word],
            |word| lexicon.sheet(word, Fill::UpTo(acceptance::SHEET_LIMIT)),
            rounds,
        );
    }
}

/// A word of 192 bytes, and shorter ones of the same kind: suffixes that strip four deep behind a long root.
fn longest(rounds: usize) {
    head("longer and longer words, root known");
    for syllables in [1, 4, 16, 56] {
        let root = "क".repeat(syllables);
        let word = format!("{root}हरूकोमालेक्यारे");
        let word = if word.len() > 192 { format!("{root}कोले") } else { word };
        let sheet = format!("(w {root} (wh))\n").into_bytes();
        row(&format!("{} bytes", word.len()), &READINGS, &[&word], |_| sheet.clone(), rounds);
    }
}

/// Every run of the word's characters.
fn runs(word: &str) -> Vec<&str> {
    let places: Vec<usize> = word.char_indices().map(|(at, _)| at).chain([word.len()]).collect();
    let ends = |(i, &from): (usize, &usize)| places[i + 1..].iter().map(move |&to| &word[from..to]).collect::<Vec<_>>();
    places.iter().enumerate().flat_map(ends).collect()
}

/// The check of a sheet against `std::str::from_utf8` on the same bytes.
fn checks(rounds: usize) {
    println!("{:>8} {:>7} {:>12} {:>12} {:>7}", "bytes", "lines", "check, us", "utf8, us", "ratio");
    for limit in [256, 4_096, 16_384, 32_768, acceptance::SHEET_LIMIT] {
        let sheet = Words::of(Vec::new(), SEED).sheet("", Fill::UpTo(limit));
        assert_eq!(yunthirel::raw::check_sheet(&sheet), 0, "the port refuses a good sheet");
        // A round takes about as long for a small sheet as for a large one.
        let turns = (400_000 / sheet.len()).max(1);
        let (mut check, mut utf8) = (f64::MAX, f64::MAX);
        for _ in 0..rounds {
            check = check.min(time(turns, || {
                black_box(yunthirel::raw::check_sheet(black_box(&sheet)));
            }));
            utf8 = utf8.min(time(turns, || {
                let _ = black_box(std::str::from_utf8(black_box(&sheet)));
            }));
        }
        let lines = sheet.iter().filter(|&&byte| byte == b'\n').count();
        println!("{:8} {lines:7} {check:12.2} {utf8:12.2} {:7.2}", sheet.len(), check / utf8);
    }
}

/// Microseconds of a turn.
fn time(turns: usize, turn: impl Fn()) -> f64 {
    let start = Instant::now();
    (0..turns).for_each(|_| turn());
    start.elapsed().as_secs_f64() * 1e6 / turns as f64
}

/// Words out of running text: the library's call, and the crate's with its parts of the text, beside the source's.
fn tokens(rounds: usize) {
    println!(
        "\n{:>30} {:>9} {:>9} {:>9} {:>10} {:>10}",
        "tokens", "Rust, us", "call, us", "crate, us", "Rust/call", "Rust/crate"
    );
    let prose = |limit| ("running text", cases::running::prose_of(limit));
    let texts = [
        prose(400),
        prose(4_000),
        prose(65_536),
        ("one word", "क".repeat(65_536 / 3)),
        ("shortest tokens", "क,".repeat(65_536 / 4)),
        ("ASCII", "word and word, ".repeat(65_536 / 15)),
    ];
    for (name, text) in &texts {
        let compared = compare::tokens::Compared::of(text.as_bytes());
        assert!(!compared.differs(), "other tokens than the Rust's");
        let turns = (200_000 / text.len()).max(1);
        let mut list = vec![0; yunthirel::raw::TOKENS_ROOM];
        let (mut rust, mut call, mut api) = (f64::MAX, f64::MAX, f64::MAX);
        for _ in 0..rounds {
            rust = rust.min(time(turns, || {
                black_box(parikshak::tokenize(black_box(text)));
            }));
            let start = Instant::now();
            for _ in 0..turns {
                black_box(yunthirel::raw::tokens(black_box(text.as_bytes()), &mut list));
            }
            call = call.min(start.elapsed().as_secs_f64() * 1e6 / turns as f64);
            api = api.min(time(turns, || {
                let _ = black_box(yunthirel::tokenize(black_box(text.as_bytes())));
            }));
        }
        let name = format!("{name} {} bytes", text.len());
        println!("{name:>30} {rust:9.2} {call:9.2} {api:9.2} {:10.1} {:10.1}", rust / call, rust / api);
    }
}

/// Edits beside the check of the same sheet: a line at its front, in its middle or at its end is withdrawn and put back. The first
/// of them moves all other bytes of the sheet.
fn edits(rounds: usize) {
    println!(
        "\n{:>30} {:>9} {:>12} {:>9} {:>9} {:>11}",
        "edits", "bytes", "withdraw, us", "put, us", "check, us", "edit/check"
    );
    for limit in [256, 4_096, 16_384, acceptance::SHEET_LIMIT] {
        let full = Words::of(Vec::new(), SEED).sheet("", Fill::UpTo(limit));
        let lines: Vec<&[u8]> = full.split_inclusive(|&byte| byte == b'\n').collect();
        for (name, place) in [("first line", 0), ("middle line", lines.len() / 2), ("last line", lines.len() - 1)] {
            let line = lines[place];
            let mut buffer = full.clone();
            let turns = (400_000 / full.len()).max(1);
            let (mut withdraw, mut put, mut check) = (f64::MAX, f64::MAX, f64::MAX);
            for _ in 0..rounds {
                let (mut gone, mut back) = (0.0, 0.0);
                for _ in 0..turns {
                    let start = Instant::now();
                    let length = yunthirel::raw::withdraw_line(black_box(&mut buffer), full.len(), line);
                    gone += start.elapsed().as_secs_f64();
                    assert_eq!(length, ((full.len() - line.len()) as u64) << 8);
                    let start = Instant::now();
                    let length = yunthirel::raw::put_line(black_box(&mut buffer), full.len() - line.len(), line);
                    back += start.elapsed().as_secs_f64();
                    assert_eq!(length, (full.len() as u64) << 8);
                }
                withdraw = withdraw.min(gone * 1e6 / turns as f64);
                put = put.min(back * 1e6 / turns as f64);
                check = check.min(time(turns, || {
                    black_box(yunthirel::raw::check_sheet(black_box(&full)));
                }));
            }
            assert_eq!(buffer, full, "a line that was withdrawn and put back");
            let ratio = withdraw.max(put) / check;
            println!("{name:>30} {:9} {withdraw:12.2} {put:9.2} {check:9.2} {ratio:11.2}", full.len());
        }
    }
}
