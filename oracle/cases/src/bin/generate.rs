//! Writes seeded cases to standard output in the block format.
//!
//!     generate --seed S --count N            the cases 0 to N - 1 of the seed
//!     generate --seed S --from I --count N   the cases from I on
//!     generate --seed S --count N --stats    how many of each class, and what was accepted

use std::io::{self, BufWriter, Write};

fn main() -> io::Result<()> {
    let (mut seed, mut from, mut count, mut stats) = (1, 0, 1000, false);
    let mut args = std::env::args().skip(1);
    while let Some(arg) = args.next() {
        match arg.as_str() {
            "--seed" => seed = number(args.next()),
            "--from" => from = number(args.next()),
            "--count" => count = number(args.next()),
            "--stats" => stats = true,
            other => refuse(&format!("unknown option {other}")),
        }
    }
    let mut out = BufWriter::new(io::stdout().lock());
    if stats {
        table(&mut out, seed, count)?;
    } else {
        for index in from..from + count {
            blocks::write_case(&mut out, &cases::case(seed, index))?;
        }
    }
    out.flush()
}

/// One row a class: its cases, how many are accepted, and how many bytes they take.
fn table(out: &mut impl Write, seed: u64, count: u64) -> io::Result<()> {
    writeln!(out, "{:24} {:>9} {:>9} {:>12}", "class", "cases", "accepted", "bytes")?;
    let mut sums = (0, 0, 0);
    for class in cases::CLASSES {
        let (mut made, mut accepted, mut bytes) = (0, 0, 0);
        for index in (0..count).filter(|&index| cases::class_of(index).name == class.name) {
            let case = cases::case(seed, index);
            made += 1;
            accepted += usize::from(acceptance::check(&case.word, &case.sheet).is_ok());
            bytes += case.word.len() + case.sheet.len();
        }
        writeln!(out, "{:24} {made:9} {accepted:9} {bytes:12}", class.name)?;
        sums = (sums.0 + made, sums.1 + accepted, sums.2 + bytes);
    }
    writeln!(out, "{:24} {:9} {:9} {:12}", "all", sums.0, sums.1, sums.2)
}

fn number(text: Option<String>) -> u64 {
    text.and_then(|text| text.parse().ok()).unwrap_or_else(|| refuse("a number is wanted"))
}

fn refuse(message: &str) -> ! {
    eprintln!("generate: {message}");
    std::process::exit(2)
}
