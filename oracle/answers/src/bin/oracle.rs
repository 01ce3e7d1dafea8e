//! Reads cases from standard input and writes an answer for each.
//!
//!     oracle               every answer, each after its count of bytes
//!     oracle --acceptance  one line a case: 0, N or N START

use std::io::{self, BufReader, BufWriter, Write};

fn main() -> io::Result<()> {
    let acceptance_only = match std::env::args().nth(1).as_deref() {
        None => false,
        Some("--acceptance") => true,
        Some(other) => {
            eprintln!("oracle: unknown option {other}");
            std::process::exit(2);
        }
    };
    let mut input = BufReader::new(io::stdin().lock());
    let mut out = BufWriter::new(io::stdout().lock());
    while let Some(case) = blocks::read_case(&mut input)? {
        if acceptance_only {
            writeln!(out, "{}", answers::acceptance_line(&case.word, &case.sheet))?;
        } else {
            blocks::write_answer(&mut out, &answers::answer(&case.word, &case.sheet))?;
        }
    }
    out.flush()
}
