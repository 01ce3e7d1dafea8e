//! The oracle with the feature `iterative-decompose` on: reads cases, writes every answer.

use std::io::{self, BufReader, BufWriter, Write};

fn main() -> io::Result<()> {
    let mut input = BufReader::new(io::stdin().lock());
    let mut out = BufWriter::new(io::stdout().lock());
    while let Some(case) = blocks::read_case(&mut input)? {
        let answer = answers_iterative::answer(&case.word, &case.sheet);
        blocks::write_answer(&mut out, &answer)?;
    }
    out.flush()
}
