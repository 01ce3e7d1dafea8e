//! Document 01's program `readings`, answered by the Rust: for trying a word by hand.

use std::io::{self, Read, Write};

fn main() -> io::Result<()> {
    let mut input = Vec::new();
    io::stdin().lock().read_to_end(&mut input)?;
    io::stdout().lock().write_all(&answers::readings_program(&input))
}
