//! Prints the words of a text.
//!
//!     cargo run --example tokens -- TEXT

use std::os::unix::ffi::OsStringExt;

fn main() {
    let text = std::env::args_os().nth(1).unwrap_or_default().into_vec();
    match yunthirel::tokenize(&text) {
        Ok(tokens) => tokens.iter().for_each(|token| println!("{} to {}: {}", token.start, token.end, token.text)),
        Err(refusal) => {
            println!("{refusal}");
            std::process::exit(1);
        }
    }
}
