//! The tokenizer of docs/src, compiled as it is.

#[allow(dead_code, clippy::all)]
pub mod tokenizer {
    include!("../../docs/src/crates/parikshak/src/tokenizer.rs");
}

pub use tokenizer::{Token, tokenize};
