//! Stands in for the source's crate of letters, which `tokenize` never asks.

/// The text as it is.
pub fn orthographic_lookup_form(text: &str) -> String {
    text.to_string()
}
