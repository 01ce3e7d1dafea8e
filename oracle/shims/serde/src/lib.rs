//! Stands in for serde: the source derives `Serialize` on one struct and never serialises it.

use proc_macro::TokenStream;

#[proc_macro_derive(Serialize)]
pub fn serialize(_item: TokenStream) -> TokenStream {
    TokenStream::new()
}
