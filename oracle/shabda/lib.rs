//! The Rust of docs/src, compiled as build.rs lays it out. Its crate root is not among the files
//! delivered; these are the names that its modules take from there and that a caller needs.

include!(concat!(env!("OUT_DIR"), "/modules.rs"));

pub use morphology::*;
pub use origin::*;
pub use progressive::*;
