//! Stands in for the source's crate of shared types, of which only `Origin` is used here.

#[derive(Debug, Clone, Copy, PartialEq, Eq, Hash)]
pub enum Origin {
    Tatsam,
    Tadbhav,
    Deshaj,
    Aagantuk,
}
