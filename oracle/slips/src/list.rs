//! Every slip that is planted.

mod acceptance;
mod origin;
mod progressive;
mod rank;
mod readings;
mod roots;
mod sheet;

use crate::slip::Slip;

const MORPHOLOGY: &str = "docs/src/crates/shabda/src/morphology.rs";
const PROGRESSIVE: &str = "docs/src/crates/shabda/src/progressive.rs";
const ORIGIN: &str = "docs/src/crates/shabda/src/origin.rs";
const TABLES: &str = "docs/src/crates/shabda/src/tables.rs";

/// The slips of each area, by its name.
pub fn areas() -> [(&'static str, Vec<Slip>); 7] {
    [
        ("readings", readings::slips()),
        ("rank", rank::slips()),
        ("roots", roots::slips()),
        ("progressive", progressive::slips()),
        ("origin", origin::slips()),
        ("sheet", sheet::slips()),
        ("acceptance", acceptance::slips()),
    ]
}

#[cfg(test)]
mod tests {
    use std::collections::BTreeSet;
    use std::path::Path;

    #[test]
    fn every_old_text_stands_exactly_once_and_no_name_comes_twice() {
        let root = Path::new(env!("CARGO_MANIFEST_DIR")).join("../..");
        for (area, slips) in super::areas() {
            let names: BTreeSet<&str> = slips.iter().map(|slip| slip.name).collect();
            assert_eq!(names.len(), slips.len(), "a name of {area} comes twice");
            for slip in slips {
                slip.edited(&root).expect("the files are there");
            }
        }
    }
}
