//! Lays the source of docs/src out below OUT_DIR, each file under its own path, with the patches
//! of `PATCHES` made. A patch whose old text does not stand exactly once stops the build.

use std::path::{Path, PathBuf};
use std::{env, fs};

const MODULES: &[&str] = &["tables", "relational_suffixes", "progressive", "origin", "morphology"];

struct Patch {
    module: &'static str,
    old: &'static str,
    new: &'static str,
}

/// oracle/README.md lists these with their reasons.
const PATCHES: &[Patch] = &[
    // The inventory of irregular links is the sheet's `l` lines.
    Patch {
        module: "progressive",
        old: "IRREGULAR_LINKS
        .iter()
        .find(|(form, _)| *form == linked_stem)
",
        new: "varnavinyas_kosha::link_line(linked_stem).as_ref()
",
    },
    // The inventory of relational suffixes is the sheet's `k` lines.
    Patch {
        module: "relational_suffixes",
        old: "FORMS
        .iter()
        .find_map(|&(text, kind)| (text == form).then_some(kind))
",
        new: "varnavinyas_kosha::kind_line(form).map(|kind| match kind {
        varnavinyas_kosha::KindLine::Post => AffixKind::Postposition,
        varnavinyas_kosha::KindLine::Comp => AffixKind::ComparisonMarker,
    })
",
    },
    // Visibility alone: the generator draws words from the source's own tables.
    Patch { module: "tables", old: "\nstatic ORIGIN_TABLE: ", new: "\npub static ORIGIN_TABLE: " },
    Patch { module: "origin", old: "\nconst STRIP_SUFFIXES: ", new: "\npub const STRIP_SUFFIXES: " },
];

/// Made in `shabda-visits` alone: one line in each of the two functions that walk a word, which counts an entry.
const VISITS: &[Patch] = &[
    Patch {
        module: "morphology",
        old: "    let support = base_support(current, lex);
    push_affix_analysis(
        analyses, seen, surface, stem, current, prefixes, suffixes, support,
",
        new: "    crate::count_visit();
    let support = base_support(current, lex);
    push_affix_analysis(
        analyses, seen, surface, stem, current, prefixes, suffixes, support,
",
    },
    Patch {
        module: "morphology",
        old: "    let mut prefixes = Vec::new();
    collect_prefixed_analyses(
        surface,
        current,
        current,
",
        new: "    crate::count_visit();
    let mut prefixes = Vec::new();
    collect_prefixed_analyses(
        surface,
        current,
        current,
",
    },
];

/// Inventories that the source embeds and that are not in docs/src: the header row its parser
/// asks for, and no rows, since the sheet takes their place.
const INVENTORIES: &[(&str, &str)] = &[
    ("verb_linking_forms.tsv", "linking_form\tinfinitive\tsource\treview_status\n"),
    ("relational_suffixes.tsv", "form\tkind\tsource\treview_status\n"),
];

fn main() {
    let package = PathBuf::from(env::var("CARGO_MANIFEST_DIR").unwrap());
    let out = PathBuf::from(env::var("OUT_DIR").unwrap());
    let source = package.join("../../docs/src/crates/shabda/src");
    let target = out.join("crates/shabda/src");
    fs::create_dir_all(&target).unwrap();
    lay_inventories(&out.join("data/rule_inventories"));

    let mut modules = String::new();
    for module in MODULES {
        let from = source.join(format!("{module}.rs"));
        let to = target.join(format!("{module}.rs"));
        println!("cargo:rerun-if-changed={}", from.display());
        let text = fs::read_to_string(&from).unwrap_or_else(|error| panic!("{}: {error}", from.display()));
        fs::write(&to, patched(module, text)).unwrap();
        // The parsers of the two inventories stay in the source, unused.
        modules.push_str(&format!("#[allow(dead_code, clippy::all)]\n#[path = {to:?}]\npub mod {module};\n"));
    }
    fs::write(out.join("modules.rs"), modules).unwrap();
    println!("cargo:rerun-if-changed={}", package.join("../shabda/build.rs").display());
}

fn patched(module: &str, text: String) -> String {
    let counted = env::var("CARGO_PKG_NAME").is_ok_and(|name| name == "shabda-visits");
    let visits = VISITS.iter().filter(|_| counted);
    PATCHES.iter().chain(visits).filter(|patch| patch.module == module).fold(text, |text, patch| {
        let times = text.matches(patch.old).count();
        assert_eq!(times, 1, "{module}.rs: patch {:?} stands {times} times", patch.old);
        text.replacen(patch.old, patch.new, 1)
    })
}

fn lay_inventories(folder: &Path) {
    fs::create_dir_all(folder).unwrap();
    for (name, text) in INVENTORIES {
        fs::write(folder.join(name), text).unwrap();
    }
}
