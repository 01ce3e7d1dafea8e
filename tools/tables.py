#!/usr/bin/env python3
"""Writes the tables of crates/tables, and the labels of boundary/, from the Rust source, so that all come from one place.

    tools/tables.py [--check] [--source DIR]

Reads tables.rs and origin.rs in docs/src/crates/shabda/src (or DIR) and writes
    crates/tables/src/rows.rt       the constants: each table an array of its rows
    crates/tables/specs/Rows.antt   the same rows as lists
    boundary/yunthirel/src/labels.rs, boundary/yunthirel_labels.h
                                    the texts of the rows that the exported functions name by number, for Rust and C
Rows keep the source's order. --check writes nothing, and exits 1 where a file differs from what would be written.
"""
import argparse
import pathlib
import re
import sys

ROOT = pathlib.Path(__file__).resolve().parent.parent
SOURCE = ROOT / "docs/src/crates/shabda/src"
CODE = ROOT / "crates/tables/src/rows.rt"
SPECS = ROOT / "crates/tables/specs/Rows.antt"
LABELS_RUST = ROOT / "boundary/yunthirel/src/labels.rs"
LABELS_C = ROOT / "boundary/yunthirel_labels.h"


def body(text, name):
    """What stands between the brackets of the array `name`, without its comments."""
    found = re.search(r"\b(?:static|const) %s\b[^=]*= &\[(.*?)\];" % name, text, re.S)
    if not found:
        sys.exit("tables.py: no array %s" % name)
    return re.sub(r"//[^\n]*", "", found.group(1))


def texts(text, name):
    """The rows of an array of texts."""
    return re.findall(r'"([^"]*)"', body(text, name))


def read(source):
    """The tables of the source by the names of their lists, each row a text and what a comment says of it; and the origins."""
    tables_rs = (source / "tables.rs").read_text(encoding="utf-8")
    origin_rs = (source / "origin.rs").read_text(encoding="utf-8")
    forms = re.findall(r'\(\s*"([^"]*)",\s*"([^"]*)",\s*"[^"]*"\s*\)', body(tables_rs, "PREFIX_FORMS"))
    words = re.findall(r'\(\s*"([^"]*)",\s*Origin::(\w+)\s*\)', body(tables_rs, "ORIGIN_TABLE"))
    particles, cases, plurals = (texts(tables_rs, n) for n in ("PARTICLES", "CASE_MARKERS", "PLURAL_MARKERS"))
    suffixes, strips = texts(tables_rs, "SUFFIXES"), texts(origin_rs, "STRIP_SUFFIXES")
    for name, rows, count in (
        ("PREFIX_FORMS", forms, 30), ("ORIGIN_TABLE", words, 79), ("PARTICLES", particles, 7), ("CASE_MARKERS", cases, 16),
        ("PLURAL_MARKERS", plurals, 2), ("SUFFIXES", suffixes, 24), ("STRIP_SUFFIXES", strips, 22),
    ):
        if len(rows) != count:
            sys.exit("tables.py: %s has %d rows, not %d" % (name, len(rows), count))
    named = {
        "plural_markers": plurals,
        "case_markers": cases,
        "particles": particles,
        "suffixes": suffixes,
        "strip_suffixes": strips,
        "origin_words": [word for word, _ in words],
    }
    tables = {name: [(row, row) for row in rows] for name, rows in named.items()}
    tables["prefix_labels"] = [(label, "%s, label of %s" % (label, form)) for label, form in forms]
    tables["prefix_forms"] = [(form, "%s, form of %s" % (form, label)) for label, form in forms]
    return tables, [origin for _, origin in words]


# the constants that hold texts alone, each with the lists that it holds one after the other
CONSTANTS = [
    ("AFFIXES", "PLURAL_MARKERS, CASE_MARKERS and PARTICLES, the order of paths", ["plural_markers", "case_markers", "particles"]),
    ("SUFFIXES", "SUFFIXES", ["suffixes"]),
    ("STRIP_SUFFIXES", "STRIP_SUFFIXES of origin.rs", ["strip_suffixes"]),
]

# the lists, each with what it is
LISTS = [
    ("prefix_labels", "PREFIX_FORMS, the labels"),
    ("prefix_forms", "PREFIX_FORMS, the surface forms: row by row those of the labels"),
    ("plural_markers", "PLURAL_MARKERS"),
    ("case_markers", "CASE_MARKERS"),
    ("particles", "PARTICLES"),
    ("suffixes", "SUFFIXES"),
    ("strip_suffixes", "STRIP_SUFFIXES of origin.rs"),
    ("origin_words", "ORIGIN_TABLE, the words"),
]


def array(name, kind, what, rows):
    """A constant: its rows, a row a line."""
    return ["", "// %s." % what, "pub const %s: [%s; %d] = [" % (name, kind, len(rows))] + ["    %s," % row for row in rows] + ["];"]


def code(tables, origins):
    out = [
        "// The tables' constants: each table an array of its rows, a row a line. Written by tools/tables.py from the source's tables.rs and",
        "// origin.rs, as is specs/Rows.antt.",
        "use crate::origins::Origin;",
    ]
    forms = ['("%s", "%s")' % (label, form) for (label, _), (form, _) in zip(tables["prefix_labels"], tables["prefix_forms"])]
    out += array("PREFIX_FORMS", "(&str, &str)", "PREFIX_FORMS, each label with its surface form", forms)
    for name, what, lists in CONSTANTS:
        out += array(name, "&str", what, ['"%s"' % text for part in lists for text, _ in tables[part]])
    rows = ['("%s", Origin::%s)' % (word, origin) for (word, _), origin in zip(tables["origin_words"], origins)]
    out += array("ORIGIN_TABLE", "(&str, Origin)", "ORIGIN_TABLE, which ascends by its words", rows)
    return "\n".join(out) + "\n"


def specs(tables, origins):
    out = [
        "-- The tables of the source (document 01, \"Modules\"), each a list of its rows in the source's order, by their bytes.",
        "-- Written by tools/tables.py from the source's tables.rs and origin.rs; src/rows.rt has the same rows. Assumes nothing.",
        "use Rattle.std.specs.Prelude.{ℕ, List, [], ◌∷◌}",
        "use Rattle.tables.specs.declared.origins.Origin.{Origin}",
        "use Rattle.tables.specs.declared.origins.Origin.TheVariants.{Tatsam, Tadbhav, Deshaj, Aagantuk}",
        "",
    ]
    for name, what in LISTS:
        out += ["-- " + what, "unfoldable pub %s : List (List ℕ)" % name, "%s =" % name]
        for text, note in tables[name]:
            out.append("    (" + " ∷ ".join("0x%02X" % b for b in text.encode()) + " ∷ []) ∷  -- " + note)
        out += ["    []", ""]
    out += ["-- ORIGIN_TABLE, the origins: row by row those of the words", "unfoldable pub origin_tags : List Origin", "origin_tags ="]
    out += ["    %s ∷  -- %s" % (origin, word) for origin, (word, _) in zip(origins, tables["origin_words"])] + ["    []"]
    return "\n".join(out) + "\n"


# the tables whose rows the exported functions name by number: constant, array of C, what it is, and the lists that it holds
LABELS = [
    ("PREFIX_LABELS", "yunthirel_prefix_labels", "PREFIX_FORMS, the labels: the prefix rows of readings, decompositions and candidates", ["prefix_labels"]),
    ("AFFIXES", "yunthirel_affixes", "PLURAL_MARKERS, CASE_MARKERS and PARTICLES: the segment rows of readings", ["plural_markers", "case_markers", "particles"]),
    ("SUFFIXES", "yunthirel_suffixes", "SUFFIXES: the suffix rows of decompositions and candidates", ["suffixes"]),
]


def labels_rust(tables):
    out = [
        "//! The texts of the rows that the library names by number. Written by tools/tables.py from the source's tables.rs.",
        "#![forbid(unsafe_code)]",
    ]
    for name, _, what, lists in LABELS:
        rows = [text for part in lists for text, _ in tables[part]]
        out += ["", "/// %s." % what]
        out += ["pub const %s: [&str; %d] = [" % (name, len(rows))] + ['    "%s",' % row for row in rows] + ["];"]
    return "\n".join(out) + "\n"


def labels_c(tables):
    out = [
        "/* The texts of the rows that the functions of yunthirel.h name by number, as UTF-8. Written by tools/tables.py from the",
        " * source's tables.rs. */",
        "#ifndef YUNTHIREL_LABELS_H",
        "#define YUNTHIREL_LABELS_H",
    ]
    for _, name, what, lists in LABELS:
        rows = [text for part in lists for text, _ in tables[part]]
        out += ["", "/* %s. */" % what, "static const char *const %s[%d] = {" % (name, len(rows))]
        out += ['    "%s",' % row for row in rows] + ["};"]
    return "\n".join(out + ["", "#endif"]) + "\n"


def main():
    parser = argparse.ArgumentParser()
    parser.add_argument("--check", action="store_true")
    parser.add_argument("--source", type=pathlib.Path, default=SOURCE)
    options = parser.parse_args()
    tables, origins = read(options.source)
    differs = False
    written = (
        (CODE, code(tables, origins)),
        (SPECS, specs(tables, origins)),
        (LABELS_RUST, labels_rust(tables)),
        (LABELS_C, labels_c(tables)),
    )
    for path, text in written:
        if not options.check:
            path.write_text(text, encoding="utf-8")
        elif not path.exists() or path.read_text(encoding="utf-8") != text:
            print("tables.py: %s is not what the source gives" % path.relative_to(ROOT))
            differs = True
    sys.exit(1 if differs else 0)


main()
