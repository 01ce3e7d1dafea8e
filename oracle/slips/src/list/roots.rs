//! Decompose and the root candidates.

use super::{MORPHOLOGY, TABLES};
use crate::slip::{Slip, edits, slip};

pub fn slips() -> Vec<Slip> {
    vec![
        // document 01's slip
        slip(
            "decompose stops after one suffix",
            MORPHOLOGY,
            "            for rest in suffix_rest_candidates(&remaining, suffix) {\n",
            "            if !suffixes.is_empty() {
                break;
            }
            for rest in suffix_rest_candidates(&remaining, suffix) {
",
        ),
        // a wrong build that the worked cases let pass
        edits(
            "decompose begins its rows again",
            MORPHOLOGY,
            &[
                (
                    "        for &suffix in tables::SUFFIXES.iter() {\n            for rest in suffix_rest_candidates(&remaining, suffix) {",
                    "        loop {
        let before = suffixes.len();
        for &suffix in tables::SUFFIXES.iter() {
            if suffixes.len() > before {
                break;
            }
            for rest in suffix_rest_candidates(&remaining, suffix) {",
                ),
                (
                    "break; // Only strip one suffix for now\n                }\n            }\n        }\n",
                    "break;\n                }\n            }\n        }
        if suffixes.len() == before {
            break;
        }
        }
",
                ),
            ],
        ),
        slip(
            "decompose asks h of the prefix remainder too",
            MORPHOLOGY,
            "rest.chars().count() >= min_root && lex.contains(rest)",
            "rest.chars().count() >= min_root && lexical_support(rest, lex).is_exact()",
        ),
        slip(
            "decompose asks nothing of the prefix remainder",
            MORPHOLOGY,
            "rest.chars().count() >= min_root && lex.contains(rest)",
            "rest.chars().count() >= min_root",
        ),
        slip(
            "decompose asks h of the suffix remainder too",
            MORPHOLOGY,
            "                if rest.chars().count() >= min_root_chars && lex.contains(rest) {\n                    suffixes.push(normalize_suffix_label(suffix));",
            "                if rest.chars().count() >= min_root_chars && lexical_support(rest, lex).is_exact() {\n                    suffixes.push(normalize_suffix_label(suffix));",
        ),
        slip(
            "decompose takes every prefix row",
            MORPHOLOGY,
            "                break; // Only strip one prefix for now\n",
            "",
        ),
        slip(
            "decompose: three characters after a short prefix",
            MORPHOLOGY,
            "            let min_root = if sandhi_form.chars().count() <= 1 {\n                4",
            "            let min_root = if sandhi_form.chars().count() <= 1 {\n                3",
        ),
        slip(
            "decompose: one character after a prefix",
            MORPHOLOGY,
            "            let min_root = if sandhi_form.chars().count() <= 1 {\n                4\n            } else {\n                2",
            "            let min_root = if sandhi_form.chars().count() <= 1 {\n                4\n            } else {\n                1",
        ),
        slip(
            "decompose: one character after prefix and suffix",
            MORPHOLOGY,
            "        let min_root_chars = if prefixes.is_empty() { 1 } else { 4 };\n        for &suffix",
            "        let min_root_chars = 1;\n        for &suffix",
        ),
        slip(
            "decompose: three characters after prefix and suffix",
            MORPHOLOGY,
            "        let min_root_chars = if prefixes.is_empty() { 1 } else { 4 };\n        for &suffix",
            "        let min_root_chars = if prefixes.is_empty() { 1 } else { 3 };\n        for &suffix",
        ),
        slip(
            "decompose: two characters after a suffix",
            MORPHOLOGY,
            "        let min_root_chars = if prefixes.is_empty() { 1 } else { 4 };\n        for &suffix",
            "        let min_root_chars = if prefixes.is_empty() { 2 } else { 4 };\n        for &suffix",
        ),
        slip(
            "decompose takes the last remainder of a row",
            MORPHOLOGY,
            "            for rest in suffix_rest_candidates(&remaining, suffix) {\n",
            "            for rest in suffix_rest_candidates(&remaining, suffix).into_iter().rev() {\n",
        ),
        slip(
            "decompose gives the root's origin",
            MORPHOLOGY,
            "    Morpheme {\n        root: remaining,\n        prefixes,\n        suffixes,\n        origin,",
            "    let origin = if origin == classify(&remaining) { origin } else { classify(&remaining) };
    Morpheme {\n        root: remaining,\n        prefixes,\n        suffixes,\n        origin,",
        ),
        slip(
            "decompose lists suffixes nearest the stem first",
            MORPHOLOGY,
            "    Morpheme {\n        root: remaining,\n",
            "    suffixes.reverse();\n    Morpheme {\n        root: remaining,\n",
        ),
        slip("ी keeps its label", MORPHOLOGY, "        \"ी\" => \"ई\".to_string(),\n", ""),
        slip(
            "ई left out of the pronoun rule",
            MORPHOLOGY,
            "matches!(suffix, \"ई\" | \"ी\")",
            "matches!(suffix, \"ी\")",
        ),
        slip(
            "ी left out of the pronoun rule",
            MORPHOLOGY,
            "matches!(suffix, \"ई\" | \"ी\")",
            "matches!(suffix, \"ई\")",
        ),
        slip("e ignored", MORPHOLOGY, "                if !explicit {", "                if !explicit || true {"),
        slip("p ignored", MORPHOLOGY, "                if !explicit {", "                if !explicit && false {"),
        slip(
            "pronoun rule asked of the remainder",
            MORPHOLOGY,
            "        if let Some(entry) = kosha().lookup(current) {",
            "        if let Some(entry) = kosha().lookup(current.strip_suffix(suffix).unwrap_or(current)) {",
        ),
        slip(
            "pronoun rule over every row",
            MORPHOLOGY,
            "    if matches!(suffix, \"ई\" | \"ी\") {",
            "    if matches!(suffix, \"ई\" | \"ी\" | \"ता\" | \"पन\" | \"ित\" | \"ने\") {",
        ),
        // candidates
        slip(
            "candidates: first remainder alone",
            MORPHOLOGY,
            "            suffixes.pop();\n        }\n    }\n}\n\nfn sorted_candidates",
            "            suffixes.pop();\n            break;\n        }\n    }\n}\n\nfn sorted_candidates",
        ),
        slip(
            "candidates: first known remainder alone",
            MORPHOLOGY,
            "            suffixes.pop();\n        }\n    }\n}\n\nfn sorted_candidates",
            "            suffixes.pop();
            if lexical_support(rest, kosha()).is_exact() {
                break;
            }
        }\n    }\n}\n\nfn sorted_candidates",
        ),
        slip(
            "candidates: what stands after the prefix must be known",
            MORPHOLOGY,
            "        push_candidate(&mut candidates, &mut seen, word, rest, &prefixes, &[]);\n",
            "        push_candidate(&mut candidates, &mut seen, word, rest, &prefixes, &[]);
        if !lexical_support(rest, kosha()).is_exact() {
            continue;
        }
",
        ),
        slip(
            "candidates: no decomposition",
            MORPHOLOGY,
            "    let decomposed = decompose(word);\n",
            "    let mut decomposed = decompose(word);\n    decomposed.root.clear();\n",
        ),
        slip(
            "candidates: the word left out",
            MORPHOLOGY,
            "    push_candidate(&mut candidates, &mut seen, word, word, &[], &[]);\n",
            "",
        ),
        slip(
            "candidates: roots known by w alone",
            MORPHOLOGY,
            "    if !known_word && !known_headword {",
            "    if !known_word {",
        ),
        slip(
            "candidates: the word's origin",
            MORPHOLOGY,
            "        origin: classify(root),",
            "        origin: classify(original),",
        ),
        slip(
            "candidates: 60 for a sibling",
            MORPHOLOGY,
            "        score: candidate_score(original, prefixes, suffixes, known_word, known_headword),",
            "        score: candidate_score(original, prefixes, suffixes, known_word, known_headword)
            + if has_attested_suffixed_sibling(root, lex) { 60 } else { 0 },",
        ),
        slip(
            "candidates: root counted for the word",
            MORPHOLOGY,
            "        score: candidate_score(original,",
            "        score: candidate_score(root,",
        ),
        slip(
            "candidates: kept twice",
            MORPHOLOGY,
            "    let key = format!(\"{}|{}|{}\", root, prefixes.join(\"+\"), suffixes.join(\"+\"));
    if !seen.insert(key) {",
            "    let key = format!(\"{}|{}|{}\", root, prefixes.join(\"+\"), suffixes.join(\"+\"));
    if !seen.insert(key) && false {",
        ),
        slip(
            "candidates: each root once",
            MORPHOLOGY,
            "    let key = format!(\"{}|{}|{}\", root, prefixes.join(\"+\"), suffixes.join(\"+\"));",
            "    let key = format!(\"{}|{}\", root, prefixes.join(\"+\"));",
        ),
        slip(
            "candidates: each root and suffixes once",
            MORPHOLOGY,
            "    let key = format!(\"{}|{}|{}\", root, prefixes.join(\"+\"), suffixes.join(\"+\"));",
            "    let key = format!(\"{}|{}\", root, suffixes.join(\"+\"));",
        ),
        slip(
            "candidates: three characters after prefix and suffix",
            MORPHOLOGY,
            "    let min_root_chars = if prefixes.is_empty() { 1 } else { 4 };\n    for &suffix in groups",
            "    let min_root_chars = if prefixes.is_empty() { 1 } else { 3 };\n    for &suffix in groups",
        ),
        slip(
            "candidates: three characters after a short prefix",
            MORPHOLOGY,
            "        let min_root = if sandhi_form.chars().count() <= 1 {\n            4",
            "        let min_root = if sandhi_form.chars().count() <= 1 {\n            3",
        ),
        slip(
            "candidates: three characters after a prefix",
            MORPHOLOGY,
            "        let min_root = if sandhi_form.chars().count() <= 1 {\n            4\n        } else {\n            2",
            "        let min_root = if sandhi_form.chars().count() <= 1 {\n            4\n        } else {\n            3",
        ),
        slip("a suffix row missing", TABLES, "    \"अट\",\n", ""),
        slip(
            "two suffix rows exchanged",
            TABLES,
            "    \"को\",\n    \"मा\",\n    \"ले\",\n    \"ित\",",
            "    \"ले\",\n    \"मा\",\n    \"को\",\n    \"ित\",",
        ),
        slip(
            "two prefix rows exchanged",
            TABLES,
            "    (\"निर्\", \"निः\", \"\"),\n    (\"निस्\", \"निः\", \"\"),",
            "    (\"निस्\", \"निः\", \"\"),\n    (\"निर्\", \"निः\", \"\"),",
        ),
    ]
}
