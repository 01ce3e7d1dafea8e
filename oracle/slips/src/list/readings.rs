//! Which readings there are.

use super::{MORPHOLOGY, TABLES};
use crate::slip::{Slip, edits, equivalent, slip};

pub fn slips() -> Vec<Slip> {
    vec![
        // document 01's slips
        slip(
            "the two readings of निः merged",
            MORPHOLOGY,
            "        root,\n        prefixes.join(\"+\"),\n        stored_suffixes",
            "        root,\n        prefixes.len(),\n        stored_suffixes",
        ),
        slip(
            "segments outermost first",
            MORPHOLOGY,
            "= suffixes.iter().rev().cloned().collect();",
            "= suffixes.to_vec();",
        ),
        slip(
            "pronoun rule asked of readings' suffixes",
            MORPHOLOGY,
            "    for &suffix in SUPPORT_SUFFIX_GROUPS[group_index].items {\n",
            "    for &suffix in SUPPORT_SUFFIX_GROUPS[group_index].items {
        if lex.lookup(current).is_some_and(|entry| varnavinyas_kosha::part_of_speech::is_pronoun(entry.pos)) {
            continue;
        }
",
        ),
        // wrong builds that the worked cases let pass
        slip(
            "order particle, case, plural not enforced",
            MORPHOLOGY,
            "                surface,\n                rest,\n                suffixes,\n                group_index + 1,",
            "                surface,\n                rest,\n                suffixes,\n                0,",
        ),
        slip(
            "sibling known by w alone",
            MORPHOLOGY,
            "lex.contains(&candidate) || lex.lookup(&candidate).is_some()",
            "lex.contains(&candidate)",
        ),
        slip(
            "sibling known by h alone",
            MORPHOLOGY,
            "lex.contains(&candidate) || lex.lookup(&candidate).is_some()",
            "lex.lookup(&candidate).is_some()",
        ),
        // strips
        slip("five suffixes", MORPHOLOGY, "MAX_SUFFIX_DEPTH: usize = 4", "MAX_SUFFIX_DEPTH: usize = 5"),
        slip("three suffixes", MORPHOLOGY, "MAX_SUFFIX_DEPTH: usize = 4", "MAX_SUFFIX_DEPTH: usize = 3"),
        slip("three prefixes", MORPHOLOGY, "MAX_PREFIX_DEPTH: usize = 2", "MAX_PREFIX_DEPTH: usize = 3"),
        slip("one prefix", MORPHOLOGY, "MAX_PREFIX_DEPTH: usize = 2", "MAX_PREFIX_DEPTH: usize = 1"),
        slip(
            "particles repeat",
            MORPHOLOGY,
            "        kind: AffixKind::Particle,\n        repeatable: false,",
            "        kind: AffixKind::Particle,\n        repeatable: true,",
        ),
        slip(
            "plural markers repeat",
            MORPHOLOGY,
            "        kind: AffixKind::PluralMarker,\n        repeatable: false,",
            "        kind: AffixKind::PluralMarker,\n        repeatable: true,",
        ),
        slip(
            "case markers do not repeat",
            MORPHOLOGY,
            "        kind: AffixKind::CaseMarker,\n        repeatable: true,",
            "        kind: AffixKind::CaseMarker,\n        repeatable: false,",
        ),
        slip(
            "three characters after a short prefix",
            MORPHOLOGY,
            "        let min_root_chars = if sandhi_form.chars().count() <= 1 {\n            4",
            "        let min_root_chars = if sandhi_form.chars().count() <= 1 {\n            3",
        ),
        slip(
            "five characters after a short prefix",
            MORPHOLOGY,
            "        let min_root_chars = if sandhi_form.chars().count() <= 1 {\n            4",
            "        let min_root_chars = if sandhi_form.chars().count() <= 1 {\n            5",
        ),
        slip(
            "short prefix counted in bytes",
            MORPHOLOGY,
            "        let min_root_chars = if sandhi_form.chars().count() <= 1 {",
            "        let min_root_chars = if sandhi_form.len() <= 1 {",
        ),
        slip(
            "characters after a prefix counted in bytes",
            MORPHOLOGY,
            "        if rest.chars().count() < min_root_chars {\n            continue;\n        }\n\n        prefixes.push",
            "        if rest.len() < min_root_chars {\n            continue;\n        }\n\n        prefixes.push",
        ),
        slip(
            "no shared remainder",
            MORPHOLOGY,
            "    if current_len > suffix_len {",
            "    if current_len > suffix_len && false {",
        ),
        slip(
            "shared remainder first",
            MORPHOLOGY,
            "!candidates.contains(&rest) {\n                candidates.push(rest);",
            "!candidates.contains(&rest) {\n                candidates.insert(0, rest);",
        ),
        slip(
            "shared remainder whatever it ends in",
            MORPHOLOGY,
            "if !rest.is_empty() && rest.ends_with(onset)",
            "if !rest.is_empty()",
        ),
        slip(
            "shared remainder of a piece that is the suffix",
            MORPHOLOGY,
            "    if current_len > suffix_len {",
            "    if true {",
        ),
        equivalent(
            slip(
                "empty root supported",
                MORPHOLOGY,
                "    if word.is_empty() {\n        return BaseSupport::default();\n    }\n",
                "",
            ),
            "no strip leaves an empty piece, and the empty word is answered before the walk",
        ),
        // what is supported
        slip(
            "progressive form loses prefixes",
            MORPHOLOGY,
            "    if support.progressive_verb || prefix_depth >= MAX_PREFIX_DEPTH {",
            "    if prefix_depth >= MAX_PREFIX_DEPTH {",
        ),
        slip(
            "progressive form loses suffixes",
            MORPHOLOGY,
            "    if crate::has_supported_progressive_form(current)\n        || group_index",
            "    if group_index",
        ),
        slip(
            "progressive form not supported",
            MORPHOLOGY,
            "self.lexical.is_exact() || self.suffixed_sibling || self.progressive_verb",
            "self.lexical.is_exact() || self.suffixed_sibling",
        ),
        slip(
            "sibling not supported",
            MORPHOLOGY,
            "self.lexical.is_exact() || self.suffixed_sibling || self.progressive_verb",
            "self.lexical.is_exact() || self.progressive_verb",
        ),
        slip(
            "root known by w alone",
            MORPHOLOGY,
            "        self.known_word || self.known_headword",
            "        self.known_word",
        ),
        slip(
            "root known by h alone",
            MORPHOLOGY,
            "        self.known_word || self.known_headword",
            "        self.known_headword",
        ),
        slip("siblings without plural markers", MORPHOLOGY, "        .chain(tables::PLURAL_MARKERS.iter())\n", ""),
        slip(
            "stem asked in place of the root",
            MORPHOLOGY,
            "    let support = base_support(current, lex);",
            "    let support = base_support(if prefix_depth == 2 { stem } else { current }, lex);",
        ),
        slip(
            "kind line ignored",
            MORPHOLOGY,
            "crate::relational_suffixes::suffix_kind(suffix)\n                    .unwrap_or",
            "None\n                    .unwrap_or",
        ),
        slip(
            "kind line only over case markers",
            MORPHOLOGY,
            "crate::relational_suffixes::suffix_kind(suffix)\n                    .unwrap_or",
            "crate::relational_suffixes::suffix_kind(suffix).filter(|_| group_index == 1)\n                    .unwrap_or",
        ),
        // tables
        slip("a prefix row missing", TABLES, "    (\"उत्\", \"उच्\", \"\"), // उत् + च → उच्च\n", ""),
        slip("a prefix label", TABLES, "(\"दुस्\", \"दुश्\", \"\")", "(\"दुश्\", \"दुश्\", \"\")"),
        slip("a case marker missing", TABLES, "    \"सरह\",\n", ""),
        slip("a particle missing", TABLES, "\"रे\", \"खै\"", "\"रे\""),
        slip("a plural marker missing", TABLES, "&[\"हरू\", \"हरु\"]", "&[\"हरू\"]"),
        // the score
        edits(
            "60 for each sibling",
            MORPHOLOGY,
            &[
                ("    suffixed_sibling: bool,\n", "    suffixed_sibling: bool,\n    siblings: u16,\n"),
                (
                    "        suffixed_sibling: has_attested_suffixed_sibling(word, lex),\n",
                    "        suffixed_sibling: has_attested_suffixed_sibling(word, lex),
        siblings: tables::PARTICLES.iter().chain(tables::CASE_MARKERS).chain(tables::PLURAL_MARKERS)
            .filter(|suffix| lexical_support(&format!(\"{word}{suffix}\"), lex).is_exact()).count() as u16,
",
                ),
                ("        score += 60;", "        score += 60 * support.siblings;"),
            ],
        ),
        slip(
            "10 for suffixes only",
            MORPHOLOGY,
            "    if !prefixes.is_empty() || !suffixes.is_empty() {\n        score += 10;\n    }\n    score += surface",
            "    if !suffixes.is_empty() {\n        score += 10;\n    }\n    score += surface",
        ),
        slip(
            "10 for each side",
            MORPHOLOGY,
            "    if !prefixes.is_empty() || !suffixes.is_empty() {\n        score += 10;\n    }\n    score += surface",
            "    if !prefixes.is_empty() && !suffixes.is_empty() {\n        score += 10;\n    }
    if !prefixes.is_empty() || !suffixes.is_empty() {\n        score += 10;\n    }\n    score += surface",
        ),
        slip(
            "surface counted in bytes",
            MORPHOLOGY,
            "    score += surface.chars().count() as u16;",
            "    score += surface.len() as u16;",
        ),
        slip(
            "stem counted for the surface",
            MORPHOLOGY,
            "score: affix_score(surface, prefixes, suffixes, support)",
            "score: affix_score(stem, prefixes, suffixes, support)",
        ),
        slip(
            "w or h scored, not both",
            MORPHOLOGY,
            "    if support.lexical.known_word {\n        score += 100;",
            "    if support.lexical.known_word && !support.lexical.known_headword {\n        score += 100;",
        ),
        slip(
            "60 only for a root that is not known",
            MORPHOLOGY,
            "    if support.suffixed_sibling {\n        score += 60;",
            "    if support.suffixed_sibling && !support.lexical.is_exact() {\n        score += 60;",
        ),
    ]
}
