//! Origin.

use super::{ORIGIN, TABLES};
use crate::slip::{Slip, equivalent, slip};

pub fn slips() -> Vec<Slip> {
    vec![
        // wrong builds that the worked cases let pass
        slip(
            "table asked of remainders",
            ORIGIN,
            "            if stem.chars().count() > 1 {\n",
            "            if stem.chars().count() > 1 {
                if let Some(origin) = tables::lookup_origin(stem) {
                    return OriginDecision { origin, source: OriginSource::Override, confidence: 1.0 };
                }
",
        ),
        slip(
            "headword without tag does not stop the search",
            ORIGIN,
            "    if kosha.lookup(word).is_some() {",
            "    if false {",
        ),
        slip(
            "remainder without tag does not stop the search",
            ORIGIN,
            "                if kosha.lookup(stem).is_some() {",
            "                if false {",
        ),
        slip(
            "word contained stops the search",
            ORIGIN,
            "    if kosha.lookup(word).is_some() {",
            "    if kosha.contains(word) || kosha.lookup(word).is_some() {",
        ),
        slip(
            "remainder contained stops the search",
            ORIGIN,
            "                if kosha.lookup(stem).is_some() {",
            "                if kosha.contains(stem) || kosha.lookup(stem).is_some() {",
        ),
        slip(
            "tag before table",
            ORIGIN,
            "    if let Some(origin) = tables::lookup_origin(word) {",
            "    if let Some(origin) = tables::lookup_origin(word).filter(|_| varnavinyas_kosha::kosha().origin_of(word).is_none()) {",
        ),
        slip("remainder of one character", ORIGIN, "stem.chars().count() > 1", "stem.chars().count() > 0"),
        slip("remainder of two characters refused", ORIGIN, "stem.chars().count() > 1", "stem.chars().count() > 2"),
        slip("remainder counted in bytes", ORIGIN, "stem.chars().count() > 1", "stem.len() > 1"),
        slip(
            "no shared remainder of origin",
            ORIGIN,
            "    if word_len > suffix_len {",
            "    if word_len > suffix_len && false {",
        ),
        slip(
            "shared remainder of origin first",
            ORIGIN,
            "!candidates.contains(&stem) {\n                candidates.push(stem);",
            "!candidates.contains(&stem) {\n                candidates.insert(0, stem);",
        ),
        slip("hits of remainders at 0.95", ORIGIN, "confidence: 0.90", "confidence: 0.95"),
        slip("a strip suffix missing", ORIGIN, "    \"सँगै\",\n", ""),
        slip("another strip suffix missing", ORIGIN, "    \"हरूबाट\",\n", ""),
        equivalent(
            slip(
                "strip suffixes that no word ends in at once exchanged",
                ORIGIN,
                "    \"ले\",\n    \"को\",\n",
                "    \"को\",\n    \"ले\",\n",
            ),
            "no word ends both in ले and in को, so their order never decides",
        ),
        slip(
            "short strip suffix before its compound",
            ORIGIN,
            "    \"हरूलाई\",\n    \"हरूको\",\n    \"हरूले\",\n",
            "    \"ले\",\n    \"हरूलाई\",\n    \"हरूको\",\n    \"हरूले\",\n",
        ),
        // marks
        slip(
            "nukta in front",
            ORIGIN,
            "    for window in chars.windows(2) {\n        if window[1]",
            "    for window in chars.windows(1) {\n        if window[0]",
        ),
        slip(
            "nukta after the second character",
            ORIGIN,
            "    for window in chars.windows(2) {\n        if window[1]",
            "    for window in chars.windows(3) {\n        if window[2]",
        ),
        slip("U+095F left out", ORIGIN, "'\\u{0958}'..='\\u{095F}'", "'\\u{0958}'..='\\u{095E}'"),
        slip("U+0958 left out", ORIGIN, "'\\u{0958}'..='\\u{095F}'", "'\\u{0959}'..='\\u{095F}'"),
        slip("U+0957 let in", ORIGIN, "'\\u{0958}'..='\\u{095F}'", "'\\u{0957}'..='\\u{095F}'"),
        slip("U+0960 let in", ORIGIN, "'\\u{0958}'..='\\u{095F}'", "'\\u{0958}'..='\\u{0960}'"),
        slip(
            "Tatsam marks before Aagantuk",
            ORIGIN,
            "    if has_aagantuk_markers(&chars) {",
            "    if has_aagantuk_markers(&chars) && !has_tatsam_markers(word, &chars) {",
        ),
        slip(
            "Tadbhav marks before Tatsam",
            ORIGIN,
            "    if has_tatsam_markers(word, &chars) {",
            "    if has_tatsam_markers(word, &chars) && !has_tadbhav_markers(word, &chars) {",
        ),
        slip("ऋ left out", ORIGIN, "chars.contains(&'ऋ') || chars.contains(&'ृ')", "chars.contains(&'ृ')"),
        slip("ृ left out", ORIGIN, "chars.contains(&'ऋ') || chars.contains(&'ृ')", "chars.contains(&'ऋ')"),
        slip("ः left out", ORIGIN, "    if chars.contains(&'ः') {", "    if false {"),
        slip("ष left out", ORIGIN, "    if chars.contains(&'ष') {", "    if false {"),
        equivalent(
            slip("क्ष left out", ORIGIN, "word.contains(\"क्ष\") || ", ""),
            "a word with क्ष has ष, which is a mark by itself",
        ),
        slip("ज्ञ left out", ORIGIN, "word.contains(\"ज्ञ\") || ", ""),
        slip("क्त left out", ORIGIN, "word.contains(\"क्त\") || ", ""),
        slip("त्म left out", ORIGIN, " || word.contains(\"त्म\")", ""),
        slip("त्र left out", ORIGIN, "word.contains(\"त्र\")\n        || ", ""),
        slip("त्त left out", ORIGIN, "        || word.contains(\"त्त\")\n", ""),
        slip("द्ध left out", ORIGIN, "        || word.contains(\"द्ध\")\n", ""),
        slip("द्य left out", ORIGIN, "        || word.contains(\"द्य\")\n", ""),
        slip("द्व left out", ORIGIN, "        || word.contains(\"द्व\")\n", ""),
        slip(
            "श a mark",
            ORIGIN,
            "    if chars.contains(&'ष') {",
            "    if chars.contains(&'ष') || chars.contains(&'श') {",
        ),
        slip("an end in नु left out", ORIGIN, "word.ends_with(\"नु\") || ", ""),
        slip("an end in ने left out", ORIGIN, "word.ends_with(\"ने\") || ", ""),
        slip("an end in को left out", ORIGIN, " || word.ends_with(\"को\")", ""),
        slip("ा not after ठ, ड, ढ", ORIGIN, "matches!(last, 'ो' | 'ा')", "matches!(last, 'ो')"),
        slip("ट too", ORIGIN, "matches!(second_last, 'ठ' | 'ड' | 'ढ')", "matches!(second_last, 'ट' | 'ठ' | 'ड' | 'ढ')"),
        slip("ढ left out", ORIGIN, "matches!(second_last, 'ठ' | 'ड' | 'ढ')", "matches!(second_last, 'ठ' | 'ड')"),
        slip("an end in ठ, ड, ढ is enough", ORIGIN, "matches!(second_last, 'ठ' | 'ड' | 'ढ')", "true"),
        slip("heuristics at 0.66", ORIGIN, "if has_evidence { 0.65 }", "if has_evidence { 0.66 }"),
        slip(
            "Deshaj is heuristic",
            ORIGIN,
            "        source: if has_evidence {",
            "        source: if has_evidence || true {",
        ),
        slip("a row of the table missing", TABLES, "    (\"बगैँचा\", Origin::Tadbhav),\n", ""),
        slip("an origin in the table", TABLES, "(\"टोपी\", Origin::Deshaj)", "(\"टोपी\", Origin::Tadbhav)"),
        slip(
            "a table found by its beginning",
            TABLES,
            "    ORIGIN_TABLE\n        .binary_search_by_key(&word, |&(w, _)| w)\n        .ok()",
            "    ORIGIN_TABLE\n        .iter().position(|&(w, _)| word.starts_with(w))",
        ),
    ]
}
