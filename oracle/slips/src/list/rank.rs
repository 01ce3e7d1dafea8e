//! In which order readings and candidates stand.

use super::MORPHOLOGY;
use crate::slip::{Slip, equivalent, slip};

pub fn slips() -> Vec<Slip> {
    vec![
        slip(
            "suffix count ascending",
            MORPHOLOGY,
            "b.suffixes.len().cmp(&a.suffixes.len())",
            "a.suffixes.len().cmp(&b.suffixes.len())",
        ),
        slip(
            "suffix count left out",
            MORPHOLOGY,
            "            .then_with(|| b.suffixes.len().cmp(&a.suffixes.len()))\n",
            "",
        ),
        slip(
            "prefix count ascending",
            MORPHOLOGY,
            "b.prefixes.len().cmp(&a.prefixes.len())",
            "a.prefixes.len().cmp(&b.prefixes.len())",
        ),
        slip(
            "prefix count left out",
            MORPHOLOGY,
            "            .then_with(|| b.prefixes.len().cmp(&a.prefixes.len()))\n",
            "",
        ),
        slip(
            "prefix count before suffix count",
            MORPHOLOGY,
            "            .then_with(|| b.suffixes.len().cmp(&a.suffixes.len()))
            .then_with(|| b.prefixes.len().cmp(&a.prefixes.len()))
",
            "            .then_with(|| b.prefixes.len().cmp(&a.prefixes.len()))
            .then_with(|| b.suffixes.len().cmp(&a.suffixes.len()))
",
        ),
        slip(
            "stem characters ascending",
            MORPHOLOGY,
            "b.stem.chars().count().cmp(&a.stem.chars().count())",
            "a.stem.chars().count().cmp(&b.stem.chars().count())",
        ),
        slip(
            "stem characters left out",
            MORPHOLOGY,
            "            .then_with(|| b.stem.chars().count().cmp(&a.stem.chars().count()))\n",
            "",
        ),
        equivalent(
            slip(
                "stem counted in bytes",
                MORPHOLOGY,
                "b.stem.chars().count().cmp(&a.stem.chars().count())",
                "b.stem.len().cmp(&a.stem.len())",
            ),
            "stems are beginnings of one word, so the one with more characters has more bytes",
        ),
        equivalent(
            slip(
                "stem bytes left out",
                MORPHOLOGY,
                "            .then_with(|| a.stem.as_bytes().cmp(b.stem.as_bytes()))\n",
                "",
            ),
            "stems are beginnings of one word, so equal counts of characters mean equal stems",
        ),
        slip(
            "root bytes of readings descending",
            MORPHOLOGY,
            "            .then_with(|| a.stem.as_bytes().cmp(b.stem.as_bytes()))
            .then_with(|| a.root.as_bytes().cmp(b.root.as_bytes()))
",
            "            .then_with(|| a.stem.as_bytes().cmp(b.stem.as_bytes()))
            .then_with(|| b.root.as_bytes().cmp(a.root.as_bytes()))
",
        ),
        slip(
            "root bytes of readings left out",
            MORPHOLOGY,
            "            .then_with(|| a.stem.as_bytes().cmp(b.stem.as_bytes()))
            .then_with(|| a.root.as_bytes().cmp(b.root.as_bytes()))
",
            "            .then_with(|| a.stem.as_bytes().cmp(b.stem.as_bytes()))
",
        ),
        slip(
            "latest path first",
            MORPHOLOGY,
            "fn sorted_affix_analyses(mut analyses: Vec<AffixAnalysis>) -> Vec<AffixAnalysis> {\n",
            "fn sorted_affix_analyses(mut analyses: Vec<AffixAnalysis>) -> Vec<AffixAnalysis> {\n    analyses.reverse();\n",
        ),
        slip(
            "score of readings ascending",
            MORPHOLOGY,
            "    analyses.sort_by(|a, b| {\n        b.score\n            .cmp(&a.score)",
            "    analyses.sort_by(|a, b| {\n        a.score\n            .cmp(&b.score)",
        ),
        // candidates
        slip(
            "headwords last",
            MORPHOLOGY,
            "b.known_headword.cmp(&a.known_headword)",
            "a.known_headword.cmp(&b.known_headword)",
        ),
        equivalent(
            slip("known by w last", MORPHOLOGY, "b.known_word.cmp(&a.known_word)", "a.known_word.cmp(&b.known_word)"),
            "where scores are equal, both sides have h and one alone has w, the other has six suffixes or more, \
             but such a decomposition has a root known by w",
        ),
        slip(
            "headword rule left out",
            MORPHOLOGY,
            "            .then_with(|| b.known_headword.cmp(&a.known_headword))\n",
            "",
        ),
        equivalent(
            slip(
                "headword rule and w rule left out",
                MORPHOLOGY,
                "            .then_with(|| b.known_headword.cmp(&a.known_headword))
            .then_with(|| b.known_word.cmp(&a.known_word))
",
                "",
            ),
            "where scores are equal and one side alone has h, the other has more affixes (prefix and three suffixes \
             against one suffix, or more), so its root has fewer characters: the next rule says the same",
        ),
        slip(
            "root characters ascending",
            MORPHOLOGY,
            "b.root.chars().count().cmp(&a.root.chars().count())",
            "a.root.chars().count().cmp(&b.root.chars().count())",
        ),
        slip(
            "root characters left out",
            MORPHOLOGY,
            "            .then_with(|| b.root.chars().count().cmp(&a.root.chars().count()))\n",
            "",
        ),
        equivalent(
            slip(
                "root counted in bytes",
                MORPHOLOGY,
                "b.root.chars().count().cmp(&a.root.chars().count())",
                "b.root.len().cmp(&a.root.len())",
            ),
            "what is stripped has three bytes a character, so both counts order roots of one word alike",
        ),
        slip(
            "root bytes of candidates descending",
            MORPHOLOGY,
            "            .then_with(|| a.root.as_bytes().cmp(b.root.as_bytes()))\n            .then_with(|| a.prefixes",
            "            .then_with(|| b.root.as_bytes().cmp(a.root.as_bytes()))\n            .then_with(|| a.prefixes",
        ),
        slip("prefix lists descending", MORPHOLOGY, "a.prefixes.cmp(&b.prefixes)", "b.prefixes.cmp(&a.prefixes)"),
        slip("suffix lists descending", MORPHOLOGY, "a.suffixes.cmp(&b.suffixes)", "b.suffixes.cmp(&a.suffixes)"),
        equivalent(
            slip("suffix lists left out", MORPHOLOGY, "            .then_with(|| a.suffixes.cmp(&b.suffixes))\n", ""),
            "one root has two suffix lists of equal score only as एको (shared) and को (plain), and the walk \
             meets them in that order already",
        ),
    ]
}
