//! Progressive forms.

use super::PROGRESSIVE;
use crate::slip::{Slip, slip};

pub fn slips() -> Vec<Slip> {
    vec![
        // document 01's slip
        slip(
            "goes on after a link line failed",
            PROGRESSIVE,
            "        return is_verb(lemma).then(|| lemma.to_string());",
            "        if is_verb(lemma) {\n            return Some(lemma.to_string());\n        }",
        ),
        // a wrong build that the worked cases let pass
        slip(
            "रहनु a headword",
            PROGRESSIVE,
            "        .lookup(\"रहनु\")\n        .is_some_and(|entry| part_of_speech::is_verb(entry.pos))",
            "        .lookup(\"रहनु\")\n        .is_some()",
        ),
        slip(
            "रहनु not asked",
            PROGRESSIVE,
            "        .lookup(\"रहनु\")\n        .is_some_and(|entry| part_of_speech::is_verb(entry.pos))",
            "        .lookup(\"रहनु\")\n        .is_none_or(|entry| part_of_speech::is_verb(entry.pos))",
        ),
        slip(
            "link line ignored",
            PROGRESSIVE,
            "        return is_verb(lemma).then(|| lemma.to_string());",
            "        let _ = lemma;",
        ),
        slip(
            "lemma of a link line taken unasked",
            PROGRESSIVE,
            "        return is_verb(lemma).then(|| lemma.to_string());",
            "        return Some(lemma.to_string());",
        ),
        slip(
            "no second search after a link line failed",
            PROGRESSIVE,
            "    } else {\n        (\n            supported_infinitive(linked_stem.strip_prefix",
            "    } else if varnavinyas_kosha::link_line(linked_stem).is_some() {
        return None;
    } else {\n        (\n            supported_infinitive(linked_stem.strip_prefix",
        ),
        slip(
            "no negative",
            PROGRESSIVE,
            "    } else {\n        (\n            supported_infinitive(linked_stem.strip_prefix",
            "    } else if true {
        return None;
    } else {\n        (\n            supported_infinitive(linked_stem.strip_prefix",
        ),
        slip(
            "every leading न removed",
            PROGRESSIVE,
            "supported_infinitive(linked_stem.strip_prefix('न')?, stem.strip_prefix('न')?)?",
            "supported_infinitive(linked_stem.strip_prefix('न')?.trim_start_matches('न'), stem.strip_prefix('न')?.trim_start_matches('न'))?",
        ),
        slip(
            "negative searched first",
            PROGRESSIVE,
            "if let Some(lemma) = supported_infinitive(linked_stem, stem) {\n        (lemma, false)",
            "if let Some(lemma) = linked_stem.strip_prefix('न').and_then(|linked| supported_infinitive(linked, stem.strip_prefix('न').unwrap_or(\"\"))) {
        (lemma, true)
    } else if let Some(lemma) = supported_infinitive(linked_stem, stem) {\n        (lemma, false)",
        ),
        slip(
            "main form without its न",
            PROGRESSIVE,
            "        main_form: linked_stem.to_string(),",
            "        main_form: if negative { linked_stem.strip_prefix('न').unwrap_or(\"\") } else { linked_stem }.to_string(),",
        ),
        slip("stem may end in ्", PROGRESSIVE, "stem.is_empty() || stem.ends_with('्')", "stem.is_empty()"),
        slip("stem may be empty", PROGRESSIVE, "stem.is_empty() || stem.ends_with('्')", "stem.ends_with('्')"),
        slip("उनु after ा alone", PROGRESSIVE, "stem.ends_with(['ा', 'आ'])", "stem.ends_with('ा')"),
        slip("उनु after आ alone", PROGRESSIVE, "stem.ends_with(['ा', 'आ'])", "stem.ends_with('आ')"),
        slip("उनु after any stem", PROGRESSIVE, "stem.ends_with(['ा', 'आ'])", "true"),
        slip("उनु first", PROGRESSIVE, "&[\"नु\", \"्नु\", \"उनु\"]", "&[\"उनु\", \"नु\", \"्नु\"]"),
        slip("्नु first after ा", PROGRESSIVE, "&[\"नु\", \"्नु\", \"उनु\"]", "&[\"्नु\", \"नु\", \"उनु\"]"),
        slip("्नु first", PROGRESSIVE, "        &[\"नु\", \"्नु\"]\n", "        &[\"्नु\", \"नु\"]\n"),
        slip("linked form and नु not tried", PROGRESSIVE, "            is_verb(&lemma).then_some(lemma)\n        })\n}", "            is_verb(&lemma).then_some(lemma).filter(|_| false)\n        })\n}"),
        slip(
            "linked form and नु tried first",
            PROGRESSIVE,
            "    let endings: &[&str] = if",
            "    if is_verb(&format!(\"{linked_stem}नु\")) {
        return Some(format!(\"{linked_stem}नु\"));
    }
    let endings: &[&str] = if",
        ),
        slip("रहेका missing", PROGRESSIVE, "[\"रहेको\", \"रहेकी\", \"रहेका\"]", "[\"रहेको\", \"रहेकी\"]"),
        slip("ई links too", PROGRESSIVE, "linked_stem.strip_suffix('इ'))?", "linked_stem.strip_suffix(['इ', 'ई']))?"),
        slip(
            "lemma a headword",
            PROGRESSIVE,
            "        lex.lookup(lemma)\n            .is_some_and(|entry| part_of_speech::is_verb(entry.pos))",
            "        lex.lookup(lemma)\n            .is_some()",
        ),
    ]
}
