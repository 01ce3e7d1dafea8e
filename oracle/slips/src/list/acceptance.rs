//! Which words and sheets are accepted, and with what number they are refused.

use crate::slip::{Slip, edits, slip};

const LIB: &str = "oracle/acceptance/src/lib.rs";
const FORM: &str = "oracle/acceptance/src/form.rs";

pub fn slips() -> Vec<Slip> {
    vec![
        // checks in another order
        slip(
            "sheet checked before the word",
            LIB,
            "    Ok((check_word(word)?, check_sheet(sheet)?))",
            "    let forms = check_sheet(sheet)?;\n    Ok((check_word(word)?, forms))",
        ),
        slip(
            "sheet of an empty word not checked",
            LIB,
            "    Ok((check_word(word)?, check_sheet(sheet)?))",
            "    if word.is_empty() {\n        return Ok((\"\", Vec::new()));\n    }\n    Ok((check_word(word)?, check_sheet(sheet)?))",
        ),
        slip(
            "UTF-8 checked before the length",
            LIB,
            "    if word.len() > WORD_LIMIT {",
            "    if word.len() > WORD_LIMIT && std::str::from_utf8(word).is_ok() {",
        ),
        slip(
            "forbidden bytes checked before UTF-8",
            LIB,
            "    let text = std::str::from_utf8(word).map_err(|_| Refusal::plain(2))?;",
            "    let text = std::str::from_utf8(word).map_err(|_| Refusal::plain(if word.iter().any(|&byte| is_forbidden(byte)) { 3 } else { 2 }))?;",
        ),
        slip(
            "forms checked before order",
            LIB,
            "    let mut forms: Vec<Form> = Vec::new();\n    let mut start = 0;\n",
            "    let mut forms: Vec<Form> = Vec::new();
    let mut start = 0;
    for stretch in sheet.split_inclusive(|&byte| byte == 0x0A) {
        if stretch.strip_suffix(b\"\\n\").and_then(Form::of_line).is_none() {
            return Err(Refusal::at(5, start));
        }
        start += stretch.len();
    }
    start = 0;
",
        ),
        edits(
            "order checked before form",
            LIB,
            &[
                ("    let mut start = 0;\n", "    let mut start = 0;\n    let mut before: &[u8] = b\"\";\n"),
                (
                    ".ok_or(Refusal::at(5, start))?;",
                    ".ok_or(Refusal::at(if stretch <= before { 6 } else { 5 }, start))?;",
                ),
                ("        forms.push(form);\n", "        forms.push(form);\n        before = stretch;\n"),
            ],
        ),
        // limits
        slip("word of 191 bytes", LIB, "WORD_LIMIT: usize = 192", "WORD_LIMIT: usize = 191"),
        slip("word of 193 bytes", LIB, "WORD_LIMIT: usize = 192", "WORD_LIMIT: usize = 193"),
        slip("sheet of 65,535 bytes", LIB, "SHEET_LIMIT: usize = 65_536", "SHEET_LIMIT: usize = 65_535"),
        slip("sheet of 65,537 bytes", LIB, "SHEET_LIMIT: usize = 65_536", "SHEET_LIMIT: usize = 65_537"),
        slip("name of 209 bytes", LIB, "NAME_LIMIT: usize = 210", "NAME_LIMIT: usize = 209"),
        slip("name of 211 bytes", LIB, "NAME_LIMIT: usize = 210", "NAME_LIMIT: usize = 211"),
        slip("63 readings", LIB, "READING_LIMIT: usize = 64", "READING_LIMIT: usize = 63"),
        slip("65 readings", LIB, "READING_LIMIT: usize = 64", "READING_LIMIT: usize = 65"),
        // bytes
        slip("7F let in", LIB, "0x00..=0x20 | 0x28 | 0x29 | 0x7F", "0x00..=0x20 | 0x28 | 0x29"),
        slip("29 let in", LIB, "0x00..=0x20 | 0x28 | 0x29 | 0x7F", "0x00..=0x20 | 0x28 | 0x7F"),
        slip("00 let in", LIB, "0x00..=0x20 | 0x28 | 0x29 | 0x7F", "0x01..=0x20 | 0x28 | 0x29 | 0x7F"),
        slip("20 let in", LIB, "0x00..=0x20 | 0x28 | 0x29 | 0x7F", "0x00..=0x1F | 0x28 | 0x29 | 0x7F"),
        slip("21 refused", LIB, "0x00..=0x20 | 0x28 | 0x29 | 0x7F", "0x00..=0x21 | 0x28 | 0x29 | 0x7F"),
        slip("| refused", LIB, "0x00..=0x20 | 0x28 | 0x29 | 0x7F", "0x00..=0x20 | 0x28 | 0x29 | 0x7C | 0x7F"),
        slip("9F and below refused", LIB, "0x00..=0x20 | 0x28 | 0x29 | 0x7F", "0x00..=0x20 | 0x28 | 0x29 | 0x7F..=0x9F"),
        slip(
            "surrogates let in",
            LIB,
            "    let text = std::str::from_utf8(word).map_err(|_| Refusal::plain(2))?;",
            "    let text = match std::str::from_utf8(word) {
        Err(error) if word[error.valid_up_to()] == 0xED => \"\",
        other => other.map_err(|_| Refusal::plain(2))?,
    };",
        ),
        slip(
            "a cut character at the end let in",
            LIB,
            "    let text = std::str::from_utf8(word).map_err(|_| Refusal::plain(2))?;",
            "    let text = match std::str::from_utf8(word) {
        Err(error) if error.error_len().is_none() => \"\",
        other => other.map_err(|_| Refusal::plain(2))?,
    };",
        ),
        // lines
        slip(
            "a last stretch without 0A let in",
            LIB,
            ".and_then(Form::of_line)",
            ".or(Some(stretch)).and_then(Form::of_line)",
        ),
        slip(
            "empty lines let in",
            LIB,
            "        let form = stretch",
            "        if stretch == b\"\\n\" {\n            start += 1;\n            continue;\n        }\n        let form = stretch",
        ),
        slip("start of the line after", LIB, "return Err(Refusal::at(6, start));", "return Err(Refusal::at(6, start + stretch.len()));"),
        slip(
            "start counted in lines",
            LIB,
            ".ok_or(Refusal::at(5, start))?;",
            ".ok_or(Refusal::at(5, forms.len()))?;",
        ),
        slip("equal names let in", FORM, "self.order() < next.order()", "self.order() <= next.order()"),
        slip("order by names alone", FORM, "self.order() < next.order()", "self.order().1 < next.order().1"),
        slip("order by first letter alone", FORM, "self.order() < next.order()", "self.order().0 <= next.order().0"),
        slip(
            "order by characters in UTF-16",
            FORM,
            "self.order() < next.order()",
            "{
            let key = |(letter, name): (char, &[u8])| (letter, String::from_utf8_lossy(name).encode_utf16().collect::<Vec<u16>>());
            key(self.order()) < key(next.order())
        }",
        ),
        slip(
            "shorter names first",
            FORM,
            "self.order() < next.order()",
            "{
            let key = |(letter, name): (char, &[u8])| (letter, name.len(), name.to_vec());
            key(self.order()) < key(next.order())
        }",
        ),
        slip("empty names let in", FORM, "bytes.is_empty() || bytes.len()", "bytes.len()"),
        slip("names not UTF-8 let in", FORM, "    std::str::from_utf8(bytes).ok()\n}\n\nfn kind", "    Some(std::str::from_utf8(bytes).unwrap_or(\"?\"))\n}\n\nfn kind"),
        slip("forbidden bytes in names let in", FORM, " || bytes.iter().any(|&b| is_forbidden(b))", ""),
        slip("an end in ि not asked", FORM, "link.ends_with(['ि', 'इ']) && ", ""),
        slip("an end in इ not enough", FORM, "link.ends_with(['ि', 'इ'])", "link.ends_with('ि')"),
        slip("an infinitive not asked", FORM, "&& infinitive.ends_with(\"नु\")", ""),
        slip("an infinitive ends in ु", FORM, "infinitive.ends_with(\"नु\")", "infinitive.ends_with(\"ु\")"),
        slip("kinds by their first letter", FORM, "        b\"post\" => ", "        [b'p', ..] => "),
        slip("any kind let in", FORM, "        b\"comp\" => Some(Form::Kind { suffix, post: false }),\n        _ => None,", "        _ => Some(Form::Kind { suffix, post: false }),"),
        slip("one parenthesis enough", FORM, "last.strip_prefix(b\"(\")?.strip_suffix(b\"))\")?", "last.strip_prefix(b\"(\")?.strip_suffix(b\"))\").or(last.strip_prefix(b\"(\")?.strip_suffix(b\")\"))?"),
        slip(
            "spaces doubled let in",
            FORM,
            "line.split(|&byte| byte == 0x20).collect();",
            "line.split(|&byte| byte == 0x20).filter(|field| !field.is_empty()).collect();",
        ),
        slip(
            "CR before 0A let in",
            FORM,
            "        let [head, first, last] = fields[..] else {\n            return None;\n        };\n",
            "        let [head, first, last] = fields[..] else {\n            return None;\n        };\n        let last = last.strip_suffix(b\"\\r\").unwrap_or(last);\n",
        ),
        // letters
        slip("no letters let in", FORM, "rest.is_empty() && (w || h) && ", "rest.is_empty() && (w || h || letters.is_empty()) && "),
        slip("w or h not asked", FORM, "rest.is_empty() && (w || h) && (h || !(v || p || e || tag))", "rest.is_empty()"),
        slip("v without h", FORM, "!(v || p || e || tag)", "!(p || e || tag)"),
        slip("p without h", FORM, "!(v || p || e || tag)", "!(v || tag)"),
        slip("tag without h", FORM, "!(v || p || e || tag)", "!(v || p || e)"),
        slip("e without p", FORM, " && (p || !e)", ""),
        slip("h without w refused", FORM, "rest.is_empty() && (w || h)", "rest.is_empty() && w"),
        slip("two tags let in", FORM, "    let tag = ['t', 'b', 'd', 'a'].into_iter().any(take);", "    let tag = ['t', 'b', 'd', 'a'].map(take).contains(&true);"),
        slip(
            "letters in any order",
            FORM,
            "    let mut rest = letters;\n",
            "    let mut sorted: Vec<char> = letters.chars().collect();
    sorted.sort_by_key(|letter| \"whvpetbda\".find(*letter));
    let sorted: String = sorted.into_iter().collect();
    let mut rest = &sorted[..];
",
        ),
        slip(
            "letters repeated let in",
            FORM,
            "            rest = after;\n",
            "            rest = after.trim_start_matches(letter);\n",
        ),
    ]
}
