//! Sheets put to a plain second reading of document 02 (k), to the library's functions with their buffers and lists, and to the crate over
//! them. The source knows no sheet, so that it can't be asked.

use acceptance::{Form, check_sheet};
use shabda::tables::{CASE_MARKERS, PARTICLES, PLURAL_MARKERS};
use std::collections::BTreeMap;
use std::fmt::Write;
use yunthirel::raw;

/// The functions that are asked: the library's, or others in their place where a test plants a wrong one.
#[derive(Clone, Copy)]
pub struct Asked {
    pub references: fn(&[u8], &mut [u8]) -> u64,
    pub findings: fn(&[u8], &mut [u32]) -> u64,
}

pub const LIBRARY: Asked = Asked { references: raw::references, findings: raw::findings };

/// All sides' answers for a sheet: the report, or the refusal's line.
pub struct Compared {
    pub oracle: String,
    pub references: String,
    pub findings: String,
    pub api: String,
}

impl Compared {
    pub fn of(sheet: &[u8]) -> Compared {
        Compared {
            oracle: oracle(sheet),
            references: references(LIBRARY, sheet),
            findings: findings(LIBRARY, sheet),
            api: api(sheet),
        }
    }

    pub fn differs(&self) -> bool {
        self.references != self.oracle || self.findings != self.oracle || self.api != self.oracle
    }
}

/// The report by a plain reading of document 02: each line of the sheet in its order.
pub fn oracle(sheet: &[u8]) -> String {
    let forms = match check_sheet(sheet) {
        Ok(forms) => forms,
        Err(refusal) => return format!("(refused {refusal})\n"),
    };
    let texts = [PARTICLES, CASE_MARKERS, PLURAL_MARKERS].concat();
    let verbs: BTreeMap<&str, bool> = forms
        .iter()
        .filter_map(|form| match form {
            Form::Word { name, letters } => Some((*name, letters.contains('v'))),
            _ => None,
        })
        .collect();
    let lines: Vec<String> = forms
        .iter()
        .filter_map(|form| match form {
            Form::Link { link, infinitive } => match verbs.get(infinitive) {
                None => Some(format!("(l {link} missing)\n")),
                Some(false) => Some(format!("(l {link} notverb)\n")),
                Some(true) => None,
            },
            Form::Kind { suffix, .. } => (!texts.contains(suffix)).then(|| format!("(k {suffix} unused)\n")),
            Form::Word { .. } => None,
        })
        .collect();
    format!("(check {})\n{}", lines.len(), lines.concat())
}

/// The crate's answer, by its values; its text must be the same, and a line must begin where a value says.
pub fn api(sheet: &[u8]) -> String {
    match yunthirel::check_references(sheet) {
        Err(refusal) => refused(refusal.number(), refusal.start()),
        Ok(found) => {
            let mut text = format!("(check {})\n", found.len());
            for line in &found {
                writeln!(text, "{line}").expect("a text takes all");
                if !sheet[line.start() + 3..].starts_with(line.name().as_bytes()) {
                    return format!("no line: {line:?}");
                }
            }
            let mut out = vec![0; sheet.len() + raw::REPORT_HEAD];
            match yunthirel::write_references(sheet, &mut out) {
                Ok(size) if out[..size] == *text.as_bytes() => text,
                other => format!("values {text}, and as text {other:?}"),
            }
        }
    }
}

fn refused(number: u8, start: Option<usize>) -> String {
    match start {
        Some(start) => format!("(refused {number} {start})\n"),
        None => format!("(refused {number})\n"),
    }
}

/// A refusal as its code says it: 5 and 6 with a place, all else without.
fn refused_by(code: u64) -> String {
    let number = raw::number(code);
    match number {
        5 | 6 => refused(number, Some(raw::above(code))),
        _ if raw::above(code) == 0 => refused(number, None),
        _ => format!("{number} with {}", raw::above(code)),
    }
}

/// What an output holds before the call.
fn old<T: Copy>(length: usize, make: fn(usize) -> T) -> Vec<T> {
    (0..length).map(make).collect()
}

/// What a function gives for an output of any length, or what is wrong: past the answer and after a refusal the output must hold what it
/// held, shorter ones are refused with 8, the exact one is filled alike.
fn filled<T: Copy + PartialEq>(
    ask: impl Fn(&mut [T]) -> u64,
    room: usize,
    make: fn(usize) -> T,
) -> Result<Vec<T>, String> {
    let before = old(room + 8, make);
    let mut out = before.clone();
    let code = ask(&mut out);
    if raw::number(code) != 0 {
        let mut none: [T; 0] = [];
        return Err(match () {
            () if out != before => format!("refused with {} and wrote", raw::number(code)),
            () if ask(&mut none) != code => format!("refused with {}, and otherwise without room", raw::number(code)),
            () => refused_by(code),
        });
    }
    let size = raw::above(code);
    if size > room || out[size..] != before[size..] {
        return Err(format!("{size} written, and past them, or past {room}"));
    }
    out.truncate(size);
    for short in [0, size / 2, size.saturating_sub(1)].into_iter().filter(|&short| short < size) {
        let mut part = before[..short].to_vec();
        if ask(&mut part) != 8 || part != before[..short] {
            return Err(format!("not 8 in {short} of {size}, or wrote"));
        }
    }
    let mut exact = before[1..=size].to_vec();
    if ask(&mut exact) != code || exact != out {
        return Err(format!("otherwise in {size}"));
    }
    Ok(out)
}

/// The report as text, from buffers.
pub fn references(asked: Asked, sheet: &[u8]) -> String {
    let room = sheet.len() + raw::REPORT_HEAD;
    match filled(|out| (asked.references)(sheet, out), room, |at| (at * 31 + 7) as u8) {
        Ok(text) => String::from_utf8(text).unwrap_or_else(|_| "not UTF-8".to_string()),
        Err(text) => text,
    }
}

/// The report from findings.
pub fn findings(asked: Asked, sheet: &[u8]) -> String {
    let room = (sheet.len() / 10).min(raw::MOST_LINES);
    match filled(|list| (asked.findings)(sheet, list), room, |at| (at as u32).wrapping_mul(0x9E37_79B9) | 1 << 31) {
        Ok(list) => {
            let mut text = format!("(check {})\n", list.len());
            for number in list {
                let line = &sheet[((number >> 8) as usize).min(sheet.len())..];
                let name = line.get(3..).unwrap_or_default().split(|&byte| byte == b' ').next().unwrap_or_default();
                let word = ["sound", "missing", "notverb", "unused"].get((number & 0xFF) as usize).unwrap_or(&"?");
                let letter = char::from(line.get(1).copied().unwrap_or(b'?'));
                writeln!(text, "({letter} {} {word})", String::from_utf8_lossy(name)).expect("a text takes all");
            }
            text
        }
        Err(text) => text,
    }
}
