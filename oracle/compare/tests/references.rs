//! Wrong checks of references in the library's place: each fault must be seen, and the plain one must not be.

use acceptance::{Form, check_sheet};
use cases::referring;
use compare::references::{Asked, findings, oracle, references};

/// Sheets of the seed among which a fault must be seen.
const SHEETS: u64 = 6_000;

/// What a plain check goes by; each test turns one of them.
#[derive(Clone, Copy)]
struct Rules {
    verb: fn(&str) -> bool,
    first_missing: bool,
    same: fn(&str, &str) -> bool,
    text: fn(&str) -> bool,
    kinds: bool,
    counted: fn(usize) -> usize,
    last: bool,
    short: u64,
    left: bool,
}

fn is_text(suffix: &str) -> bool {
    let texts = [shabda::tables::PARTICLES, shabda::tables::CASE_MARKERS, shabda::tables::PLURAL_MARKERS].concat();
    texts.contains(&suffix)
}

const RIGHT: Rules = Rules {
    verb: |letters| letters.contains('v'),
    first_missing: true,
    same: |one, other| one == other,
    text: is_text,
    kinds: true,
    counted: |count| count,
    last: true,
    short: 8,
    left: true,
};

/// The findings by such rules: the line's first byte, its number and its line of the report.
fn found(rules: Rules, sheet: &[u8]) -> Result<Vec<(u32, String)>, u64> {
    let forms =
        check_sheet(sheet).map_err(|refusal| u64::from(refusal.number) | (refusal.start.unwrap_or(0) as u64) << 8)?;
    let starts =
        std::iter::once(0).chain(sheet.iter().enumerate().filter(|&(_, &byte)| byte == b'\n').map(|(at, _)| at + 1));
    let verb = |infinitive: &str| {
        forms.iter().find_map(|form| match form {
            Form::Word { name, letters } if (rules.same)(name, infinitive) => Some((rules.verb)(letters)),
            _ => None,
        })
    };
    let mut lines: Vec<(u32, String)> = Vec::new();
    for (start, form) in starts.zip(&forms) {
        let (fault, line) = match form {
            Form::Link { link, infinitive } => match verb(infinitive) {
                None if rules.first_missing => (1, format!("(l {link} missing)\n")),
                None | Some(false) => (2, format!("(l {link} notverb)\n")),
                Some(true) => continue,
            },
            Form::Kind { suffix, .. } if rules.kinds && !(rules.text)(suffix) => (3, format!("(k {suffix} unused)\n")),
            _ => continue,
        };
        lines.push(((start as u32) << 8 | fault, line));
    }
    if !rules.last {
        lines.pop();
    }
    Ok(lines)
}

fn fill<T: Copy>(rules: Rules, out: &mut [T], answer: &[T]) -> u64 {
    if out.len() < answer.len() {
        if !rules.left {
            let length = out.len();
            out.copy_from_slice(&answer[..length]);
        }
        return rules.short;
    }
    out[..answer.len()].copy_from_slice(answer);
    (answer.len() as u64) << 8
}

thread_local!(static RULES: std::cell::Cell<Rules> = const { std::cell::Cell::new(RIGHT) });

fn as_text(sheet: &[u8], out: &mut [u8]) -> u64 {
    let rules = RULES.get();
    match found(rules, sheet) {
        Err(code) => code,
        Ok(lines) => {
            let text: String = lines.iter().map(|(_, line)| &line[..]).collect();
            fill(rules, out, format!("(check {})\n{text}", (rules.counted)(lines.len())).as_bytes())
        }
    }
}

fn as_numbers(sheet: &[u8], list: &mut [u32]) -> u64 {
    let rules = RULES.get();
    match found(rules, sheet) {
        Err(code) => code,
        Ok(lines) => fill(rules, list, &lines.iter().map(|(number, _)| *number).collect::<Vec<_>>()),
    }
}

const PLANTED: Asked = Asked { references: as_text, findings: as_numbers };

fn seen(rules: Rules, side: fn(Asked, &[u8]) -> String) -> bool {
    RULES.set(rules);
    (0..SHEETS).map(|index| referring::sheet(1, index)).any(|sheet| side(PLANTED, &sheet) != oracle(&sheet))
}

#[test]
fn the_plain_check_is_right() {
    assert!(!seen(RIGHT, references) && !seen(RIGHT, findings));
}

#[test]
fn planted_faults_are_seen() {
    let faults: &[(&str, Rules)] = &[
        ("h for v", Rules { verb: |letters| letters.contains('h'), ..RIGHT }),
        ("a verb always", Rules { verb: |_| true, ..RIGHT }),
        ("missing as notverb", Rules { first_missing: false, ..RIGHT }),
        ("a verb that begins so", Rules { same: |name, verb| name.starts_with(verb), ..RIGHT }),
        ("a suffix more", Rules { text: |suffix| is_text(suffix) || suffix == "क", ..RIGHT }),
        ("a suffix less", Rules { text: |suffix| is_text(suffix) && suffix != "ले", ..RIGHT }),
        ("no kinds", Rules { kinds: false, ..RIGHT }),
        ("the last line dropped", Rules { last: false, ..RIGHT }),
        ("9 for 8", Rules { short: 9, ..RIGHT }),
        ("a short output written", Rules { left: false, ..RIGHT }),
    ];
    for &(name, rules) in faults {
        assert!(seen(rules, references), "{name}, as text");
        assert!(seen(rules, findings), "{name}, as numbers");
    }
    assert!(seen(Rules { counted: |count| count + 1, ..RIGHT }, references), "one more counted");
}
