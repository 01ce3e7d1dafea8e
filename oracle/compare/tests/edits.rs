//! Wrong edits in the library's place: each fault must be seen, and the plain one must not be.

use acceptance::{Form, check_sheet};
use cases::corrections::{Edit, STEPS, sheet, step};
use compare::edits::{buffer_of, function, oracle};

/// Runs of edits of the seed among which a fault must be seen.
const RUNS: u64 = 400;

/// What a plain edit goes by; each fault turns one of them.
#[derive(Clone, Copy)]
struct Rules {
    limit: usize,
    beyond: bool,
    line_first: bool,
    feed: bool,
    single: bool,
    by_value: bool,
    by_name: bool,
    name_first: bool,
    nothing: bool,
    exact: bool,
    added: bool,
    old_behind: bool,
    wrote: bool,
    at_the_end: bool,
    start: u64,
}

const RIGHT: Rules = Rules {
    limit: 65_536,
    beyond: false,
    line_first: false,
    feed: true,
    single: true,
    by_value: false,
    by_name: false,
    name_first: false,
    nothing: true,
    exact: true,
    added: false,
    old_behind: true,
    wrote: false,
    at_the_end: false,
    start: 0,
};

fn parts(line: &[u8]) -> (u8, &[u8], &[u8]) {
    let end = line[3..].iter().position(|&byte| byte == b' ').map_or(line.len(), |at| at + 3);
    (line[1], &line[3..end], &line[end..])
}

/// Whether the given line is taken for a form.
fn taken(rules: Rules, line: &[u8]) -> bool {
    let first = if rules.single { line } else { line.split_inclusive(|&byte| byte == b'\n').next().unwrap_or(line) };
    let bare = if rules.feed { first.strip_suffix(b"\n") } else { Some(first.strip_suffix(b"\n").unwrap_or(first)) };
    bare.and_then(Form::of_line).is_some()
}

fn edited(rules: Rules, edit: Edit, buffer: &mut [u8], used: usize, line: &[u8]) -> Result<usize, u64> {
    if used > buffer.len() && !rules.beyond {
        return Err(4);
    }
    let used = used.min(buffer.len());
    if rules.line_first && !taken(rules, line) {
        return Err(11);
    }
    if used > 65_536 {
        return Err(4);
    }
    let sheet = buffer[..used].to_vec();
    if let Err(refusal) = check_sheet(&sheet) {
        return Err(u64::from(refusal.number) | (refusal.start.unwrap_or(0) as u64 + rules.start) << 8);
    }
    if !taken(rules, line) {
        return Err(11);
    }
    let all: Vec<&[u8]> = sheet.split_inclusive(|&byte| byte == b'\n').collect();
    let alike = |other: &&[u8]| {
        let (one, two) = (parts(other), parts(line));
        (one.0 == two.0 || rules.by_name) && one.1 == two.1 && (one.2 == two.2 || !rules.by_value)
    };
    let mut lines: Vec<&[u8]> = all.iter().copied().filter(|other| !alike(other)).collect();
    if edit == Edit::Withdraw && lines.len() == all.len() && rules.nothing {
        return Err(12);
    }
    if edit == Edit::Put {
        lines.push(line);
    }
    if !rules.at_the_end {
        lines.sort_by(|one, two| {
            let (one, two) = (parts(one), parts(two));
            if rules.name_first { (one.1, one.0).cmp(&(two.1, two.0)) } else { (one.0, one.1).cmp(&(two.0, two.1)) }
        });
    }
    let text = lines.concat();
    let size = if rules.added && edit == Edit::Put { used + line.len() } else { text.len() };
    if edit == Edit::Put && (size > buffer.len() || size > rules.limit || (size == buffer.len() && !rules.exact)) {
        if rules.wrote && !text.is_empty() && !buffer.is_empty() {
            buffer[0] = b'!';
        }
        return Err(13);
    }
    if text.len() > buffer.len() {
        return Err(13);
    }
    if !rules.old_behind && text.len() < used {
        buffer[text.len()..used].fill(0);
    }
    buffer[..text.len()].copy_from_slice(&text);
    Ok(text.len())
}

thread_local!(static RULES: std::cell::Cell<Rules> = const { std::cell::Cell::new(RIGHT) });

fn planted(edit: Edit, buffer: &mut [u8], used: usize, line: &[u8]) -> u64 {
    edited(RULES.get(), edit, buffer, used, line).map_or_else(|code| code, |length| (length as u64) << 8)
}

fn seen(rules: Rules) -> bool {
    RULES.set(rules);
    (0..RUNS).any(|run| {
        let mut sheet = sheet(1, run);
        (0..STEPS).any(|place| {
            let step = step(1, run, place, &sheet);
            let (buffer, used) = buffer_of(&sheet, &step);
            if function(planted, step.edit, &buffer, used, &step.line).is_some() {
                return true;
            }
            sheet = oracle(step.edit, &buffer, used, &step.line).unwrap_or(std::mem::take(&mut sheet));
            false
        })
    })
}

#[test]
fn the_plain_edit_is_right() {
    assert!(!seen(RIGHT));
}

#[test]
fn planted_faults_are_seen() {
    let faults: &[(&str, Rules)] = &[
        ("a limit of 65,535 bytes", Rules { limit: 65_535, ..RIGHT }),
        ("a limit of 65,537 bytes", Rules { limit: 65_537, ..RIGHT }),
        ("a used length beyond the buffer cut to it", Rules { beyond: true, ..RIGHT }),
        ("11 before the sheet is looked at", Rules { line_first: true, ..RIGHT }),
        ("a line without its 0A taken", Rules { feed: false, ..RIGHT }),
        ("a form with something behind it taken", Rules { single: false, ..RIGHT }),
        ("a line of another value not replaced", Rules { by_value: true, ..RIGHT }),
        ("a line of another first letter replaced", Rules { by_name: true, ..RIGHT }),
        ("lines sorted by name, then letter", Rules { name_first: true, ..RIGHT }),
        ("nothing to withdraw, and done", Rules { nothing: false, ..RIGHT }),
        ("exact room refused", Rules { exact: false, ..RIGHT }),
        ("13 by the given line's length, also where it replaces one", Rules { added: true, ..RIGHT }),
        ("zeros between the new and the old length", Rules { old_behind: false, ..RIGHT }),
        ("a byte written, and then 13", Rules { wrote: true, ..RIGHT }),
        ("a new line at the end", Rules { at_the_end: true, ..RIGHT }),
        ("places from 1", Rules { start: 1, ..RIGHT }),
    ];
    for &(name, rules) in faults {
        assert!(seen(rules), "{name}");
    }
}

#[test]
fn every_number_comes() {
    let mut came = [false; 14];
    for run in 0..RUNS {
        let sheet = sheet(1, run);
        for place in 0..STEPS {
            let step = step(1, run, place, &sheet);
            let (buffer, used) = buffer_of(&sheet, &step);
            if let Err(refusal) = oracle(step.edit, &buffer, used, &step.line) {
                came[usize::from(refusal.number)] = true;
            }
        }
    }
    assert!([4, 5, 6, 11, 12, 13].iter().all(|&number: &usize| came[number]), "{came:?}");
}
