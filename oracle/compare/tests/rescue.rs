//! Wrong rescues in the library's place: each fault must be seen, and the plain one must not be.

use acceptance::Form;
use cases::torn;
use compare::rescue::{Ask, function, oracle};

/// Sheets of the seed among which a fault must be seen.
const SHEETS: u64 = 6_000;

/// What a plain rescue goes by; each fault turns one of them.
#[derive(Clone, Copy)]
struct Rules {
    limit: usize,
    last_without_feed: bool,
    above_the_line_before: bool,
    equal_is_above: bool,
    counted_with_feed: bool,
    order_as_form: bool,
    start: usize,
    kept_dropped: bool,
    short: u64,
    one_left: bool,
}

const RIGHT: Rules = Rules {
    limit: 65_536,
    last_without_feed: false,
    above_the_line_before: false,
    equal_is_above: false,
    counted_with_feed: true,
    order_as_form: false,
    start: 0,
    kept_dropped: false,
    short: 8,
    one_left: true,
};

fn rescue(rules: Rules, sheet: &[u8]) -> Option<(Vec<u8>, Vec<u8>)> {
    if sheet.len() > rules.limit {
        return None;
    }
    let (mut kept, mut report) = (Vec::new(), String::new());
    let mut last: Option<Form> = None;
    let mut at = 0;
    for line in sheet.split_inclusive(|&byte| byte == b'\n') {
        let bare = line.strip_suffix(b"\n").or(rules.last_without_feed.then_some(line));
        let form = bare.and_then(Form::of_line);
        let above =
            |form: &Form| last.is_none_or(|last| last.stands_below(form) || (rules.equal_is_above && last == *form));
        let why = match &form {
            None => Some("form"),
            Some(form) if !above(form) => Some(if rules.order_as_form { "form" } else { "order" }),
            Some(_) => None,
        };
        if let Some(why) = why {
            let length =
                if rules.counted_with_feed { line.len() } else { line.len() - usize::from(line.ends_with(b"\n")) };
            report += &format!("(cut {} {length} {why})\n", at + rules.start);
        }
        if why.is_none() && !rules.kept_dropped {
            kept.extend(line);
        }
        if form.is_some() && (why.is_none() || rules.above_the_line_before) {
            last = form;
        }
        at += line.len();
    }
    Some((kept, report.into_bytes()))
}

thread_local!(static RULES: std::cell::Cell<Rules> = const { std::cell::Cell::new(RIGHT) });

fn planted(sheet: &[u8], kept: &mut [u8], report: &mut [u8]) -> u64 {
    let rules = RULES.get();
    let Some((text, lines)) = rescue(rules, sheet) else {
        return 4;
    };
    let fits = [text.len() <= kept.len(), lines.len() <= report.len()];
    if fits.contains(&false) {
        if fits[0] && !rules.one_left {
            kept[..text.len()].copy_from_slice(&text);
        }
        return rules.short;
    }
    kept[..text.len()].copy_from_slice(&text);
    report[..lines.len()].copy_from_slice(&lines);
    (text.len() as u64) << 8 | (lines.len() as u64) << 32
}

fn seen(rules: Rules) -> bool {
    RULES.set(rules);
    let ask: Ask = planted;
    (0..SHEETS).map(|index| torn::sheet(1, index)).any(|sheet| function(ask, &sheet) != oracle(&sheet))
}

#[test]
fn the_plain_rescue_is_right() {
    assert!(!seen(RIGHT));
}

#[test]
fn planted_faults_are_seen() {
    let faults: &[(&str, Rules)] = &[
        ("65,535 bytes", Rules { limit: 65_535, ..RIGHT }),
        ("65,537 bytes", Rules { limit: 65_537, ..RIGHT }),
        ("a last line without 0A kept", Rules { last_without_feed: true, ..RIGHT }),
        ("above the line before", Rules { above_the_line_before: true, ..RIGHT }),
        ("an equal line kept", Rules { equal_is_above: true, ..RIGHT }),
        ("a length without its 0A", Rules { counted_with_feed: false, ..RIGHT }),
        ("order as form", Rules { order_as_form: true, ..RIGHT }),
        ("places from 1", Rules { start: 1, ..RIGHT }),
        ("nothing kept", Rules { kept_dropped: true, ..RIGHT }),
        ("10 for 8", Rules { short: 10, ..RIGHT }),
        ("one written where the other is too short", Rules { one_left: false, ..RIGHT }),
    ];
    for &(name, rules) in faults {
        assert!(seen(rules), "{name}");
    }
}
