//! Wrong tokenizers in the library's place: each fault must be seen, and the plain one must not be.

use cases::running;
use compare::tokens::{Fill, function, oracle};

/// Texts of the seed among which a fault must be seen.
const TEXTS: u64 = 20_000;

/// What a plain tokenizer goes by.
#[derive(Clone, Copy)]
struct Rules {
    parts: fn(char) -> bool,
    held: fn(char) -> bool,
    limit: usize,
    code: fn(u64, usize) -> u64,
}

fn parts(c: char) -> bool {
    running::SPACES.contains(&c) || running::MARKS.contains(&c)
}

fn held(c: char) -> bool {
    ('\u{900}'..='\u{97F}').contains(&c)
}

const RIGHT: Rules = Rules { parts, held, limit: 65_536, code: |number, count| number | (count as u64) << 8 };

/// A plain tokenizer by such rules.
fn tokens(rules: Rules, text: &[u8], list: &mut [u32]) -> u64 {
    let spans = match spans(rules, text) {
        Ok(spans) => spans,
        Err(number) => return (rules.code)(number, 0),
    };
    if list.len() < 2 * spans.len() {
        return (rules.code)(10, 0);
    }
    list.iter_mut().zip(spans.iter().flat_map(|&(start, end)| [start, end])).for_each(|(to, place)| *to = place as u32);
    (rules.code)(0, spans.len())
}

fn spans(rules: Rules, text: &[u8]) -> Result<Vec<(usize, usize)>, u64> {
    if text.len() > rules.limit {
        return Err(9);
    }
    let text = std::str::from_utf8(text).map_err(|_| 2u64)?;
    let mut spans = Vec::new();
    let mut from = 0;
    for piece in text.split(rules.parts) {
        if piece.contains(rules.held) {
            spans.push((from, from + piece.len()));
        }
        from += piece.len() + text[from + piece.len()..].chars().next().map_or(0, char::len_utf8);
    }
    Ok(spans)
}

fn seen(ask: Fill) -> bool {
    (0..TEXTS).map(|index| running::text(1, index)).any(|text| function(ask, &text) != oracle(&text))
}

#[test]
fn the_plain_one_is_right() {
    assert!(!seen(|text, list| tokens(RIGHT, text, list)));
}

macro_rules! planted {
    ($($name:ident: $ask:expr;)*) => {
        $(#[test]
        fn $name() {
            assert!(seen($ask));
        })*
    };
}

planted! {
    double_danda_parts: |text, list| tokens(Rules { parts: |c| parts(c) || c == '॥', ..RIGHT }, text, list);
    danda_joins: |text, list| tokens(Rules { parts: |c| parts(c) && c != '।', ..RIGHT }, text, list);
    zero_width_space_parts: |text, list| tokens(Rules { parts: |c| parts(c) || c == '\u{200B}', ..RIGHT }, text, list);
    joiner_parts: |text, list| tokens(Rules { parts: |c| parts(c) || c == '\u{200D}', ..RIGHT }, text, list);
    byte_order_mark_parts: |text, list| tokens(Rules { parts: |c| parts(c) || c == '\u{FEFF}', ..RIGHT }, text, list);
    next_line_joins: |text, list| tokens(Rules { parts: |c| parts(c) && c != '\u{85}', ..RIGHT }, text, list);
    ogham_space_joins: |text, list| tokens(Rules { parts: |c| parts(c) && c != '\u{1680}', ..RIGHT }, text, list);
    ideographic_space_joins: |text, list| tokens(Rules { parts: |c| parts(c) && c != '\u{3000}', ..RIGHT }, text, list);
    line_separator_joins: |text, list| tokens(Rules { parts: |c| parts(c) && c != '\u{2028}', ..RIGHT }, text, list);
    vertical_tab_joins: |text, list| tokens(Rules { parts: |c| parts(c) && c != '\u{B}', ..RIGHT }, text, list);
    slash_joins: |text, list| tokens(Rules { parts: |c| parts(c) && c != '/', ..RIGHT }, text, list);
    left_quote_joins: |text, list| tokens(Rules { parts: |c| parts(c) && c != '‘', ..RIGHT }, text, list);
    horizontal_bar_parts: |text, list| tokens(Rules { parts: |c| parts(c) || c == '―', ..RIGHT }, text, list);
    ascii_punctuation_parts: |text, list| tokens(Rules { parts: |c| parts(c) || c.is_ascii_punctuation(), ..RIGHT }, text, list);
    range_from_0901: |text, list| tokens(Rules { held: |c| held(c) && c != '\u{900}', ..RIGHT }, text, list);
    range_to_0980: |text, list| tokens(Rules { held: |c| held(c) || c == '\u{980}', ..RIGHT }, text, list);
    every_run_kept: |text, list| tokens(Rules { held: |_| true, ..RIGHT }, text, list);
    limit_of_65535: |text, list| tokens(Rules { limit: 65_535, ..RIGHT }, text, list);
    limit_of_65537: |text, list| tokens(Rules { limit: 65_537, ..RIGHT }, text, list);
    utf8_before_length: |text, list| match std::str::from_utf8(text) {
        Ok(_) => tokens(RIGHT, text, list),
        Err(_) => 2,
    };
    short_list_before_utf8: |text, list| match std::str::from_utf8(text) {
        Err(_) if text.len() <= 65_536 && list.is_empty() => 10,
        _ => tokens(RIGHT, text, list),
    };
    number_of_a_short_list: |text, list| tokens(Rules { code: |number, count| if number == 10 { 8 } else { (RIGHT.code)(number, count) }, ..RIGHT }, text, list);
    damaged_text_patched: |text, list| match String::from_utf8_lossy(text) {
        patched if text.len() <= 65_536 => tokens(RIGHT, patched.as_bytes(), list),
        _ => tokens(RIGHT, text, list),
    };
    end_of_16_bits: |text, list| {
        let code = tokens(RIGHT, text, list);
        if code & 0xFF == 0 {
            list.iter_mut().take(2 * (code >> 8) as usize).for_each(|place| *place = u32::from(*place as u16));
        }
        code
    };
    last_token_lost: |text, list| {
        let code = tokens(RIGHT, text, list);
        if code & 0xFF == 0 { code.saturating_sub(1 << 8) } else { code }
    };
    one_number_too_many: |text, list| {
        let code = tokens(RIGHT, text, list);
        if code & 0xFF == 0 && 2 * (code >> 8) < list.len() as u64 {
            list[2 * (code >> 8) as usize] = 0;
        }
        code
    };
    written_where_it_is_too_short: |text, list| {
        let code = tokens(RIGHT, text, list);
        if code == 10 && list.len() >= 2 {
            list[0] = 0;
        }
        code
    };
    written_where_it_is_no_utf8: |text, list| {
        let code = tokens(RIGHT, text, list);
        if code == 2 && !list.is_empty() {
            list[0] = 0;
        }
        code
    };
    exact_list_refused: |text, list| match tokens(RIGHT, text, &mut list.to_vec()) {
        code if code & 0xFF == 0 && code > 0 && list.len() as u64 == 2 * (code >> 8) => 10,
        _ => tokens(RIGHT, text, list),
    };
}
