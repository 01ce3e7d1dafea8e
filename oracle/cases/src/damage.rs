//! Damage: bytes that are no UTF-8, and lines that are no form.

use crate::random::Random;

/// Stretches of bytes at the limits of UTF-8; most are damaged, some are good on purpose.
#[rustfmt::skip]
pub const STRETCHES: &[&[u8]] = &[
    // overlong
    b"\xC0\x80", b"\xC1\xBF", b"\xE0\x80\x80", b"\xE0\x9F\xBF", b"\xF0\x80\x80\x80", b"\xF0\x8F\xBF\xBF",
    // surrogates
    b"\xED\xA0\x80", b"\xED\xAF\xBF", b"\xED\xB0\x80", b"\xED\xBF\xBF",
    // above 10FFFF, and first bytes that begin nothing
    b"\xF4\x90\x80\x80", b"\xF5\x80\x80\x80", b"\xF7\xBF\xBF\xBF", b"\xF8\x88\x80\x80\x80", b"\xFC\x84\x80\x80\x80\x80",
    b"\xFE", b"\xFF",
    // stray tails
    b"\x80", b"\xBF", b"\xA4\x95", b"\xE0\xA4\x95\x95",
    // cut short
    b"\xC2", b"\xDF", b"\xE0", b"\xE0\xA4", b"\xED\x9F", b"\xF0", b"\xF0\x9F", b"\xF0\x9F\x98", b"\xF4\x8F\xBF",
    // cut short by another character
    b"\xC2A", b"\xE0\xA4A", b"\xE0A\x95", b"\xF0\x9F\x98A", b"\xF0\x9FA", b"\xE0\xA4\xE0\xA4\x95", b"\xF0\x9F\xE0\xA4\x95",
    b"\xE0\xC2\x80", b"\xC2\xC0", b"\xE1\x80\xC0", b"\xF1\x80\x80\xC0", b"\xF1\x80\xC0\x80", b"\xF1\xC0\x80\x80", b"\xE1\x7E\x80",
    // good: the first and last of each length
    b"\xC2\x80", b"\xDF\xBF", b"\xE0\xA0\x80", b"\xED\x9F\xBF", b"\xEE\x80\x80", b"\xEF\xBF\xBF", b"\xF0\x90\x80\x80",
    b"\xF4\x8F\xBF\xBF", b"\xF1\x80\x80\x80", b"\xF3\xBF\xBF\xBF", b"\xE1\x80\x80", b"\xEC\xBF\xBF",
];

/// Puts a stretch into `bytes` at the start, at the end or anywhere, or cuts a character.
pub fn damage_text(random: &mut Random, bytes: &mut Vec<u8>) {
    if random.chance(15) && !bytes.is_empty() {
        let place = random.below(bytes.len());
        match random.below(3) {
            0 => drop(bytes.splice(place..=place, [])),
            1 => bytes.truncate(place),
            _ => bytes[place] = random.range(0x80, 0xFF) as u8,
        }
        return;
    }
    let place = match random.below(4) {
        0 => 0,
        1 => bytes.len(),
        _ => random.below(bytes.len() + 1),
    };
    let stretch = match random.below(10) {
        0 => (0..random.range(1, 4)).map(|_| random.range(0x80, 0xFF) as u8).collect(),
        _ => random.pick(STRETCHES).to_vec(),
    };
    bytes.splice(place..place, stretch);
}

/// A byte that neither word nor name may hold.
pub fn forbidden_byte(random: &mut Random) -> u8 {
    match random.below(4) {
        0 => random.pick(&[0x28, 0x29, 0x7F, 0x20, 0x00, 0x0D, 0x09, 0x1F]),
        _ => match random.below(36) as u8 {
            33 => 0x28,
            34 => 0x29,
            35 => 0x7F,
            byte => byte,
        },
    }
}

pub type Damage = fn(&mut Random, &mut Vec<u8>);

/// The ways in which a line is made no form, by name.
pub const LINE_DAMAGES: &[(&str, Damage)] = &[
    ("space doubled", |random, line| insert_at(random, line, b' ', b" ")),
    ("space missing", |random, line| remove_one(random, line, b' ')),
    ("tab for space", |random, line| replace_one(random, line, b' ', b'\t')),
    ("parenthesis missing", |random, line| {
        let byte = random.pick(b"()");
        remove_one(random, line, byte);
    }),
    ("parenthesis doubled", |random, line| {
        let byte = random.pick(b"()");
        insert_at(random, line, byte, &[byte]);
    }),
    ("something before 0A", |random, line| {
        let byte = random.pick(b" \r\t)(x\0");
        line.insert(line.len().saturating_sub(1), byte);
    }),
    ("something in front", |random, line| {
        let byte = random.pick(b" \r\t)(x\n");
        line.insert(0, byte);
    }),
    ("0A missing", |_, line| line.truncate(line.len().saturating_sub(1))),
    ("first letter", |random, line| {
        let byte = random.pick(b"xmjvaKLW k\0(l");
        set(line, 1, byte);
    }),
    ("empty name", |_, line| set_name(line, b"")),
    ("forbidden byte in name", |random, line| {
        let byte = forbidden_byte(random);
        edit_name(random, line, |random, name| {
            let place = random.below(name.len() + 1);
            name.insert(place, byte);
        });
    }),
    ("UTF-8 of name", |random, line| edit_name(random, line, damage_text)),
    ("name of any bytes", |random, line| {
        let name: Vec<u8> = (0..random.range(1, 6)).map(|_| random.below(256) as u8).collect();
        set_name(line, &name);
    }),
    ("name length", |random, line| {
        let length = random.range(209, 213);
        set_name(line, &vec![b'a'; length]);
    }),
    ("inside", |random, line| {
        let inner = random.pick(INNERS);
        set_inner(line, inner);
    }),
    ("forbidden byte inside", |random, line| {
        let byte = forbidden_byte(random);
        edit_inner(random, line, |random, inner| {
            let place = random.below(inner.len() + 1);
            inner.insert(place, byte);
        });
    }),
    ("UTF-8 inside", |random, line| edit_inner(random, line, damage_text)),
    ("letters", |random, line| {
        set(line, 1, b'w');
        let inner = any_letters(random);
        set_inner(line, &inner);
    }),
    ("kind", |random, line| {
        set(line, 1, b'k');
        let inner = random.pick(INNERS);
        set_inner(line, inner);
    }),
    ("link", |random, line| {
        set(line, 1, b'l');
        let name = random.pick(LINK_NAMES);
        let inner = random.pick(INFINITIVES);
        set_name(line, name.as_bytes());
        set_inner(line, inner.as_bytes());
    }),
    ("link lengths", |random, line| {
        // 35 times 6 bytes is 210; with नु or ि before them the name is 210 to 213 bytes.
        set(line, 1, b'l');
        let fill = random.range(198, 205);
        let (name, inner) = (format!("{}ि", "क".repeat(fill / 3)), format!("{}नु", "a".repeat(fill)));
        set_name(line, if random.chance(50) { name.as_bytes() } else { "गरि".as_bytes() });
        set_inner(line, inner.as_bytes());
    }),
    ("another field", |random, line| {
        let more = random.pick(&[&b" x"[..], b" ()", b" (w)", b" "]);
        let end = line.len().saturating_sub(random.range(1, 3));
        line.splice(end..end, more.iter().copied());
    }),
    ("cut", |random, line| {
        let length = random.below(line.len().max(1));
        line.truncate(length);
        if random.chance(70) {
            line.push(b'\n');
        }
    }),
    ("empty line", |_, line| *line = b"\n".to_vec()),
    ("one byte", |random, line| {
        if !line.is_empty() {
            let place = random.below(line.len());
            line[place] = random.below(256) as u8;
        }
    }),
    ("byte more", |random, line| {
        let place = random.below(line.len() + 1);
        let byte = random.pick(b" ()\nwhvpetbdakl\xE0\x80");
        line.insert(place, byte);
    }),
    ("byte less", |random, line| {
        if !line.is_empty() {
            let place = random.below(line.len());
            line.remove(place);
        }
    }),
];

const INNERS: &[&[u8]] = &[
    b"post",
    b"comp",
    b"pos",
    b"postt",
    b"com",
    b"compp",
    b"Post",
    b"COMP",
    b"case",
    b"",
    b"post ",
    b" post",
    b"p",
    b"c",
    b"postcomp",
    b"pomp",
    b"cost",
    b"w",
    b"h",
    b"wh",
];

pub const LINK_NAMES: &[&str] =
    &["गरि", "खाइ", "ि", "इ", "गरी", "खाई", "गर", "गरिa", "िक", "ई", "aि", "\u{1F600}इ", "गरु"];

pub const INFINITIVES: &[&str] = &["गर्नु", "नु", "न", "ु", "नू", "गर्नुa", "गर्ने", "", "aनु", "नुु", "नुनु", "गर्न"];

/// Letters in any order and number; about a quarter are right.
pub fn any_letters(random: &mut Random) -> Vec<u8> {
    if random.chance(15) {
        return (0..random.range(0, 5)).map(|_| random.pick(b"whvpetbdax W")).collect();
    }
    const OFTEN: [(u8, usize); 5] = [(b'w', 60), (b'h', 68), (b'v', 35), (b'p', 45), (b'e', 35)];
    let mut letters: Vec<u8> =
        OFTEN.iter().filter(|(_, percent)| random.chance(*percent)).map(|&(letter, _)| letter).collect();
    let tags = random.weighted(&[(5, ""), (1, "t"), (1, "b"), (1, "d"), (1, "a"), (1, "tb"), (1, "da"), (1, "at")]);
    letters.extend_from_slice(tags.as_bytes());
    match random.below(8) {
        0 if letters.len() > 1 => {
            let place = random.below(letters.len() - 1);
            letters.swap(place, place + 1);
        }
        1 if !letters.is_empty() => {
            let place = random.below(letters.len());
            let again = letters[place];
            letters.insert(place, again);
        }
        _ => {}
    }
    letters
}

fn set(line: &mut [u8], place: usize, byte: u8) {
    if let Some(slot) = line.get_mut(place) {
        *slot = byte;
    }
}

fn places(line: &[u8], byte: u8) -> Vec<usize> {
    (0..line.len()).filter(|&place| line[place] == byte).collect()
}

fn insert_at(random: &mut Random, line: &mut Vec<u8>, byte: u8, what: &[u8]) {
    let found = places(line, byte);
    if !found.is_empty() {
        let place = random.pick(&found);
        line.splice(place..place, what.iter().copied());
    }
}

fn remove_one(random: &mut Random, line: &mut Vec<u8>, byte: u8) {
    let found = places(line, byte);
    if !found.is_empty() {
        line.remove(random.pick(&found));
    }
}

fn replace_one(random: &mut Random, line: &mut [u8], byte: u8, with: u8) {
    let found = places(line, byte);
    if !found.is_empty() {
        line[random.pick(&found)] = with;
    }
}

/// Where the first name stands in a good line.
fn name_place(line: &[u8]) -> std::ops::Range<usize> {
    let from = 3.min(line.len());
    let to = line[from..].iter().position(|&byte| byte == b' ').map_or(from, |found| from + found);
    from..to
}

/// Where the text between the inner parentheses stands in a good line.
fn inner_place(line: &[u8]) -> std::ops::Range<usize> {
    let from = (name_place(line).end + 2).min(line.len());
    let to = line.len().saturating_sub(3).max(from);
    from..to
}

fn set_name(line: &mut Vec<u8>, name: &[u8]) {
    let place = name_place(line);
    line.splice(place, name.iter().copied());
}

fn set_inner(line: &mut Vec<u8>, inner: &[u8]) {
    let place = inner_place(line);
    line.splice(place, inner.iter().copied());
}

fn edit_name(random: &mut Random, line: &mut Vec<u8>, edit: impl Fn(&mut Random, &mut Vec<u8>)) {
    let mut name = line[name_place(line)].to_vec();
    edit(random, &mut name);
    set_name(line, &name);
}

fn edit_inner(random: &mut Random, line: &mut Vec<u8>, edit: impl Fn(&mut Random, &mut Vec<u8>)) {
    let mut inner = line[inner_place(line)].to_vec();
    edit(random, &mut inner);
    set_inner(line, &inner);
}
