//! Edits of a sheet in a buffer, one after the other: lines that are there and lines that are not, in every order, given lines that are no
//! single form, used lengths that are not the sheet's, room that is exact or a byte short.

use crate::damage::LINE_DAMAGES;
use crate::random::Random;
use crate::referring;

/// What is done with the given line.
#[derive(Debug, Clone, Copy, PartialEq, Eq)]
pub enum Edit {
    Put,
    Withdraw,
}

/// One edit: the given line, and what the used length and the room behind the sheet are.
#[derive(Debug, Clone)]
pub struct Step {
    pub edit: Edit,
    pub line: Vec<u8>,
    pub used: Used,
    pub room: Room,
}

/// The used length: the sheet's, some bytes less or more inside the buffer, or beyond the buffer.
#[derive(Debug, Clone, Copy)]
pub enum Used {
    Sheet,
    Less(usize),
    More(usize),
    Beyond(usize),
}

/// The room behind the sheet: as much as there is, as many bytes as the edited sheet has, or one byte less.
#[derive(Debug, Clone, Copy)]
pub enum Room {
    Wide(usize),
    Exact,
    Short,
}

/// Edits that one buffer goes through.
pub const STEPS: u64 = 60;

/// The sheet with which run `index` of `seed` begins: often a good one, since a damaged one is refused throughout.
pub fn sheet(seed: u64, index: u64) -> Vec<u8> {
    let mut random = Random::for_case(seed ^ 0xC0, index);
    if random.chance(2) {
        return near_the_limit(&mut random);
    }
    let place = if random.chance(6) { index * 3 } else { good(seed, index * 3) };
    referring::sheet(seed, place)
}

/// The next place whose sheet is accepted.
fn good(seed: u64, from: u64) -> u64 {
    (from..).find(|&place| acceptance::check_sheet(&referring::sheet(seed, place)).is_ok()).unwrap_or(from)
}

/// A good sheet of 65,500 to 65,536 bytes.
fn near_the_limit(random: &mut Random) -> Vec<u8> {
    let size = random.range(65_500, 65_536);
    let mut sheet = Vec::new();
    for number in 0.. {
        let line = format!("(w क{number:05} ({}))\n", random.pick(&["w", "wh", "hv"]));
        if size - sheet.len() < line.len() + 219 {
            break;
        }
        sheet.extend(line.bytes());
    }
    let name = "ख".repeat(60) + &"x".repeat((size - sheet.len()).clamp(190, 219) - 189);
    sheet.extend(format!("(w {name} (w))\n").bytes());
    sheet
}

fn lines(sheet: &[u8]) -> Vec<&[u8]> {
    sheet.split_inclusive(|&byte| byte == b'\n').collect()
}

/// A line of the sheet, one of another sheet, or one whose name begins as another's or is cut short.
fn some_line(random: &mut Random, seed: u64, sheet: &[u8]) -> Vec<u8> {
    let own = lines(sheet);
    match random.below(10) {
        0..=4 if !own.is_empty() => own[random.below(own.len())].to_vec(),
        5..=6 if !own.is_empty() => {
            let line = own[random.below(own.len())];
            renamed(random, line)
        }
        _ => {
            let other = referring::sheet(seed, good(seed, random.below(5_000) as u64));
            let other = lines(&other);
            if other.is_empty() {
                b"(w \xE0\xA4\x95 (w))\n".to_vec()
            } else {
                other[random.below(other.len())].to_vec()
            }
        }
    }
}

/// The line with a name that is longer or shorter by a character, or as long as a name may be and a byte longer.
fn renamed(random: &mut Random, line: &[u8]) -> Vec<u8> {
    let Some(end) = line.get(3..).and_then(|rest| rest.iter().position(|&byte| byte == b' ')).map(|at| at + 3) else {
        return line.to_vec();
    };
    let name = &line[3..end];
    let name = match random.below(6) {
        0 => [name, "क".as_bytes()].concat(),
        1 => ["अ".as_bytes(), name].concat(),
        2 if name.len() > 3 => name[..name.len() - 3].to_vec(),
        3 => [name, &vec![b'x'; (210 - name.len().min(210)).max(1)]].concat(),
        4 => [name, &vec![b'x'; 211 - name.len().min(210)]].concat(),
        _ => [name, b"~"].concat(),
    };
    [&line[..3], &name, &line[end..]].concat()
}

/// The same first letter and name with another value of its kind.
fn revalued(random: &mut Random, line: &[u8]) -> Vec<u8> {
    let Some(at) = line.windows(2).rposition(|two| two == b" (") else {
        return line.to_vec();
    };
    let value: &[u8] = match line.get(1) {
        Some(b'k') => random.pick(&[b"post" as &[u8], b"comp"]),
        Some(b'l') => random.pick(&["नु".as_bytes(), "गर्नु".as_bytes(), "बिर्सिनु".as_bytes()]),
        _ => random.pick(&[b"w" as &[u8], b"h", b"wh", b"whvpet", b"hpa", b"whd"]),
    };
    [&line[..at], b" (", value, b"))\n"].concat()
}

/// A new line with which the sheet would have a byte less than its limit, as many as it, or a byte more.
fn filling(random: &mut Random, sheet: &[u8]) -> Option<Vec<u8>> {
    let frame = "(w  (w))\n".len();
    let name = (acceptance::SHEET_LIMIT + random.below(3)).checked_sub(1 + sheet.len() + frame)?;
    let byte = random.pick(b"~ax");
    (1..=acceptance::NAME_LIMIT).contains(&name).then(|| [b"(w ", &vec![byte; name][..], b" (w))\n"].concat())
}

/// What is given in a line's place: without its 0A, two lines, a form and something behind it, a damaged line, nothing.
fn no_single(random: &mut Random, mut line: Vec<u8>, other: &[u8]) -> Vec<u8> {
    match random.below(7) {
        0 => drop(line.pop()),
        1 => line.extend(other),
        2 => line.push(random.pick(b"\n x(")),
        3 => line.clear(),
        4 => line.insert(0, random.pick(b"\n (")),
        _ => (random.pick(LINE_DAMAGES).1)(random, &mut line),
    }
    line
}

/// Edit `place` of run `index` of `seed`, of the sheet as it stands then.
pub fn step(seed: u64, index: u64, place: u64, sheet: &[u8]) -> Step {
    let mut random = Random::for_case(seed ^ 0xED17, index.wrapping_mul(STEPS) + place);
    let random = &mut random;
    let mut line = some_line(random, seed, sheet);
    if random.chance(45) {
        line = revalued(random, &line);
    }
    if random.chance(20)
        && let Some(filling) = filling(random, sheet)
    {
        line = filling;
    }
    if random.chance(8) {
        let other = some_line(random, seed, sheet);
        line = no_single(random, line, &other);
    }
    let used = match random.below(40) {
        0 => Used::Less(random.range(1, 12)),
        1 => Used::More(random.range(1, 12)),
        2 => Used::Beyond(random.pick(&[1, 2, 40, 70_000, usize::MAX / 2])),
        _ => Used::Sheet,
    };
    let room = match random.below(6) {
        0..=1 => Room::Exact,
        2 => Room::Short,
        3 => Room::Wide(0),
        _ => Room::Wide(random.range(1, 600)),
    };
    // a sheet that has grown is thinned again
    let withdraw = if sheet.len() > 20_000 { 50 } else { 40 };
    let edit = if random.chance(withdraw) { Edit::Withdraw } else { Edit::Put };
    Step { edit, line, used, room }
}
