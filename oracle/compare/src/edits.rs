//! Edits put to a plain second reading of document 02 (c), to the library's functions with their buffers, and to the crate over them. The
//! source knows no sheet, so that it can't be asked.

use acceptance::{Form, Refusal, SHEET_LIMIT, check_sheet};
use cases::corrections::{Edit, Room, Step, Used};
use yunthirel::raw;

/// The function that is asked: the library's, or another in its place where a test plants a wrong one.
pub type Ask = fn(Edit, &mut [u8], usize, &[u8]) -> u64;

/// The library's functions.
pub fn library(edit: Edit, buffer: &mut [u8], used: usize, line: &[u8]) -> u64 {
    match edit {
        Edit::Put => raw::put_line(buffer, used, line),
        Edit::Withdraw => raw::withdraw_line(buffer, used, line),
    }
}

/// First letter and name of a line that is a form.
fn key(line: &[u8]) -> (u8, &[u8]) {
    let end = line[3..].iter().position(|&byte| byte == b' ').map_or(line.len(), |at| at + 3);
    (line[1], &line[3..end])
}

/// From document 02's words: the lines of the sheet but the one of the given line's first letter and name, with the given line if it is put,
/// sorted and written one after the other.
pub fn oracle(edit: Edit, buffer: &[u8], used: usize, line: &[u8]) -> Result<Vec<u8>, Refusal> {
    let sheet = buffer.get(..used).ok_or(Refusal::plain(4))?;
    check_sheet(sheet)?;
    if line.strip_suffix(b"\n").and_then(Form::of_line).is_none() {
        return Err(Refusal::plain(11));
    }
    let all: Vec<&[u8]> = sheet.split_inclusive(|&byte| byte == b'\n').collect();
    let mut lines: Vec<&[u8]> = all.iter().copied().filter(|other| key(other) != key(line)).collect();
    if edit == Edit::Withdraw && lines.len() == all.len() {
        return Err(Refusal::plain(12));
    }
    if edit == Edit::Put {
        lines.push(line);
    }
    lines.sort_by_key(|line| key(line));
    let text = lines.concat();
    if text.len() > buffer.len().min(SHEET_LIMIT) {
        return Err(Refusal::plain(13));
    }
    Ok(text)
}

/// The buffer of a step: the sheet, and behind it other bytes, as many as the step's room says.
pub fn buffer_of(sheet: &[u8], step: &Step) -> (Vec<u8>, usize) {
    let wide: Vec<u8> = [sheet, &vec![0; step.line.len()]].concat();
    let edited = oracle(step.edit, &wide, sheet.len(), &step.line).map_or(sheet.len(), |text| text.len());
    let room = match step.room {
        Room::Wide(more) => sheet.len() + more,
        Room::Exact => edited.max(sheet.len()),
        Room::Short => edited.saturating_sub(1).max(sheet.len()),
    };
    let mut buffer: Vec<u8> = (0..room).map(|at| (at as u8).wrapping_mul(31) ^ 0x5A).collect();
    buffer[..sheet.len()].copy_from_slice(sheet);
    let used = match step.used {
        Used::Sheet => sheet.len(),
        Used::Less(bytes) => sheet.len().saturating_sub(bytes),
        Used::More(bytes) => (sheet.len() + bytes).min(room),
        Used::Beyond(bytes) => room + bytes,
    };
    (buffer, used)
}

/// What the function does otherwise than the second reading, or nothing: its code, and every byte of the buffer.
pub fn function(ask: Ask, edit: Edit, before: &[u8], used: usize, line: &[u8]) -> Option<String> {
    let wanted = oracle(edit, before, used, line);
    // In memory of its exact size, so that a tool which watches memory sees a byte touched past it.
    let mut buffer = before.to_vec().into_boxed_slice();
    let code = ask(edit, &mut buffer, used, &line.to_vec().into_boxed_slice());
    let (number, after) = match &wanted {
        Ok(text) => ((text.len() as u64) << 8, [text, &before[text.len()..]].concat()),
        Err(refusal) => (u64::from(refusal.number) | (refusal.start.unwrap_or(0) as u64) << 8, before.to_vec()),
    };
    if code != number {
        return Some(format!("code {code:#x}, wanted {number:#x}"));
    }
    (*buffer != *after).then(|| {
        let at = (0..before.len()).find(|&at| buffer[at] != after[at]).unwrap_or(0);
        format!("byte {at} of {} is {:#x}, wanted {:#x}", before.len(), buffer[at], after[at])
    })
}

/// The same of the crate: on the buffer, and where the sheet is the whole of it also on a sheet that grows.
pub fn api(edit: Edit, before: &[u8], used: usize, line: &[u8]) -> Option<String> {
    let told = |refusal: yunthirel::Refusal| Refusal { number: refusal.number(), start: refusal.start() };
    let mut buffer = before.to_vec();
    let given = match edit {
        Edit::Put => yunthirel::put_line(&mut buffer, used, line),
        Edit::Withdraw => yunthirel::withdraw_line(&mut buffer, used, line),
    };
    let wanted = oracle(edit, before, used, line);
    let same = match (&given, &wanted) {
        (Ok(length), Ok(text)) => buffer.get(..*length) == Some(text) && buffer[*length..] == before[*length..],
        (Err(refusal), Err(wanted)) => told(*refusal) == *wanted && buffer == before,
        _ => false,
    };
    if !same {
        return Some(format!("the crate gives {given:?}"));
    }
    if let Ok(length) = given
        && let Err(refusal) = yunthirel::check_sheet(&buffer[..length])
    {
        return Some(format!("the outcome is refused: {refusal}"));
    }
    let mut sheet = before.get(..used)?.to_vec();
    let wide = [&sheet[..], &vec![0; line.len()]].concat();
    let grown = match edit {
        Edit::Put => yunthirel::put_line_into(&mut sheet, line),
        Edit::Withdraw => yunthirel::withdraw_line_from(&mut sheet, line),
    };
    let same = match (grown, oracle(edit, &wide, used, line)) {
        (Ok(()), Ok(text)) => sheet == text,
        (Err(refusal), Err(wanted)) => told(refusal) == wanted && sheet == before[..used],
        _ => false,
    };
    (!same).then(|| format!("a sheet that grows: {grown:?}"))
}
