//! Corrections of a sheet: a line put, a line withdrawn.
#![forbid(unsafe_code)]

use crate::raw;
use crate::refusal::{Refusal, no_answer, refused};

/// The new length that a code says, of a buffer with so much room, or its refusal: one of those that the function can give.
fn length_of(function: &str, last: Refusal, room: usize, code: u64) -> Result<usize, Refusal> {
    match raw::number(code) {
        0 if raw::above(code) <= room.min(raw::SHEET_LIMIT) => Ok(raw::above(code)),
        0 => no_answer(function, &format!("gave {code:#x}")),
        4..=6 => Err(refused(function, 4..=6, code)),
        11 => Err(refused(function, 11..=11, code)),
        _ => Err(refused(function, last.number()..=last.number(), code)),
    }
}

/// Puts a line, with its 0A, into the sheet that has the first `used` bytes of the buffer, in the place of the line of the same first
/// letter and name if there is one. Gives the sheet's new length; what stands behind it stays. Refused, and the buffer left as it was, with
/// 4 for a used length beyond the buffer or a sheet over its limit, 5 or 6 for a faulty sheet, 11 for a line that is no single form, 13 for a
/// new length that passes the buffer or the sheet's limit.
///
/// ```
/// let mut buffer = *b"(w a (w))\n..........";
/// let length = yunthirel::put_line(&mut buffer, 10, b"(w b (h))\n")?;
/// assert_eq!(&buffer[..length], b"(w a (w))\n(w b (h))\n");
/// let refusal = yunthirel::put_line(&mut buffer, length, b"(w c (w))\n").unwrap_err();
/// assert_eq!(refusal, yunthirel::Refusal::NoRoom);
/// # Ok::<(), yunthirel::Refusal>(())
/// ```
pub fn put_line(buffer: &mut [u8], used: usize, line: &[u8]) -> Result<usize, Refusal> {
    length_of("yunthirel_put_line", Refusal::NoRoom, buffer.len(), raw::put_line(buffer, used, line))
}

/// Withdraws the line that has the given line's first letter and name, whatever its value is, from the sheet that has the first `used`
/// bytes of the buffer. Gives the sheet's new length; what stands behind it stays. Refused, and the buffer left as it was, with 4, 5, 6 and
/// 11 as [`put_line`], and with 12 where there is no such line.
///
/// ```
/// let mut buffer = *b"(w a (w))\n(w b (h))\n";
/// let length = yunthirel::withdraw_line(&mut buffer, 20, b"(w a (wh))\n")?;
/// assert_eq!(&buffer, b"(w b (h))\n(w b (h))\n");
/// assert_eq!(length, 10);
/// # Ok::<(), yunthirel::Refusal>(())
/// ```
pub fn withdraw_line(buffer: &mut [u8], used: usize, line: &[u8]) -> Result<usize, Refusal> {
    length_of(
        "yunthirel_withdraw_line",
        Refusal::NothingToWithdraw,
        buffer.len(),
        raw::withdraw_line(buffer, used, line),
    )
}

/// Puts a line into a sheet that grows as it must: [`put_line`], so that 13 says that the sheet would pass its limit. After a refusal the
/// sheet is as it was.
///
/// ```
/// let mut sheet = b"(w b (w))\n".to_vec();
/// yunthirel::put_line_into(&mut sheet, b"(w a (h))\n")?;
/// assert_eq!(sheet, b"(w a (h))\n(w b (w))\n");
/// # Ok::<(), yunthirel::Refusal>(())
/// ```
pub fn put_line_into(sheet: &mut Vec<u8>, line: &[u8]) -> Result<(), Refusal> {
    let used = sheet.len();
    // no sheet that can be put is longer than its limit; a longer one is refused as it stands
    sheet.resize(used.saturating_add(line.len()).min(raw::SHEET_LIMIT).max(used), 0);
    let length = put_line(sheet, used, line);
    sheet.truncate(*length.as_ref().unwrap_or(&used));
    length.map(|_| ())
}

/// Withdraws a line from a sheet: [`withdraw_line`]. After a refusal the sheet is as it was.
///
/// ```
/// let mut sheet = b"(w a (h))\n(w b (w))\n".to_vec();
/// yunthirel::withdraw_line_from(&mut sheet, b"(w b (w))\n")?;
/// assert_eq!(sheet, b"(w a (h))\n");
/// # Ok::<(), yunthirel::Refusal>(())
/// ```
pub fn withdraw_line_from(sheet: &mut Vec<u8>, line: &[u8]) -> Result<(), Refusal> {
    let used = sheet.len();
    let length = withdraw_line(sheet, used, line)?;
    sheet.truncate(length);
    Ok(())
}

#[cfg(test)]
mod tests {
    use super::*;

    #[test]
    fn lengths_and_refusals() {
        let put = |room, code| length_of("yunthirel_put_line", Refusal::NoRoom, room, code);
        assert_eq!(put(20, 256 * 20), Ok(20));
        assert_eq!(put(99_999, 256 * 65_536), Ok(65_536));
        assert_eq!(put(0, 6 + 256 * 7), Err(Refusal::SheetNotAbove { start: 7 }));
        assert_eq!(put(0, 11), Err(Refusal::NoSingleForm));
        assert_eq!(put(0, 13), Err(Refusal::NoRoom));
    }

    #[test]
    #[should_panic(expected = "yunthirel_put_line gave 0x1500, which is none of its answers")]
    fn a_length_beyond_the_buffer() {
        let _ = length_of("yunthirel_put_line", Refusal::NoRoom, 20, 256 * 21);
    }

    #[test]
    #[should_panic(expected = "yunthirel_put_line gave 0xc, which is none of its answers")]
    fn the_number_of_the_other_edit() {
        let _ = length_of("yunthirel_put_line", Refusal::NoRoom, 20, 12);
    }
}
