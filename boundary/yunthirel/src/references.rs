//! What the lines of a sheet refer to.
#![forbid(unsafe_code)]

use crate::raw;
use crate::refusal::{Refusal, SHEETS, no_answer, refused};
use std::fmt;

/// A line of a sheet whose reference does not hold, with its name and its first byte in the sheet.
#[derive(Debug, Clone, Copy, PartialEq, Eq, Hash)]
#[non_exhaustive]
pub enum Reference<'s> {
    /// An `l` line whose infinitive has no `w` line.
    Missing {
        /// The link.
        name: &'s str,
        /// The line's first byte in the sheet.
        start: usize,
    },
    /// An `l` line whose infinitive has a `w` line without v.
    NotVerb {
        /// The link.
        name: &'s str,
        /// The line's first byte in the sheet.
        start: usize,
    },
    /// A `k` line whose suffix is none of the 25 texts.
    Unused {
        /// The suffix.
        name: &'s str,
        /// The line's first byte in the sheet.
        start: usize,
    },
}

impl<'s> Reference<'s> {
    /// The link or suffix, a part of the sheet.
    pub fn name(self) -> &'s str {
        let (Reference::Missing { name, .. } | Reference::NotVerb { name, .. } | Reference::Unused { name, .. }) = self;
        name
    }

    /// The line's first byte in the sheet.
    pub fn start(self) -> usize {
        let (Reference::Missing { start, .. } | Reference::NotVerb { start, .. } | Reference::Unused { start, .. }) =
            self;
        start
    }

    /// The finding that a number of [`raw::findings`] says of a sheet, or none where it can't be read as one.
    fn of_number(sheet: &'s [u8], number: u32) -> Option<Reference<'s>> {
        let (start, fault) = ((number >> 8) as usize, number & 0xFF);
        let line = sheet.get(start..)?;
        let letter = if fault == 3 { b"(k " } else { b"(l " };
        let rest = line.strip_prefix(letter)?;
        let end = rest.iter().position(|&byte| byte == b' ')?;
        let name = std::str::from_utf8(&rest[..end]).ok()?;
        match fault {
            1 => Some(Reference::Missing { name, start }),
            2 => Some(Reference::NotVerb { name, start }),
            3 => Some(Reference::Unused { name, start }),
            _ => None,
        }
    }
}

/// The line of the report, without its 0A.
impl fmt::Display for Reference<'_> {
    fn fmt(&self, f: &mut fmt::Formatter) -> fmt::Result {
        match self {
            Reference::Missing { name, .. } => write!(f, "(l {name} missing)"),
            Reference::NotVerb { name, .. } => write!(f, "(l {name} notverb)"),
            Reference::Unused { name, .. } => write!(f, "(k {name} unused)"),
        }
    }
}

/// The lines of a sheet whose reference does not hold, in its order; none exactly where every link's infinitive has a `w` line with v and
/// every kind line's suffix is one of the 25 texts. Refused with 4 to 6 for the sheet.
///
/// ```
/// use yunthirel::{Reference, Refusal, check_references};
/// let sheet = "(l गरि (गर्नु))\n(w घर (wh))\n".as_bytes();
/// assert_eq!(check_references(sheet)?, [Reference::Missing { name: "गरि", start: 0 }]);
/// assert_eq!(check_references("(l गरि (गर्नु))\n(w गर्नु (whv))\n".as_bytes())?, []);
/// # Ok::<(), Refusal>(())
/// ```
pub fn check_references(sheet: &[u8]) -> Result<Vec<Reference<'_>>, Refusal> {
    // A line has ten bytes or more.
    let mut list = vec![0; (sheet.len() / 10).min(raw::MOST_LINES)];
    let code = raw::findings(sheet, &mut list);
    if raw::number(code) != 0 {
        return Err(refused("yunthirel_findings", SHEETS, code));
    }
    let found = list.get(..raw::above(code));
    let found = found.and_then(|list| list.iter().map(|&number| Reference::of_number(sheet, number)).collect());
    Ok(found.unwrap_or_else(|| no_answer("yunthirel_findings", &format!("gave {code:#x}"))))
}

/// Writes the report of a sheet at the front of `out`, as the program `references` prints it, and gives the number of its bytes. Refused
/// with 4 to 6 for the sheet, else with 8 for too short an `out`, which is then as it was. The sheet's length and
/// [`raw::REPORT_HEAD`] bytes are always enough.
///
/// ```
/// let mut out = [0; 64];
/// let size = yunthirel::write_references("(k छ (post))\n".as_bytes(), &mut out)?;
/// assert_eq!(std::str::from_utf8(&out[..size]), Ok("(check 1)\n(k छ unused)\n"));
/// # Ok::<(), yunthirel::Refusal>(())
/// ```
pub fn write_references(sheet: &[u8], out: &mut [u8]) -> Result<usize, Refusal> {
    let code = raw::references(sheet, out);
    match raw::number(code) {
        0 => Ok(raw::above(code)),
        8 => Err(Refusal::OutputTooShort),
        _ => Err(refused("yunthirel_references", SHEETS, code)),
    }
}

#[cfg(test)]
mod tests {
    use super::*;

    #[test]
    fn numbers_that_are_no_finding() {
        let sheet = "(k छ (post))\n(l गरि (गर्नु))\n".as_bytes();
        assert!(Reference::of_number(sheet, 3).is_some() && Reference::of_number(sheet, 15 << 8 | 1).is_some());
        for number in [0, 1, 2, 4, 1 << 8 | 3, 15 << 8 | 3, 15 << 8, 15 << 8 | 4, 255 << 8 | 1, u32::MAX] {
            assert_eq!(Reference::of_number(sheet, number), None, "{number:#x}");
        }
    }
}
