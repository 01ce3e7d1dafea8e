//! Rescue of a torn sheet.
#![forbid(unsafe_code)]

use crate::raw;
use crate::refusal::{Refusal, no_answer, refused};
use std::fmt;

/// Why a stretch of a torn sheet was dropped.
#[derive(Debug, Clone, Copy, PartialEq, Eq, Hash)]
pub enum Why {
    /// It is no form.
    Form,
    /// It is a form that does not stand above the last kept line.
    Order,
}

/// A stretch that was dropped: a line with its 0A, or a last one without.
#[derive(Debug, Clone, Copy, PartialEq, Eq, Hash)]
pub struct Cut {
    /// Its first byte in the torn sheet.
    pub start: usize,
    /// How many bytes it has, its ending byte among them.
    pub len: usize,
    /// Why it was dropped.
    pub why: Why,
}

/// The line of the report, without its 0A.
impl fmt::Display for Cut {
    fn fmt(&self, f: &mut fmt::Formatter) -> fmt::Result {
        let why = if self.why == Why::Form { "form" } else { "order" };
        write!(f, "(cut {} {} {why})", self.start, self.len)
    }
}

impl Cut {
    /// The cut that a line of the report says, or none where it can't be read as one.
    fn of_line(line: &str) -> Option<Cut> {
        let fields: Vec<&str> = line.strip_prefix("(cut ")?.strip_suffix(')')?.split(' ').collect();
        let [start, len, why] = fields[..] else {
            return None;
        };
        let why = match why {
            "form" => Why::Form,
            "order" => Why::Order,
            _ => return None,
        };
        Some(Cut { start: start.parse().ok()?, len: len.parse().ok()?, why })
    }
}

/// What is left of a torn sheet, and what is not.
#[derive(Debug, Clone, PartialEq, Eq)]
pub struct Rescue {
    /// The kept sheet, which is always accepted.
    pub kept: Vec<u8>,
    /// The dropped stretches, in the torn sheet's order.
    pub cuts: Vec<Cut>,
}

/// Keeps each line of a torn sheet that is a form and stands above the last kept one, and drops all else. A good sheet comes out
/// unchanged with no cut, and no other has none. Refused with 4 for a sheet over its limit.
///
/// ```
/// use yunthirel::{Cut, Why, rescue_sheet};
/// let rescue = rescue_sheet("(w घर (wh))\n(w क (w))\n(w च".as_bytes())?;
/// assert_eq!(rescue.kept, "(w घर (wh))\n".as_bytes());
/// let cut = |start, len, why| Cut { start, len, why };
/// assert_eq!(rescue.cuts, [cut(16, 12, Why::Order), cut(28, 6, Why::Form)]);
/// # Ok::<(), yunthirel::Refusal>(())
/// ```
pub fn rescue_sheet(sheet: &[u8]) -> Result<Rescue, Refusal> {
    let mut kept = vec![0; sheet.len()];
    let mut report = vec![0; if sheet.len() > raw::SHEET_LIMIT { 0 } else { raw::REPORT_BYTES * sheet.len() }];
    let code = raw::rescue(sheet, &mut kept, &mut report);
    if raw::number(code) != 0 {
        return Err(refused("yunthirel_rescue", 4..=4, code));
    }
    let cuts = report.get(..raw::report_size(code)).and_then(|report| std::str::from_utf8(report).ok());
    let cuts = cuts.and_then(|report| report.lines().map(Cut::of_line).collect::<Option<Vec<Cut>>>());
    let inside = |cut: &Cut| cut.start.checked_add(cut.len).is_some_and(|end| end <= sheet.len());
    match cuts.filter(|cuts| cuts.iter().all(inside) && raw::kept_size(code) <= kept.len()) {
        Some(cuts) => {
            kept.truncate(raw::kept_size(code));
            Ok(Rescue { kept, cuts })
        }
        None => no_answer("yunthirel_rescue", &format!("gave {code:#x}")),
    }
}

#[cfg(test)]
mod tests {
    use super::*;

    #[test]
    fn lines_that_are_no_cut() {
        assert_eq!(Cut::of_line("(cut 3 10 order)"), Some(Cut { start: 3, len: 10, why: Why::Order }));
        for line in
            ["", "(cut 3 10)", "(cut 3 10 what)", "(cut  3 form)", "(cut 3 -1 form)", "(cut 3 1 form) ", "cut 3 1 form"]
        {
            assert_eq!(Cut::of_line(line), None, "{line}");
        }
    }
}
