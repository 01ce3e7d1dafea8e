//! Torn sheets put to a plain second reading of document 02 (m), to the library's function with its buffers, and to the crate over it. The
//! source knows no sheet, so that it can't be asked.

use acceptance::{Form, SHEET_LIMIT};
use yunthirel::raw;

/// The function that is asked: the library's, or another in its place where a test plants a wrong one.
pub type Ask = fn(&[u8], &mut [u8], &mut [u8]) -> u64;

/// An answer: the kept sheet and the report, or what is said in their place.
pub type Answer = Result<(Vec<u8>, String), String>;

/// All sides' answers for a sheet.
pub struct Compared {
    pub oracle: Answer,
    pub function: Answer,
    pub api: Answer,
}

impl Compared {
    pub fn of(sheet: &[u8]) -> Compared {
        Compared { oracle: oracle(sheet), function: function(raw::rescue, sheet), api: api(sheet) }
    }

    pub fn differs(&self) -> bool {
        self.function != self.oracle || self.api != self.oracle
    }
}

/// Line by line, from document 02's words.
pub fn oracle(sheet: &[u8]) -> Answer {
    if sheet.len() > SHEET_LIMIT {
        return Err("(refused 4)".to_string());
    }
    let (mut kept, mut report) = (Vec::new(), String::new());
    let mut last: Option<Form> = None;
    let mut start = 0;
    for line in sheet.split_inclusive(|&byte| byte == b'\n') {
        let form = line.strip_suffix(b"\n").and_then(Form::of_line);
        let why = match form {
            None => Some("form"),
            Some(form) => last.is_some_and(|last| !last.stands_below(&form)).then_some("order"),
        };
        match why {
            Some(why) => report += &format!("(cut {start} {} {why})\n", line.len()),
            None => {
                kept.extend(line);
                last = form;
            }
        }
        start += line.len();
    }
    Ok((kept, report))
}

/// The crate's answer; what it keeps must be accepted, and kept and cut stretches in their places must be the sheet.
pub fn api(sheet: &[u8]) -> Answer {
    let rescue = yunthirel::rescue_sheet(sheet).map_err(|refusal| format!("(refused {})", refusal.number()))?;
    if let Err(refusal) = yunthirel::check_sheet(&rescue.kept) {
        return Err(format!("what is kept is refused: {refusal}"));
    }
    let (mut whole, mut kept) = (Vec::<u8>::new(), &rescue.kept[..]);
    for cut in &rescue.cuts {
        let (before, after) = kept.split_at(cut.start.saturating_sub(whole.len()).min(kept.len()));
        whole.extend(before);
        whole.extend(&sheet[cut.start..cut.start + cut.len]);
        kept = after;
    }
    whole.extend(kept);
    if whole != sheet {
        return Err("kept and cut stretches are not the sheet".to_string());
    }
    let report = rescue.cuts.iter().map(|cut| format!("{cut}\n")).collect();
    Ok((rescue.kept, report))
}

/// The function's answer, or what is wrong: past the answers and after a refusal both buffers must hold what they held; where either is too
/// short both are left, and exact ones are filled alike.
pub fn function(ask: Ask, sheet: &[u8]) -> Answer {
    let old = |length: usize, by: u8| -> Vec<u8> { (0..length).map(|at| (at as u8).wrapping_mul(31) ^ by).collect() };
    let space = raw::REPORT_BYTES * sheet.len().min(SHEET_LIMIT);
    let (before, other) = (old(sheet.len() + 8, 7), old(space + 8, 99));
    let (mut kept, mut report) = (before.clone(), other.clone());
    let code = ask(sheet, &mut kept, &mut report);
    if raw::number(code) != 0 {
        return Err(match () {
            () if kept != before || report != other => format!("refused with {} and wrote", raw::number(code)),
            () if ask(sheet, &mut [], &mut []) != code => "otherwise without room".to_string(),
            () if raw::above(code) != 0 => format!("{} with {}", raw::number(code), raw::above(code)),
            () => format!("(refused {})", raw::number(code)),
        });
    }
    let (size, length) = (raw::kept_size(code), raw::report_size(code));
    if size > sheet.len() || length > space || kept[size..] != before[size..] || report[length..] != other[length..] {
        return Err(format!("{size} and {length} bytes, and past them"));
    }
    kept.truncate(size);
    report.truncate(length);
    let short = |full: usize| [0, full / 2, full.saturating_sub(1)].into_iter().filter(move |&part| part < full);
    for (one, two) in short(size).map(|part| (part, length)).chain(short(length).map(|part| (size, part))) {
        let (mut part, mut rest) = (before[..one].to_vec(), other[..two].to_vec());
        if ask(sheet, &mut part, &mut rest) != 8 || part != before[..one] || rest != other[..two] {
            return Err(format!("not 8 in {one} of {size} and {two} of {length}, or wrote"));
        }
    }
    let (mut exact, mut same) = (before[1..=size].to_vec(), other[1..=length].to_vec());
    if ask(sheet, &mut exact, &mut same) != code || exact != kept || same != report {
        return Err(format!("otherwise in {size} and {length}"));
    }
    Ok((kept, String::from_utf8(report).unwrap_or_else(|_| "not UTF-8".to_string())))
}
