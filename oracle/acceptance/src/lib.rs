//! Which words and sheets are accepted, from document 01's words alone ("The sheet", "What an
//! entry hands back"): the source knows no sheet, so it can't be asked.

mod form;

pub use form::Form;

pub const WORD_LIMIT: usize = 192;
pub const SHEET_LIMIT: usize = 65_536;
pub const NAME_LIMIT: usize = 210;
pub const READING_LIMIT: usize = 64;

/// A number of document 01's table; 5 and 6 come with the line's first byte.
#[derive(Debug, Clone, Copy, PartialEq, Eq)]
pub struct Refusal {
    pub number: u8,
    pub start: Option<usize>,
}

impl Refusal {
    pub const fn plain(number: u8) -> Self {
        Refusal { number, start: None }
    }

    const fn at(number: u8, start: usize) -> Self {
        Refusal { number, start: Some(start) }
    }
}

impl std::fmt::Display for Refusal {
    /// `N` or `N START`.
    fn fmt(&self, f: &mut std::fmt::Formatter) -> std::fmt::Result {
        match self.start {
            None => write!(f, "{}", self.number),
            Some(start) => write!(f, "{} {start}", self.number),
        }
    }
}

/// "bytes 00 to 20, 28, 29, 7F"
pub fn is_forbidden(byte: u8) -> bool {
    matches!(byte, 0x00..=0x20 | 0x28 | 0x29 | 0x7F)
}

/// Numbers 1 to 3, the lowest that applies.
pub fn check_word(word: &[u8]) -> Result<&str, Refusal> {
    if word.len() > WORD_LIMIT {
        return Err(Refusal::plain(1));
    }
    let text = std::str::from_utf8(word).map_err(|_| Refusal::plain(2))?;
    if word.iter().any(|&byte| is_forbidden(byte)) {
        return Err(Refusal::plain(3));
    }
    Ok(text)
}

/// Numbers 4 to 6: the first faulty line decides between 5 and 6.
pub fn check_sheet(sheet: &[u8]) -> Result<Vec<Form<'_>>, Refusal> {
    if sheet.len() > SHEET_LIMIT {
        return Err(Refusal::plain(4));
    }
    let mut forms: Vec<Form> = Vec::new();
    let mut start = 0;
    for stretch in sheet.split_inclusive(|&byte| byte == 0x0A) {
        let form = stretch.strip_suffix(b"\n").and_then(Form::of_line).ok_or(Refusal::at(5, start))?;
        if forms.last().is_some_and(|before| !before.stands_below(&form)) {
            return Err(Refusal::at(6, start));
        }
        forms.push(form);
        start += stretch.len();
    }
    Ok(forms)
}

/// Both together: the word's numbers are the lower ones.
pub fn check<'a>(word: &'a [u8], sheet: &'a [u8]) -> Result<(&'a str, Vec<Form<'a>>), Refusal> {
    Ok((check_word(word)?, check_sheet(sheet)?))
}

/// Number 7, asked of the count of readings.
pub fn check_count(readings: usize) -> Result<(), Refusal> {
    if readings > READING_LIMIT {
        return Err(Refusal::plain(7));
    }
    Ok(())
}
