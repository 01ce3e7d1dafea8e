//! The block format: cases in, answers out. oracle/README.md describes it.

use std::io::{self, BufRead, Write};

#[derive(Debug, Clone, PartialEq, Eq)]
pub struct Case {
    pub word: Vec<u8>,
    pub sheet: Vec<u8>,
}

/// A decimal count of word bytes, a space, a decimal count of sheet bytes, 0A, the word, the
/// sheet, 0A.
pub fn write_case(out: &mut impl Write, case: &Case) -> io::Result<()> {
    writeln!(out, "{} {}", case.word.len(), case.sheet.len())?;
    out.write_all(&case.word)?;
    out.write_all(&case.sheet)?;
    out.write_all(b"\n")
}

/// The next case, or none at the end of the input.
pub fn read_case(input: &mut impl BufRead) -> io::Result<Option<Case>> {
    let Some(head) = read_head(input)? else {
        return Ok(None);
    };
    let (word, sheet) = head.split_once(' ').ok_or_else(|| bad("two counts wanted"))?;
    let word = read_bytes(input, count(word)?)?;
    let sheet = read_bytes(input, count(sheet)?)?;
    if read_bytes(input, 1)? != b"\n" {
        return Err(bad("a case ends in 0A"));
    }
    Ok(Some(Case { word, sheet }))
}

pub fn read_cases(mut input: impl BufRead) -> io::Result<Vec<Case>> {
    let mut cases = Vec::new();
    while let Some(case) = read_case(&mut input)? {
        cases.push(case);
    }
    Ok(cases)
}

/// A decimal count of bytes, 0A, the answer.
pub fn write_answer(out: &mut impl Write, answer: &[u8]) -> io::Result<()> {
    writeln!(out, "{}", answer.len())?;
    out.write_all(answer)
}

/// The next answer, or none at the end of the input.
pub fn read_answer(input: &mut impl BufRead) -> io::Result<Option<Vec<u8>>> {
    match read_head(input)? {
        None => Ok(None),
        Some(head) => read_bytes(input, count(&head)?).map(Some),
    }
}

fn read_head(input: &mut impl BufRead) -> io::Result<Option<String>> {
    let mut head = String::new();
    if input.read_line(&mut head)? == 0 {
        return Ok(None);
    }
    match head.strip_suffix('\n') {
        Some(head) => Ok(Some(head.to_string())),
        None => Err(bad("a count ends in 0A")),
    }
}

fn read_bytes(input: &mut impl BufRead, count: usize) -> io::Result<Vec<u8>> {
    let mut bytes = vec![0; count];
    input.read_exact(&mut bytes)?;
    Ok(bytes)
}

fn count(text: &str) -> io::Result<usize> {
    text.parse().map_err(|_| bad("a decimal count wanted"))
}

fn bad(message: &str) -> io::Error {
    io::Error::new(io::ErrorKind::InvalidData, message)
}
