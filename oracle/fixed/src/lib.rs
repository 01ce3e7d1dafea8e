//! The fixed lists: cases with the oracle's answers, for replay where no Rust is at hand.

use blocks::Case;
use std::io;

pub const SEED: u64 = 20_261_115;

/// A file of this folder and what it holds.
pub type File = (&'static str, Vec<u8>);

/// The four files: `list` with every answer, `acceptance` with one line a case.
pub fn files() -> io::Result<[File; 4]> {
    let list = list();
    let acceptance = acceptance_list();
    let mut answers = Vec::new();
    for case in &list {
        blocks::write_answer(&mut answers, &answers::answer(&case.word, &case.sheet))?;
    }
    let lines = acceptance.iter().map(|case| answers::acceptance_line(&case.word, &case.sheet) + "\n");
    Ok([
        ("list.cases", written(&list)?),
        ("list.answers", answers),
        ("acceptance.cases", written(&acceptance)?),
        ("acceptance.answers", lines.collect::<String>().into_bytes()),
    ])
}

fn written(cases: &[Case]) -> io::Result<Vec<u8>> {
    let mut bytes = Vec::new();
    for case in cases {
        blocks::write_case(&mut bytes, case)?;
    }
    Ok(bytes)
}

/// How many cases of a class are taken up to how many bytes, case and answer together: a few that
/// are large, then small ones.
const TAKEN: [(usize, usize); 2] = [(2, 3_000), (10, 700)];

/// Sheets of 65,536 and 65,537 bytes, then for each class the first cases that are small enough.
pub fn list() -> Vec<Case> {
    let mut list: Vec<Case> = worked();
    for class in cases::CLASSES {
        let mut index = 0;
        for (count, limit) in TAKEN {
            let mut taken = 0;
            // A class whose cases are all large is left to the two at the limit.
            while taken < count && index < 200 {
                let case = cases::case_of(class, SEED, index);
                index += 1;
                let size = case.word.len() + case.sheet.len();
                if size < limit && size + answers::answer(&case.word, &case.sheet).len() < limit {
                    list.push(case);
                    taken += 1;
                }
            }
        }
    }
    list
}

/// Document 01's counts and limits.
fn worked() -> Vec<Case> {
    let sheet_of = |length| cases::of_length(&mut cases::Random::for_case(SEED, 0), "घरले", length);
    let mut worked = vec![
        Case { word: "घरले".into(), sheet: sheet_of(acceptance::SHEET_LIMIT) },
        Case { word: "घरले".into(), sheet: sheet_of(acceptance::SHEET_LIMIT + 1) },
    ];
    for word in ["निःनिःघरकोकोकोको", "निःनिःघरकोकोकोक्यारे"]
    {
        worked.push(Case { word: word.into(), sheet: cases::every_run(word) });
    }
    worked
}

/// With their answers the cases stay below 60,000 bytes.
const ACCEPTANCE_BYTES: usize = 52_000;

/// The cases written out, then small ones of the classes that are about acceptance.
pub fn acceptance_list() -> Vec<Case> {
    const NAMES: [&str; 7] =
        ["line-damaged", "letters", "order", "two-faults", "stretch", "word-not-utf8", "word-and-sheet-refused"];
    let classes: Vec<_> = cases::CLASSES.iter().filter(|class| NAMES.contains(&class.name)).collect();
    let mut list = cases::limits::cases();
    let mut left = ACCEPTANCE_BYTES - list.iter().map(size).sum::<usize>();
    for index in 0..1_000 {
        let case = cases::case_of(classes[index % classes.len()], SEED, index as u64);
        if size(&case) <= left.min(260) {
            left -= size(&case);
            list.push(case);
        }
    }
    list
}

/// The bytes of a case in its file.
fn size(case: &Case) -> usize {
    written(std::slice::from_ref(case)).map_or(usize::MAX, |bytes| bytes.len())
}
