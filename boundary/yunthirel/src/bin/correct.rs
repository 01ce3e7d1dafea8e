//! Request (c)'s program: corrects a sheet's file.
//!
//!     correct put PATH          puts the line on standard input
//!     correct withdraw PATH     withdraws the line of its first letter and name
//!
//! The line carries its 0A. Prints `(sheet LENGTH LINES)`, the new sheet's bytes and lines, or `(refused N)` or `(refused N START)`, and then
//! the file is as it was. The status is 0 for a sheet that was replaced, 1 for a refusal, 2 where a path can't be read or written, which is
//! told by its name on standard error.
//!
//! The edit is the proved library's. It is a program of this crate, since one in Rattle handed back no status when it was written, and a
//! script at a desk has to see that nothing was written.
#![forbid(unsafe_code)]

use std::ffi::OsString;
use std::fs::{self, File, OpenOptions, Permissions};
use std::io::{self, Read, Write};
use std::path::{Path, PathBuf};
use std::process::ExitCode;
use yunthirel::{Refusal, put_line_into, raw, withdraw_line_from};

/// More bytes than any form has: of a longer input no more is read, since its first bytes are no single form.
const LINE_BYTES: u64 = 512;

type Edit = fn(&mut Vec<u8>, &[u8]) -> Result<(), Refusal>;

fn main() -> ExitCode {
    let given: Vec<OsString> = std::env::args_os().skip(1).collect();
    let edit: Edit = match given.first().and_then(|word| word.to_str()) {
        Some("put") => put_line_into,
        Some("withdraw") => withdraw_line_from,
        _ => return usage(),
    };
    let [_, path] = &given[..] else {
        return usage();
    };
    let path = Path::new(path);
    let mut line = Vec::new();
    if let Err(error) = io::stdin().take(LINE_BYTES).read_to_end(&mut line) {
        eprintln!("standard input: {error}");
        return ExitCode::from(2);
    }
    match correct(edit, path, &line) {
        Ok(Ok(sheet)) => {
            println!("(sheet {} {})", sheet.len(), sheet.iter().filter(|&&byte| byte == b'\n').count());
            ExitCode::SUCCESS
        }
        Ok(Err(refusal)) => {
            match refusal.start() {
                None => println!("(refused {})", refusal.number()),
                Some(start) => println!("(refused {} {start})", refusal.number()),
            }
            ExitCode::from(1)
        }
        Err(error) => {
            eprintln!("{}: {error}", path.display());
            ExitCode::from(2)
        }
    }
}

fn usage() -> ExitCode {
    eprintln!(
        "usage: correct put PATH or correct withdraw PATH, with a line of the sheet and its 0A on standard input"
    );
    ExitCode::from(2)
}

/// Edits the sheet at the path and replaces its file by the new one, which it gives; after a refusal or an error the file is as it was.
fn correct(edit: Edit, path: &Path, line: &[u8]) -> io::Result<Result<Vec<u8>, Refusal>> {
    // a link goes on naming the file that it names
    let path = fs::canonicalize(path)?;
    let file = File::open(&path)?;
    let rights = file.metadata()?.permissions();
    let mut sheet = Vec::new();
    // one byte past the limit, so that too long a sheet is told from the longest
    file.take(raw::SHEET_LIMIT as u64 + 1).read_to_end(&mut sheet)?;
    if let Err(refusal) = edit(&mut sheet, line) {
        return Ok(Err(refusal));
    }
    replace(&path, &sheet, rights)?;
    Ok(Ok(sheet))
}

/// Puts a new file in a file's place in one step: written whole beside it, brought to the disk, then renamed. A crash leaves the old file or
/// the new one, and at most a file besides that no other run takes for its own.
fn replace(path: &Path, bytes: &[u8], rights: Permissions) -> io::Result<()> {
    let (beside, mut file) = create_beside(path)?;
    let renamed = file
        .set_permissions(rights)
        .and_then(|()| file.write_all(bytes))
        .and_then(|()| file.sync_all())
        .and_then(|()| fs::rename(&beside, path));
    if renamed.is_err() {
        // what is left over can't be told from a sheet by its bytes, so it goes; the first error is the one to tell
        let _ = fs::remove_file(&beside);
    }
    renamed?;
    // the folder holds the name; where it can't be brought to the disk the old or the new sheet still stands whole
    if let Some(folder) = path.parent()
        && let Ok(folder) = File::open(folder)
    {
        let _ = folder.sync_all();
    }
    Ok(())
}

/// A new file in the same folder, under a name that nothing has.
fn create_beside(path: &Path) -> io::Result<(PathBuf, File)> {
    let mut tried = 0;
    loop {
        let mut name = path.file_name().unwrap_or_default().to_os_string();
        name.push(format!(".{}-{tried}.new", std::process::id()));
        let beside = path.with_file_name(name);
        match OpenOptions::new().write(true).create_new(true).open(&beside) {
            Err(error) if error.kind() == io::ErrorKind::AlreadyExists && tried < 1_000 => tried += 1,
            made => return made.map(|file| (beside, file)),
        }
    }
}
