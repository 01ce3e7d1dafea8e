//! The program `correct`: what it prints, its status, and what it leaves of the file and its folder.

use std::fs;
use std::io::Write;
use std::os::unix::fs::{PermissionsExt, symlink};
use std::path::{Path, PathBuf};
use std::process::{Command, Stdio};

/// A folder of its own, which goes with it.
struct Folder(PathBuf);

impl Folder {
    fn new(name: &str) -> Folder {
        let folder = std::env::temp_dir().join(format!("correct-{name}-{}", std::process::id()));
        let _ = fs::remove_dir_all(&folder);
        fs::create_dir(&folder).expect("a folder");
        Folder(folder)
    }

    fn file(&self, name: &str, bytes: &[u8]) -> PathBuf {
        let path = self.0.join(name);
        fs::write(&path, bytes).expect("a file");
        path
    }

    fn names(&self) -> Vec<String> {
        let entries = fs::read_dir(&self.0).expect("a folder");
        let mut names: Vec<String> =
            entries.map(|entry| entry.expect("an entry").file_name().to_string_lossy().into_owned()).collect();
        names.sort();
        names
    }
}

impl Drop for Folder {
    fn drop(&mut self) {
        let _ = fs::remove_dir_all(&self.0);
    }
}

/// What a run prints, tells on standard error, and its status.
fn run(words: &[&str], path: Option<&Path>, line: &[u8]) -> (String, String, i32) {
    let mut command = Command::new(env!("CARGO_BIN_EXE_correct"));
    command.args(words).args(path);
    let mut child =
        command.stdin(Stdio::piped()).stdout(Stdio::piped()).stderr(Stdio::piped()).spawn().expect("the program");
    // a program that has read enough, or nothing, may be gone by now
    let _ = child.stdin.take().expect("its input").write_all(line);
    let done = child.wait_with_output().expect("the program");
    let text = |bytes| String::from_utf8(bytes).expect("UTF-8");
    (text(done.stdout), text(done.stderr), done.status.code().expect("a status"))
}

fn says(words: &[&str], path: &Path, line: &str) -> (String, i32) {
    let (printed, told, status) = run(words, Some(path), line.as_bytes());
    assert_eq!(told, "");
    (printed, status)
}

#[test]
fn lines_put_and_withdrawn() {
    let folder = Folder::new("lines");
    let path = folder.file("my.sheet", "(w घर (wh))\n".as_bytes());
    let holds = |text: &str| assert_eq!(fs::read(&path).unwrap(), text.as_bytes());
    assert_eq!(says(&["put"], &path, "(w घरले (w))\n"), ("(sheet 37 2)\n".to_string(), 0));
    holds("(w घर (wh))\n(w घरले (w))\n");
    assert_eq!(says(&["put"], &path, "(k ले (post))\n"), ("(sheet 55 3)\n".to_string(), 0));
    holds("(k ले (post))\n(w घर (wh))\n(w घरले (w))\n");
    assert_eq!(says(&["put"], &path, "(w घर (w))\n"), ("(sheet 54 3)\n".to_string(), 0));
    assert_eq!(says(&["withdraw"], &path, "(k ले (comp))\n"), ("(sheet 36 2)\n".to_string(), 0));
    holds("(w घर (w))\n(w घरले (w))\n");
    assert_eq!(says(&["withdraw"], &path, "(w घर (h))\n"), ("(sheet 21 1)\n".to_string(), 0));
    assert_eq!(says(&["withdraw"], &path, "(w घरले (h))\n"), ("(sheet 0 0)\n".to_string(), 0));
    holds("");
    assert_eq!(folder.names(), ["my.sheet"]);
}

#[test]
fn refusals_touch_nothing() {
    let folder = Folder::new("refusals");
    let good = "(w a (w))\n(w b (w))\n".to_string();
    let long = "(w a (w))\n".repeat(6_554);
    let full: String = (0..4_096).map(|number| format!("(w a{number:06} (w))\n")).collect();
    let other = "x".repeat(700_000);
    for (sheet, words, line, printed) in [
        (&long, "put", "(w c (w))\n", "(refused 4)\n"),
        (&"(w a (w))\n(w b ())\n".to_string(), "put", "x", "(refused 5 10)\n"),
        (&"(w b (w))\n(w a (w))\n".to_string(), "withdraw", "x", "(refused 6 10)\n"),
        (&good, "put", "(w c (w))", "(refused 11)\n"),
        (&good, "withdraw", "", "(refused 11)\n"),
        (&good, "put", "(w c (w))\n(w d (w))\n", "(refused 11)\n"),
        (&good, "put", &other, "(refused 11)\n"),
        (&good, "withdraw", "(w c (w))\n", "(refused 12)\n"),
        (&full, "put", "(w b (w))\n", "(refused 13)\n"),
    ] {
        let path = folder.file("my.sheet", sheet.as_bytes());
        let before = fs::metadata(&path).unwrap().modified().unwrap();
        assert_eq!(says(&[words], &path, line), (printed.to_string(), 1));
        assert_eq!(fs::read(&path).unwrap(), sheet.as_bytes());
        assert_eq!(fs::metadata(&path).unwrap().modified().unwrap(), before);
    }
    assert_eq!(folder.names(), ["my.sheet"]);
}

#[test]
fn a_sheet_of_the_limit() {
    let folder = Folder::new("limit");
    let full: String = (0..4_096).map(|number| format!("(w a{number:06} (w))\n")).collect();
    let path = folder.file("my.sheet", full.as_bytes());
    assert_eq!(says(&["put"], &path, "(w a000000 (h))\n"), ("(sheet 65536 4096)\n".to_string(), 0));
    assert_eq!(says(&["withdraw"], &path, "(w a000000 (h))\n"), ("(sheet 65520 4095)\n".to_string(), 0));
}

#[test]
fn paths_that_cannot_be_read_or_written() {
    let folder = Folder::new("paths");
    let line = b"(w b (w))\n";
    let missing = folder.0.join("missing");
    for path in [&missing, &folder.0] {
        let (printed, told, status) = run(&["put"], Some(path), line);
        assert_eq!((printed.as_str(), status), ("", 2));
        assert!(told.starts_with(&format!("{}: ", path.display())), "{told}");
    }
    // no name beside it is short enough, so that no new file can be made
    let path = folder.file(&"s".repeat(255), b"(w a (w))\n");
    let (printed, told, status) = run(&["put"], Some(&path), line);
    assert_eq!((printed.as_str(), status), ("", 2));
    assert!(told.starts_with(&format!("{}: ", path.display())), "{told}");
    assert_eq!(fs::read(&path).unwrap(), b"(w a (w))\n");
    assert_eq!(folder.names().len(), 1);
}

#[test]
fn other_words() {
    for words in [&[][..], &["put"], &["take"], &["put", "a", "b"]] {
        let (printed, told, status) = run(words, None, b"");
        assert_eq!((printed.as_str(), status), ("", 2), "{words:?}");
        assert!(told.starts_with("usage: "), "{told}");
    }
}

#[test]
fn rights_and_links_stay() {
    let folder = Folder::new("rights");
    let path = folder.file("my.sheet", b"(w a (w))\n");
    fs::set_permissions(&path, fs::Permissions::from_mode(0o640)).unwrap();
    let link = folder.0.join("link");
    symlink(&path, &link).unwrap();
    assert_eq!(says(&["put"], &link, "(w b (w))\n"), ("(sheet 20 2)\n".to_string(), 0));
    assert_eq!(fs::read(&path).unwrap(), b"(w a (w))\n(w b (w))\n");
    assert_eq!(fs::metadata(&path).unwrap().permissions().mode() & 0o777, 0o640);
    assert!(fs::symlink_metadata(&link).unwrap().file_type().is_symlink());
    assert_eq!(folder.names(), ["link", "my.sheet"]);
}
