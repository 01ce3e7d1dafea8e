//! A slip: a small mistake, planted by one edit or a few.

use std::collections::BTreeMap;
use std::fs;
use std::io;
use std::path::Path;

pub struct Slip {
    pub name: &'static str,
    pub edits: Vec<Edit>,
    /// Why no case can tell it from the true source, where that is so.
    pub equivalent: Option<&'static str>,
}

/// `old`, which stands exactly once in `file`, becomes `new`. Files are named from the root of
/// the repository.
pub struct Edit {
    pub file: &'static str,
    pub old: &'static str,
    pub new: &'static str,
}

pub fn slip(name: &'static str, file: &'static str, old: &'static str, new: &'static str) -> Slip {
    edits(name, file, &[(old, new)])
}

pub fn edits(name: &'static str, file: &'static str, edits: &[(&'static str, &'static str)]) -> Slip {
    let edits = edits.iter().map(|&(old, new)| Edit { file, old, new }).collect();
    Slip { name, edits, equivalent: None }
}

pub fn equivalent(slip: Slip, reason: &'static str) -> Slip {
    Slip { equivalent: Some(reason), ..slip }
}

impl Slip {
    /// The slip's files below `root` with its edits made. Stops where an old text does not stand
    /// exactly once.
    pub fn edited(&self, root: &Path) -> io::Result<BTreeMap<&'static str, String>> {
        let mut files = BTreeMap::new();
        for edit in &self.edits {
            if !files.contains_key(edit.file) {
                files.insert(edit.file, fs::read_to_string(root.join(edit.file))?);
            }
            let text = &files[edit.file];
            let times = text.matches(edit.old).count();
            assert_eq!(times, 1, "{}: {:?} stands {times} times in {}", self.name, edit.old, edit.file);
            let text = text.replacen(edit.old, edit.new, 1);
            files.insert(edit.file, text);
        }
        Ok(files)
    }
}
