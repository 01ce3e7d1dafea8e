//! A copy of the workspace, of docs/src and of the boundary's crate, which a member of it names, below target/slips, where slips are planted.

use crate::slip::Slip;
use blocks::Case;
use std::fs::{self, File};
use std::io::{self, BufWriter};
use std::path::{Path, PathBuf};
use std::process::{Command, Stdio};

pub struct Copy {
    root: PathBuf,
}

impl Copy {
    pub fn make() -> io::Result<Self> {
        let oracle = Path::new(env!("CARGO_MANIFEST_DIR")).join("..").canonicalize()?;
        let root = oracle.join("target/slips");
        for part in ["docs", "boundary", "oracle"] {
            if root.join(part).exists() {
                fs::remove_dir_all(root.join(part))?;
            }
        }
        copy_folder(&oracle.join("../docs/src"), &root.join("docs/src"))?;
        copy_folder(&oracle.join("../boundary/yunthirel"), &root.join("boundary/yunthirel"))?;
        copy_folder(&oracle, &root.join("oracle"))?;
        Ok(Copy { root })
    }

    /// Builds the oracle with the slip in it; the files are as they were afterwards.
    pub fn build(&self, slip: &Slip) -> io::Result<()> {
        let before = self.plant(slip)?;
        let built = Command::new(env!("CARGO"))
            .args(["build", "--release", "--offline", "--quiet", "-p", "answers", "--bin", "oracle"])
            .current_dir(self.root.join("oracle"))
            .env("CARGO_TARGET_DIR", self.root.join("target"))
            // Built once and run once: less optimising is sooner done.
            .env("CARGO_PROFILE_RELEASE_OPT_LEVEL", "1")
            .env("RUSTFLAGS", "--cap-lints allow")
            .status()?;
        assert!(built.success(), "{}: the copy does not build", slip.name);
        before.into_iter().try_for_each(|(path, text)| fs::write(path, text))
    }

    /// What the oracle built last writes for the cases.
    pub fn answers(&self, cases: &[Case]) -> io::Result<Vec<u8>> {
        let path = self.root.join("cases");
        let mut out = BufWriter::new(File::create(&path)?);
        cases.iter().try_for_each(|case| blocks::write_case(&mut out, case))?;
        out.into_inner()?;
        let output = Command::new(self.root.join("target/release/oracle"))
            .stdin(File::open(path)?)
            .stderr(Stdio::null())
            .output()?;
        Ok(output.stdout)
    }

    /// Makes the slip's edits and hands back the files as they were.
    fn plant(&self, slip: &Slip) -> io::Result<Vec<(PathBuf, String)>> {
        let mut before = Vec::new();
        for (file, edited) in slip.edited(&self.root)? {
            let path = self.root.join(file);
            before.push((path.clone(), fs::read_to_string(&path)?));
            fs::write(path, edited)?;
        }
        Ok(before)
    }
}

fn copy_folder(from: &Path, to: &Path) -> io::Result<()> {
    fs::create_dir_all(to)?;
    for entry in fs::read_dir(from)? {
        let entry = entry?;
        let name = entry.file_name();
        if name == "target" {
            continue;
        }
        if entry.file_type()?.is_dir() {
            copy_folder(&entry.path(), &to.join(&name))?;
        } else {
            fs::copy(entry.path(), to.join(&name))?;
        }
    }
    Ok(())
}
