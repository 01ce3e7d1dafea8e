//! Links the static library: the archive named by YUNTHIREL_ARCHIVE, or crates/exports/out/libexports.a of the repository. The path is
//! to be absolute, since a build script runs in its crate's folder and not where the caller stands.

use std::path::PathBuf;

fn main() {
    println!("cargo:rerun-if-env-changed=YUNTHIREL_ARCHIVE");
    let default = PathBuf::from(env!("CARGO_MANIFEST_DIR")).join("../../crates/exports/out/libexports.a");
    let archive = std::env::var_os("YUNTHIREL_ARCHIVE").map_or(default, PathBuf::from);
    println!("cargo:rerun-if-changed={}", archive.display());
    if archive.is_relative() {
        panic!("YUNTHIREL_ARCHIVE is {}: it wants an absolute path", archive.display());
    }
    let Ok(archive) = archive.canonicalize() else {
        panic!(
            "no static library at {}: build it first, or name it by an absolute path in YUNTHIREL_ARCHIVE",
            archive.display()
        );
    };
    let name = archive.file_name().and_then(|name| name.to_str());
    let library = name.and_then(|name| name.strip_prefix("lib")?.strip_suffix(".a"));
    let library = library.unwrap_or_else(|| panic!("{} is not named lib*.a", archive.display()));
    let folder = archive.parent().expect("a file stands in a folder");
    println!("cargo:rustc-link-search=native={}", folder.display());
    println!("cargo:rustc-link-lib=static={library}");
}
