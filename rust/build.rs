//! Links the proved library's archive: from LINEAGE_LIB_DIR if that is set, else from the repository's
//! target/staticlib, where it is made first if it isn't there.

use std::path::{Path, PathBuf};
use std::process::Command;

const ARCHIVE: &str = "liblineage_c.a";

fn main() {
    println!("cargo::rerun-if-env-changed=LINEAGE_LIB_DIR");
    println!("cargo::rerun-if-changed=build.rs");
    let folder = match std::env::var_os("LINEAGE_LIB_DIR") {
        Some(folder) => named(PathBuf::from(folder)),
        None => made(&Path::new(env!("CARGO_MANIFEST_DIR")).join("..")),
    };
    println!("cargo::rerun-if-changed={}", folder.join(ARCHIVE).display());
    println!("cargo::rustc-link-search=native={}", folder.display());
    println!("cargo::rustc-link-lib=static=lineage_c");
}

/// Whoever names a folder means the archive in it; nothing is made there.
fn named(folder: PathBuf) -> PathBuf {
    if !folder.join(ARCHIVE).is_file() {
        panic!(
            "LINEAGE_LIB_DIR is {}, but {ARCHIVE} isn't there",
            folder.display()
        );
    }
    folder
}

fn made(root: &Path) -> PathBuf {
    let folder = root.join("target/staticlib");
    if folder.join(ARCHIVE).is_file() {
        return folder;
    }
    let made = Command::new(root.join("tools/build"))
        .arg("archive")
        .current_dir(root)
        .status();
    match made {
        Ok(status) if status.success() && folder.join(ARCHIVE).is_file() => folder,
        Ok(status) => panic!("`tools/build archive` ended with {status} and made no {ARCHIVE}"),
        Err(error) => panic!(
            "{ARCHIVE} isn't in {}, and `tools/build archive` can't be run: {error}. \
             Name the archive's folder in LINEAGE_LIB_DIR.",
            folder.display()
        ),
    }
}
