//! Links the library's archive where it is found; without it only the self-test can run.

use std::path::{Path, PathBuf};

fn main() {
    println!("cargo::rustc-check-cfg=cfg(archive)");
    println!("cargo::rerun-if-env-changed=LINEAGE_LIB_DIR");
    println!("cargo::rerun-if-changed=build.rs");
    let folder = library_folder();
    let archive = folder.join("liblineage_c.a");
    // Named even when missing: cargo then asks again at the next build.
    println!("cargo::rerun-if-changed={}", archive.display());
    println!("cargo::rustc-env=SECOND_ARCHIVE={}", archive.display());
    if archive.is_file() {
        println!("cargo::rustc-cfg=archive");
        println!("cargo::rustc-link-search=native={}", folder.display());
        println!("cargo::rustc-link-lib=static=lineage_c");
    }
}

fn library_folder() -> PathBuf {
    match std::env::var_os("LINEAGE_LIB_DIR") {
        Some(folder) => PathBuf::from(folder),
        None => Path::new(env!("CARGO_MANIFEST_DIR")).join("../target/staticlib"),
    }
}
