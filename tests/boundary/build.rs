//! Links the archive or shared library that LINE_ARCHIVE names, or the archive that `make archive` writes.

use std::path::{Path, PathBuf};

fn main() {
    println!("cargo:rerun-if-env-changed=LINE_ARCHIVE");
    let root = Path::new(env!("CARGO_MANIFEST_DIR")).join("../..");
    let archive = std::env::var_os("LINE_ARCHIVE")
        .map(PathBuf::from)
        .unwrap_or_else(|| root.join("target/staticlib/libboundary.a"));
    println!("cargo:rerun-if-changed={}", archive.display());
    let Ok(archive) = archive.canonicalize() else {
        eprintln!("no archive at {}: run `make archive`, or set LINE_ARCHIVE to its path", archive.display());
        std::process::exit(1);
    };
    // a shared library is named by its path, so that another can be put in its place afterwards
    if archive.extension().is_some_and(|kind| kind == "so") {
        println!("cargo:rustc-link-arg={}", archive.display());
        return;
    }
    let folder = archive.parent().expect("a file has a folder");
    let name = archive.file_name().expect("a file has a name").to_string_lossy();
    println!("cargo:rustc-link-search=native={}", folder.display());
    println!("cargo:rustc-link-lib=static:+verbatim={name}");
}
