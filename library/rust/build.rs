//! Links the bench server's archive: the one that `BENCH_ARCHIVE` names, else the one that the repository builds.

use std::env;
use std::path::PathBuf;

fn main() {
    println!("cargo:rerun-if-env-changed=BENCH_ARCHIVE");
    let archive = match env::var_os("BENCH_ARCHIVE") {
        Some(path) => PathBuf::from(path),
        None => PathBuf::from(env::var_os("CARGO_MANIFEST_DIR").expect("cargo sets it"))
            .join("../../crates/embed/out/libembed.a"),
    };
    let archive = archive
        .canonicalize()
        .unwrap_or_else(|error| panic!("{}: {error}; library/build makes it", archive.display()));
    let folder = archive.parent().expect("a file stands in a folder");
    let name = archive
        .file_stem()
        .and_then(|stem| stem.to_str())
        .and_then(|stem| stem.strip_prefix("lib"))
        .expect("the archive's name is libNAME.a");
    println!("cargo:rerun-if-changed={}", archive.display());
    println!("cargo:rustc-link-search=native={}", folder.display());
    println!("cargo:rustc-link-lib=static={name}");
}
