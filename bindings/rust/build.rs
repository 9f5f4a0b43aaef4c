//! Links the proved archive, which `rt lib` in crates/zatovola writes (or which stands in the folder ZATOVOLA_ARCHIVE).

use std::path::PathBuf;

fn main() {
    let here = PathBuf::from(std::env::var("CARGO_MANIFEST_DIR").unwrap());
    let folder = std::env::var("ZATOVOLA_ARCHIVE").map(PathBuf::from).unwrap_or(here.join("../../crates/zatovola/out"));
    let archive = folder.join("libzatovola.a");
    println!("cargo:rerun-if-env-changed=ZATOVOLA_ARCHIVE");
    println!("cargo:rerun-if-changed={}", archive.display());
    assert!(archive.exists(), "{} is missing: run 'rt lib' in crates/zatovola", archive.display());
    println!("cargo:rustc-link-search=native={}", folder.display());
    println!("cargo:rustc-link-lib=static=zatovola");
}
