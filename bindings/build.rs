//! Links libbawersun.a: of the folder that BAWERSUN_ARCHIVE names, such as the lib/ that ./install fills, else of crates/bawersun/out, where
//! `rt lib` in crates/bawersun leaves it.

use std::path::PathBuf;

fn main() {
    println!("cargo:rerun-if-env-changed=BAWERSUN_ARCHIVE");
    let own =
        || PathBuf::from(std::env::var_os("CARGO_MANIFEST_DIR").expect("cargo's own")).join("../crates/bawersun/out");
    let folder = std::env::var_os("BAWERSUN_ARCHIVE").map_or_else(own, PathBuf::from);
    let archive = folder.join("libbawersun.a");
    assert!(archive.is_file(), "there is no {}: BAWERSUN_ARCHIVE names the folder that holds it", archive.display());
    println!("cargo:rerun-if-changed={}", archive.display());
    println!("cargo:rustc-link-search=native={}", folder.display());
    println!("cargo:rustc-link-lib=static=bawersun");
}
