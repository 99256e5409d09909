//! Lays copies of the given Rust files and of the stand-ins for the missing ones out as one tree, so that the given
//! files are compiled as they stand. The folder of the given files is named by ZIXY_SRC. They are copies and no links,
//! since `rt ci` refuses a repository with a link in it, below target/ too.

use std::fs;
use std::path::{Path, PathBuf};

fn main() {
    let given = PathBuf::from(std::env::var("ZIXY_SRC").expect("ZIXY_SRC names the folder that holds zixy/src"));
    let here = PathBuf::from(std::env::var("CARGO_MANIFEST_DIR").unwrap());
    let out = PathBuf::from(std::env::var("OUT_DIR").unwrap());
    let tree = out.join("zixy");
    let _ = fs::remove_dir_all(&tree);
    copy_all(&given.join("zixy/src"), &tree);
    // A given file is never replaced: copy_all leaves what is there.
    copy_all(&here.join("stand-ins/modules"), &tree);
    let list: String = ["cmpnt", "container", "qubit", "utils"].iter().map(|m| module(&tree, m)).collect();
    fs::write(out.join("modules.rs"), list).unwrap();
    println!("cargo:rerun-if-env-changed=ZIXY_SRC");
    println!("cargo:rerun-if-changed=build.rs");
}

fn module(tree: &Path, name: &str) -> String {
    format!("#[path = {:?}]\npub mod {};\n", tree.join(name).join("mod.rs"), name)
}

fn copy_all(from: &Path, to: &Path) {
    fs::create_dir_all(to).unwrap();
    println!("cargo:rerun-if-changed={}", from.display());
    for entry in fs::read_dir(from).unwrap_or_else(|e| panic!("{}: {e}", from.display())) {
        let path = entry.unwrap().path();
        let target = to.join(path.file_name().unwrap());
        if path.is_dir() {
            copy_all(&path, &target);
        } else if !target.exists() {
            println!("cargo:rerun-if-changed={}", path.display());
            fs::copy(&path, &target).unwrap();
        }
    }
}
