//! Links limits.c where it can be compiled: on x86-64, for every such processor, by the system's C compiler. Without it the cfg `limits` is not
//! set, and the bench says so.

use std::process::Command;

fn main() {
    println!("cargo:rerun-if-changed=limits.c");
    println!("cargo:rustc-check-cfg=cfg(limits)");
    if std::env::var("CARGO_CFG_TARGET_ARCH").as_deref() == Ok("x86_64") {
        let object = format!("{}/limits.o", std::env::var("OUT_DIR").unwrap());
        let words = ["-std=c11", "-O3", "-march=x86-64", "-mtune=generic", "-fPIC", "-c", "limits.c", "-o", &object];
        if Command::new("cc").args(words).status().is_ok_and(|status| status.success()) {
            println!("cargo:rustc-link-arg-bins={object}");
            println!("cargo:rustc-cfg=limits");
        }
    }
}
