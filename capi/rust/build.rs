//! Finds `liberaser.a`: in the folder of `ERASER_LIB_DIR`, else by pkg-config.

use std::env;
use std::process::Command;

fn main() {
    println!("cargo:rerun-if-env-changed=ERASER_LIB_DIR");
    println!("cargo:rerun-if-env-changed=PKG_CONFIG_PATH");
    let folder = env::var("ERASER_LIB_DIR").unwrap_or_else(|_| {
        let asked = Command::new("pkg-config").args(["--variable=libdir", "eraser"]).output();
        let found = asked.map(|done| String::from_utf8_lossy(&done.stdout).trim().to_string()).unwrap_or_default();
        assert!(!found.is_empty(), "pkg-config finds no eraser: set PKG_CONFIG_PATH or ERASER_LIB_DIR");
        found
    });
    println!("cargo:rerun-if-changed={folder}/liberaser.a");
    println!("cargo:rustc-link-search=native={folder}");
    println!("cargo:rustc-link-lib=static=eraser");
}
