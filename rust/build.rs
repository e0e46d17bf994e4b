//! Finds the library: in the folder that KEHLDORA_LIB_DIR names, or where pkg-config does.
//!
//! KEHLDORA_LIBS names further libraries to link with. KEHLDORA_HOOKS says that the library has the hooks of tests/c/hooks.h.
use std::env::var;
use std::process::Command;

fn main() {
    for name in ["KEHLDORA_LIB_DIR", "KEHLDORA_LIBS", "KEHLDORA_HOOKS"] {
        println!("cargo:rerun-if-env-changed={name}");
    }
    println!("cargo:rustc-check-cfg=cfg(hooks)");
    let folder = var("KEHLDORA_LIB_DIR").ok().or_else(installed);
    let folder = folder.expect("no library: set KEHLDORA_LIB_DIR to the folder that has libkehldora.a");
    println!("cargo:rustc-link-search=native={folder}");
    println!("cargo:rustc-link-lib=static=kehldora");
    for name in var("KEHLDORA_LIBS").unwrap_or_default().split_whitespace() {
        println!("cargo:rustc-link-lib={name}");
    }
    if var("KEHLDORA_HOOKS").is_ok() {
        println!("cargo:rustc-cfg=hooks");
    }
}

/// The folder that pkg-config knows.
fn installed() -> Option<String> {
    let found = Command::new("pkg-config").args(["--variable=libdir", "kehldora"]).output().ok()?;
    let folder = String::from_utf8(found.stdout).ok()?.trim().to_string();
    (found.status.success() && !folder.is_empty()).then_some(folder)
}
