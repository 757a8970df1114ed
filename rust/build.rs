//! Finds the library for C: in the directory that BOOTIMG_LIB_DIR names, or else where pkg-config
//! finds it, or else where the linker does. It is the shared library, or the static one if
//! BOOTIMG_STATIC is set.

use std::env;
use std::process::Command;

fn main() {
    println!("cargo:rerun-if-env-changed=BOOTIMG_LIB_DIR");
    println!("cargo:rerun-if-env-changed=BOOTIMG_STATIC");
    println!("cargo:rerun-if-env-changed=PKG_CONFIG_PATH");
    if let Some(directory) = env::var("BOOTIMG_LIB_DIR").ok().or_else(by_pkg_config) {
        println!("cargo:rustc-link-search=native={directory}");
    }
    let kind = if env::var_os("BOOTIMG_STATIC").is_some() {
        "static"
    } else {
        "dylib"
    };
    println!("cargo:rustc-link-lib={kind}=bootimg");
}

/// Returns the directory of the library by its file for pkg-config.
fn by_pkg_config() -> Option<String> {
    let output = Command::new("pkg-config")
        .args(["--variable=libdir", "bootimg"])
        .output()
        .ok()?;
    let directory = String::from_utf8(output.stdout).ok()?.trim().to_owned();
    (output.status.success() && !directory.is_empty()).then_some(directory)
}
