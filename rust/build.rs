//! Says what the compiler has that older ones lack: the attributes `diagnostic::on_unimplemented` since 1.78 and
//! `diagnostic::do_not_recommend` since 1.85, and `core::error::Error` since 1.81.

use std::env;
use std::process::Command;

/// The minor version of the compiler, or a large number if it is not known.
fn minor_version() -> u32 {
    let rustc = env::var_os("RUSTC").unwrap_or_else(|| "rustc".into());
    let printed = Command::new(rustc).arg("--version").output().ok();
    let version = printed.and_then(|printed| String::from_utf8(printed.stdout).ok());
    let minor = version.as_deref().and_then(|version| version.split('.').nth(1));
    minor.and_then(|minor| minor.parse().ok()).unwrap_or(u32::MAX)
}

fn main() {
    println!("cargo:rerun-if-changed=build.rs");
    println!("cargo:rustc-check-cfg=cfg(has_core_error, has_diagnostic, has_do_not_recommend)");
    let minor = minor_version();
    if minor >= 78 {
        println!("cargo:rustc-cfg=has_diagnostic");
    }
    if minor >= 81 {
        println!("cargo:rustc-cfg=has_core_error");
    }
    if minor >= 85 {
        println!("cargo:rustc-cfg=has_do_not_recommend");
    }
}
