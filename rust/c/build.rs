//! The name that a program which links the shared library looks for.
use std::env;

fn main() {
    println!("cargo:rerun-if-changed=build.rs");
    let of = |name: &str| env::var(name).unwrap_or_default();
    let version = format!("{}.{}", of("CARGO_PKG_VERSION_MAJOR"), of("CARGO_PKG_VERSION_MINOR"));
    if of("CARGO_CFG_TARGET_VENDOR") == "apple" {
        println!("cargo:rustc-cdylib-link-arg=-Wl,-install_name,@rpath/libcellarcove_c.{version}.dylib");
    } else if of("CARGO_CFG_TARGET_FAMILY") == "unix" {
        println!("cargo:rustc-cdylib-link-arg=-Wl,-soname,libcellarcove_c.so.{version}");
        // The division of 128 bits names this function of `std`, and no call unwinds.
        println!("cargo:rustc-cdylib-link-arg=-Wl,--defsym,rust_eh_personality=0");
    }
}
