//! The calls of `bindings/c/cellarcove.h`, from plain Rust. Each is one call of the crate `cellarcove`,
//! for any arguments: if the call has no answer, the status says why, and every other field is 0.
//!
//! But for this page, these sources are not written by hand. They are those of the exports that were
//! proved in Rattle, without their contracts.
#![no_std]
// Some names are those of contracts alone.
#![allow(dead_code)]

use core::ffi::c_char;

/// The calls are not to panic, as was proved of their sources. The language asks for this all the same.
/// It traps on the processors that are named here, and does not return on others.
#[panic_handler]
fn panic(_: &core::panic::PanicInfo) -> ! {
    #[cfg(any(target_arch = "x86", target_arch = "x86_64"))]
    // SAFETY: the instruction raises an exception of the processor.
    unsafe {
        core::arch::asm!("ud2", options(noreturn, nomem, nostack));
    }
    #[cfg(any(target_arch = "aarch64", target_arch = "arm"))]
    // SAFETY: the instruction raises an exception of the processor.
    unsafe {
        core::arch::asm!("udf #0", options(noreturn, nomem, nostack));
    }
    #[cfg(any(target_arch = "riscv32", target_arch = "riscv64"))]
    // SAFETY: the instruction raises an exception of the processor.
    unsafe {
        core::arch::asm!("unimp", options(noreturn, nomem, nostack));
    }
    #[cfg(target_arch = "wasm32")]
    core::arch::wasm32::unreachable();
    #[allow(unreachable_code)]
    loop {
        core::hint::spin_loop();
    }
}

/// The version of the library, that of its `Cargo.toml`.
#[no_mangle]
pub extern "C" fn cellarcove_version() -> *const c_char {
    concat!(env!("CARGO_PKG_VERSION"), "\0").as_ptr().cast()
}

/// The compiler that made the library.
#[no_mangle]
pub extern "C" fn cellarcove_built_by() -> *const c_char {
    c"cargo".as_ptr()
}
