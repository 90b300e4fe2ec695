//! The calls of `include/fhpgas.h` as a library for C, and as a module for the page, which has no
//! system below it.
#![cfg_attr(target_arch = "wasm32", no_std)]
#![allow(unused)]
// modules
use gas_export::calls::*;

// calls

/// What this build is, a text for C. A library of proved machine code has no such call.
#[unsafe(no_mangle)]
pub extern "C" fn fhpgas_not_proved() -> *const u8 {
    shim::BUILD.as_ptr()
}

/// The sources are proved not to panic, and the compiler leaves out what cannot be. A module that
/// checks its indices traps.
#[cfg(target_arch = "wasm32")]
#[panic_handler]
fn panic(_: &core::panic::PanicInfo<'_>) -> ! {
    shim::unreached()
}

/// The calls take no memory.
#[cfg(target_arch = "wasm32")]
mod memory {
    use core::alloc::{GlobalAlloc, Layout};
    struct Refused;
    // SAFETY: no memory is ever given.
    unsafe impl GlobalAlloc for Refused {
        unsafe fn alloc(&self, _: Layout) -> *mut u8 {
            core::ptr::null_mut()
        }
        unsafe fn dealloc(&self, _: *mut u8, _: Layout) {}
    }
    #[global_allocator]
    static REFUSED: Refused = Refused;
}
