//! Refuses one growth of the program into which it is loaded first. tools/check-faults compiles and loads it.
//!
//! A growth is a call of malloc or realloc. `REFUSED_GROWTH` is the number of the one that is refused, counted from 1.
//! As it is refused a byte is written to the descriptor `REFUSED_GROWTH_TOLD`; a run that asks for fewer growths writes
//! none.

use std::ffi::{c_char, c_int, c_long, c_void};
use std::ptr;
use std::sync::atomic::{AtomicI64, Ordering::SeqCst};

unsafe extern "C" {
    fn __libc_malloc(size: usize) -> *mut c_void;
    fn __libc_realloc(kept: *mut c_void, size: usize) -> *mut c_void;
    fn getenv(name: *const c_char) -> *const c_char;
    fn atol(text: *const c_char) -> c_long;
    fn write(descriptor: c_int, bytes: *const c_void, count: usize) -> isize;
}

/// How many growths were asked for, by any thread.
static ASKED: AtomicI64 = AtomicI64::new(0);

/// The number that a variable of the environment holds; 0 if there is none. The name ends with a zero.
fn number(name: &[u8]) -> i64 {
    unsafe {
        let text = getenv(name.as_ptr().cast());
        if text.is_null() { 0 } else { atol(text) }
    }
}

fn is_refused() -> bool {
    let refused = ASKED.fetch_add(1, SeqCst) + 1 == number(b"REFUSED_GROWTH\0");
    if refused {
        let told = number(b"REFUSED_GROWTH_TOLD\0") as c_int;
        unsafe { write(told, b"r".as_ptr().cast(), 1) };
    }
    refused
}

#[unsafe(no_mangle)]
pub extern "C" fn malloc(size: usize) -> *mut c_void {
    if is_refused() { ptr::null_mut() } else { unsafe { __libc_malloc(size) } }
}

#[unsafe(no_mangle)]
pub unsafe extern "C" fn realloc(kept: *mut c_void, size: usize) -> *mut c_void {
    if is_refused() { ptr::null_mut() } else { unsafe { __libc_realloc(kept, size) } }
}
