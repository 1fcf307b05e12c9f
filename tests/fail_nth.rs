//! A library to load before a program (LD_PRELOAD): the allocation whose number, from 1, is in FAIL_NTH
//! answers that no memory is left, and a `!` on standard error says that it came.
#![no_std]

use core::ffi::{c_char, c_void};
use core::ptr::null_mut;
use core::sync::atomic::{AtomicUsize, Ordering};

extern "C" {
    fn __libc_malloc(size: usize) -> *mut c_void;
    fn __libc_calloc(count: usize, size: usize) -> *mut c_void;
    fn __libc_realloc(old: *mut c_void, size: usize) -> *mut c_void;
    fn __libc_memalign(align: usize, size: usize) -> *mut c_void;
    fn getenv(name: *const c_char) -> *const c_char;
    fn atoi(text: *const c_char) -> i32;
    fn write(file: i32, bytes: *const c_void, count: usize) -> isize;
}

static COUNT: AtomicUsize = AtomicUsize::new(0);

/// Whether the allocation at hand is the one that fails.
unsafe fn fails() -> bool {
    let number = COUNT.fetch_add(1, Ordering::Relaxed) + 1;
    let wanted = getenv(c"FAIL_NTH".as_ptr());
    let comes = !wanted.is_null() && atoi(wanted) as usize == number;
    if comes {
        write(2, b"!".as_ptr().cast(), 1);
    }
    comes
}

#[no_mangle]
pub unsafe extern "C" fn malloc(size: usize) -> *mut c_void {
    if fails() { null_mut() } else { __libc_malloc(size) }
}

#[no_mangle]
pub unsafe extern "C" fn calloc(count: usize, size: usize) -> *mut c_void {
    if fails() { null_mut() } else { __libc_calloc(count, size) }
}

#[no_mangle]
pub unsafe extern "C" fn realloc(old: *mut c_void, size: usize) -> *mut c_void {
    if fails() { null_mut() } else { __libc_realloc(old, size) }
}

#[no_mangle]
pub unsafe extern "C" fn aligned_alloc(align: usize, size: usize) -> *mut c_void {
    if fails() { null_mut() } else { __libc_memalign(align, size) }
}

#[no_mangle]
pub unsafe extern "C" fn posix_memalign(to: *mut *mut c_void, align: usize, size: usize) -> i32 {
    let found = aligned_alloc(align, size);
    if found.is_null() {
        return 12;
    }
    *to = found;
    0
}

#[panic_handler]
fn panic(_: &core::panic::PanicInfo) -> ! {
    loop {}
}
