//! C's `malloc` and `realloc`, of which one call is refused: the one whose number is in `REFUSED`. To be preloaded. Where
//! the file descriptor 9 is open, a byte there tells that the call came.
use std::ffi::{c_char, c_void};
use std::sync::atomic::{AtomicI64, Ordering};

extern "C" {
    fn __libc_malloc(size: usize) -> *mut c_void;
    fn __libc_realloc(old: *mut c_void, size: usize) -> *mut c_void;
    fn getenv(name: *const c_char) -> *const c_char;
    fn atol(text: *const c_char) -> i64;
    fn write(file: i32, bytes: *const c_void, length: usize) -> isize;
}

/// How many calls are left up to the one that is refused, that one counted; the least number before the first call.
static LEFT: AtomicI64 = AtomicI64::new(i64::MIN);

fn is_refused() -> bool {
    if LEFT.load(Ordering::SeqCst) == i64::MIN {
        let text = unsafe { getenv(c"REFUSED".as_ptr()) };
        LEFT.store(if text.is_null() { 0 } else { unsafe { atol(text) } }, Ordering::SeqCst);
    }
    let refused = LEFT.fetch_sub(1, Ordering::SeqCst) == 1;
    if refused {
        unsafe { write(9, c"r".as_ptr().cast(), 1) };
    }
    refused
}

#[no_mangle]
pub unsafe extern "C" fn malloc(size: usize) -> *mut c_void {
    if is_refused() { std::ptr::null_mut() } else { __libc_malloc(size) }
}

#[no_mangle]
pub unsafe extern "C" fn realloc(old: *mut c_void, size: usize) -> *mut c_void {
    if is_refused() { std::ptr::null_mut() } else { __libc_realloc(old, size) }
}
