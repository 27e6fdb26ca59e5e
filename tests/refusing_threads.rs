//! C's `pthread_create`, of which one call is refused: the one whose number is in `REFUSED`. To be preloaded.
use std::ffi::{c_char, c_int, c_void};
use std::sync::atomic::{AtomicI64, Ordering};

type Create = extern "C" fn(*mut c_void, *const c_void, *const c_void, *mut c_void) -> c_int;

extern "C" {
    fn dlsym(library: *mut c_void, name: *const c_char) -> *mut c_void;
    fn getenv(name: *const c_char) -> *const c_char;
    fn atol(text: *const c_char) -> i64;
}

/// The library that comes after this one.
const NEXT: *mut c_void = -1isize as *mut c_void;

/// What C answers where there is no room for a thread.
const EAGAIN: c_int = 11;

/// How many calls there were.
static CALLS: AtomicI64 = AtomicI64::new(0);

fn is_refused() -> bool {
    let text = unsafe { getenv(c"REFUSED".as_ptr()) };
    let refused = if text.is_null() { 0 } else { unsafe { atol(text) } };
    CALLS.fetch_add(1, Ordering::SeqCst) + 1 == refused
}

#[no_mangle]
pub unsafe extern "C" fn pthread_create(
    thread: *mut c_void, attributes: *const c_void, start: *const c_void, argument: *mut c_void,
) -> c_int {
    if is_refused() {
        return EAGAIN;
    }
    let create: Create = std::mem::transmute(dlsym(NEXT, c"pthread_create".as_ptr()));
    create(thread, attributes, start, argument)
}
