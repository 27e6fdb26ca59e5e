//! C's allocation, counted. Before each write to standard output it reports on standard error how many bytes are
//! allocated apart from the largest block; where `WHOLE` is set, the most of all blocks since the last write. Where `ROOM`
//! is set, what isn't large is refused once it would take so many bytes more than at the 21st write. To be preloaded, into
//! a program of which one thread alone takes large blocks.
use std::ffi::{c_char, c_void};
use std::sync::atomic::{AtomicUsize, Ordering::Relaxed};

extern "C" {
    fn __libc_malloc(size: usize) -> *mut c_void;
    fn __libc_calloc(count: usize, size: usize) -> *mut c_void;
    fn __libc_realloc(old: *mut c_void, size: usize) -> *mut c_void;
    fn __libc_free(old: *mut c_void);
    fn malloc_usable_size(block: *mut c_void) -> usize;
    fn __write(file: i32, bytes: *const u8, count: usize) -> isize;
    fn getenv(name: *const c_char) -> *const c_char;
    fn atol(text: *const c_char) -> i64;
}

/// Only blocks of at least this many bytes may be the largest.
const LARGE: usize = 65_536;

/// The bytes of all blocks, the most since the last write, and the sizes of the large ones, 0 where a place is free.
static LIVE: AtomicUsize = AtomicUsize::new(0);
static MOST: AtomicUsize = AtomicUsize::new(0);
static SIZES: [AtomicUsize; 64] = [const { AtomicUsize::new(0) }; 64];

/// The write at which `ROOM` begins to count.
const FIRST_IN_ROOM: usize = 20;

/// The bytes of the blocks that aren't large, how many these may become, and how many writes there were.
static SMALL: AtomicUsize = AtomicUsize::new(0);
static MOST_SMALL: AtomicUsize = AtomicUsize::new(usize::MAX);
static WRITES: AtomicUsize = AtomicUsize::new(0);

fn is_refused(size: usize) -> bool {
    size < LARGE && SMALL.load(Relaxed) + size > MOST_SMALL.load(Relaxed)
}

/// A place that has this size gets another.
fn exchange(old: usize, new: usize) {
    let place = SIZES.iter().find(|size| size.load(Relaxed) == old);
    place.expect("no more than 64 large blocks").store(new, Relaxed);
}

fn count(block: *mut c_void) -> *mut c_void {
    let size = unsafe { malloc_usable_size(block) };
    MOST.fetch_max(LIVE.fetch_add(size, Relaxed) + size, Relaxed);
    if size >= LARGE {
        exchange(0, size);
    } else {
        SMALL.fetch_add(size, Relaxed);
    }
    block
}

fn uncount(block: *mut c_void) {
    let size = unsafe { malloc_usable_size(block) };
    LIVE.fetch_sub(size, Relaxed);
    if size >= LARGE {
        exchange(size, 0);
    } else {
        SMALL.fetch_sub(size, Relaxed);
    }
}

#[no_mangle]
pub unsafe extern "C" fn malloc(size: usize) -> *mut c_void {
    if is_refused(size) {
        return std::ptr::null_mut();
    }
    count(__libc_malloc(size))
}

#[no_mangle]
pub unsafe extern "C" fn calloc(number: usize, size: usize) -> *mut c_void {
    count(__libc_calloc(number, size))
}

#[no_mangle]
pub unsafe extern "C" fn realloc(old: *mut c_void, size: usize) -> *mut c_void {
    if is_refused(size) {
        return std::ptr::null_mut();
    }
    uncount(old);
    count(__libc_realloc(old, size))
}

#[no_mangle]
pub unsafe extern "C" fn free(block: *mut c_void) {
    uncount(block);
    __libc_free(block);
}

/// Tells a number, in a line of its own, without memory.
fn tell(mut number: usize) {
    let (mut line, mut at) = ([b'\n'; 24], 23);
    loop {
        at -= 1;
        line[at] = b'0' + (number % 10) as u8;
        number /= 10;
        if number == 0 {
            break;
        }
    }
    unsafe { __write(2, line[at..].as_ptr(), 24 - at) };
}

#[no_mangle]
pub unsafe extern "C" fn write(file: i32, bytes: *const u8, count: usize) -> isize {
    if file == 1 {
        let (live, largest) = (LIVE.load(Relaxed), SIZES.iter().map(|size| size.load(Relaxed)).max().unwrap_or(0));
        let most = MOST.swap(live, Relaxed);
        tell(if getenv(c"WHOLE".as_ptr()).is_null() { live - largest } else { most });
        let room = getenv(c"ROOM".as_ptr());
        if !room.is_null() && WRITES.fetch_add(1, Relaxed) == FIRST_IN_ROOM {
            MOST_SMALL.store(SMALL.load(Relaxed) + atol(room) as usize, Relaxed);
        }
    }
    __write(file, bytes, count)
}
