//! Stops threads for a while, wherever they are: between two steps of an atomic word, with a lock or without. To be
//! preloaded.
//!
//! A thread of its own picks another of the process, again and again, and sends it a signal, whose handler sleeps for
//! up to `STALL` microseconds (default 200). System calls that it interrupts go on.
use std::ffi::{c_char, c_int, c_long, c_void};
use std::sync::atomic::{AtomicU64, Ordering};

const SIGNAL: c_int = 12;

#[repr(C)]
struct Action {
    handler: extern "C" fn(c_int),
    mask: [u64; 16],
    flags: c_int,
    restorer: usize,
}

const SA_RESTART: c_int = 0x1000_0000;

extern "C" {
    fn sigaction(signal: c_int, action: *const Action, old: *mut c_void) -> c_int;
    fn usleep(microseconds: u32) -> c_int;
    fn syscall(number: c_long, ...) -> c_long;
    fn getpid() -> c_int;
    fn getenv(name: *const c_char) -> *const c_char;
    fn atol(text: *const c_char) -> c_long;
}

const TGKILL: c_long = 234;
const GETTID: c_long = 186;

static STATE: AtomicU64 = AtomicU64::new(0x9e37_79b9_7f4a_7c15);
static MOST: AtomicU64 = AtomicU64::new(200);

/// A number that is hard to foresee, of xorshift; threads that draw at the same time may get the same.
fn draw() -> u64 {
    let mut x = STATE.load(Ordering::Relaxed);
    x ^= x << 13;
    x ^= x >> 7;
    x ^= x << 17;
    STATE.store(x, Ordering::Relaxed);
    x
}

extern "C" fn stall(_: c_int) {
    unsafe { usleep((draw() % MOST.load(Ordering::Relaxed).max(1)) as u32) };
}

fn others(own: c_long) -> Vec<c_long> {
    let Ok(tasks) = std::fs::read_dir("/proc/self/task") else { return Vec::new() };
    tasks.flatten().filter_map(|task| task.file_name().to_str()?.parse().ok()).filter(|id| *id != own).collect()
}

fn disturb() {
    let own = unsafe { syscall(GETTID) };
    loop {
        let threads = others(own);
        for _ in 0..64 {
            if let Some(thread) = threads.get(draw() as usize % threads.len().max(1)) {
                unsafe { syscall(TGKILL, getpid() as c_long, *thread, SIGNAL as c_long) };
            }
            unsafe { usleep((draw() % 100) as u32) };
        }
    }
}

extern "C" fn begin() {
    unsafe {
        let most = getenv(c"STALL".as_ptr());
        if !most.is_null() {
            MOST.store(atol(most).max(1) as u64, Ordering::Relaxed);
        }
        let action = Action { handler: stall, mask: [0; 16], flags: SA_RESTART, restorer: 0 };
        sigaction(SIGNAL, &action, std::ptr::null_mut());
    }
    std::thread::spawn(disturb);
}

#[used]
#[link_section = ".init_array"]
static BEGIN: extern "C" fn() = begin;
