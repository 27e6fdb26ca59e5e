//! Two jobs transfer between accounts, through the library for C, from Rust.
//!
//! tests/embed builds and runs it, and compares what it prints with bank_rs.out.

use std::ffi::c_void;
use std::ptr::null_mut;

/// What the library keeps of an engine: one pointer of its own.
#[repr(C)]
struct Raw {
    own: *mut c_void,
}

// SAFETY of each call: the declarations are those of include/vorgushan.h; references and slices are lent for the call.
unsafe extern "C" {
    fn vorgushan_new(engine: &mut Raw) -> u32;
    fn vorgushan_end(engine: &mut Raw) -> u32;
    fn vorgushan_line(
        engine: &mut Raw,
        line: *const u8,
        line_length: usize,
        reply: *mut u8,
        reply_size: usize,
        reply_length: &mut usize,
    ) -> u32;
    fn vorgushan_reply(engine: &mut Raw, reply: *mut u8, reply_size: usize, reply_length: &mut usize) -> u32;
}

const DONE: u32 = 0;
const LAST_REFUSAL: u32 = 19;
const BUFFER_TOO_SHORT: u32 = 34;
const RESTARTED: u32 = 40;

/// An engine, which is ended when it is dropped. It isn't `Send`: it stays on its thread.
struct Engine {
    raw: Raw,
    reply: Vec<u8>,
}

impl Engine {
    fn new() -> Result<Engine, u32> {
        let mut raw = Raw { own: null_mut() };
        match unsafe { vorgushan_new(&mut raw) } {
            DONE => Ok(Engine { raw, reply: vec![0; 16] }),
            refused => Err(refused),
        }
    }

    /// A line's reply, without its end. The buffer grows with the longest one.
    fn line(&mut self, line: &str) -> String {
        let (raw, mut length) = (&mut self.raw, 0);
        let mut outcome = unsafe {
            vorgushan_line(raw, line.as_ptr(), line.len(), self.reply.as_mut_ptr(), self.reply.len(), &mut length)
        };
        if outcome == BUFFER_TOO_SHORT {
            self.reply.resize(length, 0);
            outcome = unsafe { vorgushan_reply(raw, self.reply.as_mut_ptr(), self.reply.len(), &mut length) };
        }
        assert!(outcome <= LAST_REFUSAL || outcome == RESTARTED, "outcome {outcome}");
        String::from_utf8_lossy(&self.reply[..length]).trim_end().to_string()
    }
}

impl Drop for Engine {
    fn drop(&mut self) {
        unsafe { vorgushan_end(&mut self.raw) };
    }
}

fn main() -> Result<(), u32> {
    let mut engine = Engine::new()?;
    for line in [
        "1 SET ^Account(\"ann\")=100",
        "1 SET ^Account(\"bo\")=\"fifty, and a note that is longer than the buffer\"",
        "1 TSTART",
        "1 $GET(^Account(\"ann\"))",
        "1 SET ^Account(\"ann\")=70",
        "2 $GET(^Account(\"ann\"))",
        "1 TCOMMIT",
        "2 $GET(^Account(\"ann\"))",
        "2 $GET(^Account(\"bo\"))",
        "2 FOO",
    ] {
        println!("{line:32} {}", engine.line(line));
    }
    Ok(())
}
