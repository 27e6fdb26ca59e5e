//! The calls of `include/vorgushan_threads.h` that never wait, and what the caller keeps for them. What is said in
//! `raw.rs` of safety holds here too.

use crate::raw::{outcome, RawKey};
use std::ffi::c_void;
use std::hint::spin_loop;
use std::ptr::null_mut;
use std::sync::atomic::{AtomicU32, Ordering::Relaxed};
use std::thread::{sleep, yield_now};
use std::time::{Duration, Instant};

/// What `vorgushan_s_act` does.
pub(crate) mod act {
    pub(crate) const TSTART: u32 = 0;
    pub(crate) const TCOMMIT: u32 = 1;
    pub(crate) const TROLLBACK: u32 = 2;
    pub(crate) const TRESTART: u32 = 3;
    pub(crate) const TLEVEL: u32 = 4;
    pub(crate) const UNLOCK: u32 = 6;
}

/// `VG_BUSY`.
const BUSY: u32 = 43;

/// `vg_hub`.
#[repr(C)]
pub(crate) struct RawHub {
    own: *mut c_void,
}

/// `vg_session`.
#[repr(C)]
pub(crate) struct RawSession {
    own: *mut c_void,
}

// SAFETY: the library may be handed a hub or a session by another thread than before, one call at a time, and this is
// proved (`Send` of `VgSession` in crates/vorgushan_c). Neither is `Sync` here, so calls on one don't overlap; what two
// of them share the library orders by atomics of its own.
unsafe impl Send for RawHub {}
unsafe impl Send for RawSession {}

// SAFETY: the calls are declared as the header does. Those that are marked safe take no pointer but references, whose
// types give what the header asks for.
unsafe extern "C" {
    safe fn vorgushan_hub_new(hub: &mut RawHub) -> u32;
    safe fn vorgushan_hub_end(hub: &mut RawHub) -> u32;
    pub(crate) safe fn vorgushan_open(hub: &mut RawHub, session: &mut RawSession, job: u64) -> u32;
    pub(crate) safe fn vorgushan_s_halt(session: &mut RawSession) -> u32;
    pub(crate) safe fn vorgushan_s_act(session: &mut RawSession, act: u32, number: &mut u64) -> u32;
    fn vorgushan_s_set(session: &mut RawSession, key: &mut RawKey, value: *const u8, value_length: usize) -> u32;
    pub(crate) safe fn vorgushan_s_kill(session: &mut RawSession, extent: u32, key: &mut RawKey) -> u32;
    fn vorgushan_s_get(
        session: &mut RawSession,
        key: &mut RawKey,
        value: *mut u8,
        value_size: usize,
        value_length: &mut usize,
    ) -> u32;
    pub(crate) safe fn vorgushan_s_merge(session: &mut RawSession, to: &mut RawKey, from: &mut RawKey) -> u32;
    pub(crate) safe fn vorgushan_s_data(session: &mut RawSession, key: &mut RawKey, number: &mut u64) -> u32;
    fn vorgushan_s_increment(
        session: &mut RawSession,
        key: &mut RawKey,
        number: *const u8,
        number_length: usize,
        sum: *mut u8,
        sum_size: usize,
        sum_length: &mut usize,
    ) -> u32;
    fn vorgushan_s_order(
        session: &mut RawSession,
        key: &mut RawKey,
        start: *const u8,
        start_length: usize,
        backward: u32,
        subscript: *mut u8,
        subscript_size: usize,
        subscript_length: &mut usize,
    ) -> u32;
    fn vorgushan_s_lock(
        session: &mut RawSession,
        form: u32,
        again: u32,
        keys: *mut RawKey,
        count: usize,
        had: &mut u64,
    ) -> u32;
    fn vorgushan_s_look(
        session: &mut RawSession,
        moment: u32,
        key: &mut RawKey,
        value: *mut u8,
        value_size: usize,
        value_length: &mut usize,
    ) -> u32;
    pub(crate) safe fn vorgushan_s_look_data(
        session: &mut RawSession,
        moment: u32,
        key: &mut RawKey,
        number: &mut u64,
    ) -> u32;
    fn vorgushan_s_look_order(
        session: &mut RawSession,
        moment: u32,
        key: &mut RawKey,
        start: *const u8,
        start_length: usize,
        backward: u32,
        subscript: *mut u8,
        subscript_size: usize,
        subscript_length: &mut usize,
    ) -> u32;
    pub(crate) safe fn vorgushan_s_look_query(
        session: &mut RawSession,
        moment: u32,
        key: &mut RawKey,
        is_open: u32,
        backward: u32,
    ) -> u32;
    fn vorgushan_s_walk(
        session: &mut RawSession,
        moment: u32,
        root: &mut RawKey,
        place: &mut RawKey,
        nodes: *mut u8,
        nodes_size: usize,
        nodes_length: &mut usize,
    ) -> u32;
    pub(crate) safe fn vorgushan_s_hold(session: &mut RawSession) -> u32;
    pub(crate) safe fn vorgushan_s_release(session: &mut RawSession) -> u32;
    pub(crate) safe fn vorgushan_s_collect(session: &mut RawSession, nodes: usize) -> u32;
    pub(crate) safe fn vorgushan_s_checkpoint(session: &mut RawSession) -> u32;
}

/// So often a pause spins before it yields.
const SPINNING_TURNS: u32 = 8;

/// So long a call that reads lets others by at most.
const MOST_GIVEN_WAY: Duration = Duration::from_millis(50);

/// Spins, then yields, then sleeps: longer at each turn.
fn pause(turn: u32) {
    match turn {
        0..SPINNING_TURNS => (0..16 << turn).for_each(|_| spin_loop()),
        SPINNING_TURNS..64 => yield_now(),
        _ => sleep(Duration::from_micros(50)),
    }
}

/// Makes a call until it isn't in the way of others, with a pause by each turn's number between.
fn tried(mut call: impl FnMut() -> u32, mut pause: impl FnMut(u32)) -> u32 {
    let mut turn = 0;
    loop {
        match call() {
            BUSY => pause(turn),
            outcome => return outcome,
        }
        turn = turn.saturating_add(1);
    }
}

/// The calls that wait to have the database for themselves. Those that only look let one of them by before they begin, so
/// that they keep nobody out, however little they pause.
pub(crate) struct Line {
    /// Calls that have spun in vain.
    waiting: AtomicU32,
    /// How many of those came through.
    served: AtomicU32,
}

impl Line {
    pub(crate) const fn new() -> Line {
        Line { waiting: AtomicU32::new(0), served: AtomicU32::new(0) }
    }

    /// Makes a call that may need the database for itself. Once it has spun in vain it waits in the line.
    pub(crate) fn tried(&self, call: impl FnMut() -> u32) -> u32 {
        let mut is_waiting = false;
        let outcome = tried(call, |turn| {
            if turn == SPINNING_TURNS {
                self.waiting.fetch_add(1, Relaxed);
                is_waiting = true;
            }
            pause(turn);
        });
        if is_waiting {
            self.served.fetch_add(1, Relaxed);
            self.waiting.fetch_sub(1, Relaxed);
        }
        outcome
    }

    /// The same of one that only looks at the database, and never needs it for itself. A session that holds it gives way to
    /// nobody: they wait for the end of its hold.
    pub(crate) fn looked(&self, holds: bool, call: impl FnMut() -> u32) -> u32 {
        if !holds && self.waiting.load(Relaxed) > 0 {
            self.let_one_by();
        }
        tried(call, pause)
    }

    /// The same of a command that reads: in a transaction it only looks, and else it is a unit of the journal.
    pub(crate) fn read(&self, in_transaction: bool, holds: bool, call: impl FnMut() -> u32) -> u32 {
        if in_transaction {
            self.looked(holds, call)
        } else {
            self.tried(call)
        }
    }

    /// Waits until one of those in the line came through, or none is there, or the time for it is over.
    #[cold]
    fn let_one_by(&self) {
        let (served, start, mut turn) = (self.served.load(Relaxed), Instant::now(), 0);
        while self.waiting.load(Relaxed) > 0 && self.served.load(Relaxed) == served && start.elapsed() < MOST_GIVEN_WAY
        {
            pause(turn);
            turn += 1;
        }
    }
}

impl RawHub {
    /// An empty database, or why there is none.
    pub(crate) fn new() -> Result<RawHub, u32> {
        let mut hub = RawHub { own: null_mut() };
        match vorgushan_hub_new(&mut hub) {
            outcome::DONE => Ok(hub),
            refused => Err(refused),
        }
    }
}

impl Drop for RawHub {
    fn drop(&mut self) {
        vorgushan_hub_end(self);
    }
}

impl RawSession {
    /// None yet.
    pub(crate) const fn none() -> RawSession {
        RawSession { own: null_mut() }
    }
}

pub(crate) fn set(session: &mut RawSession, key: &mut RawKey, value: &[u8]) -> u32 {
    // SAFETY: pointer and length are those of a slice, which is lent for the call.
    unsafe { vorgushan_s_set(session, key, value.as_ptr(), value.len()) }
}

pub(crate) fn get(session: &mut RawSession, key: &mut RawKey, value: &mut [u8], length: &mut usize) -> u32 {
    // SAFETY: pointer and length are those of a slice, which is lent for the call.
    unsafe { vorgushan_s_get(session, key, value.as_mut_ptr(), value.len(), length) }
}

pub(crate) fn increment(
    session: &mut RawSession,
    key: &mut RawKey,
    number: &[u8],
    sum: &mut [u8],
    length: &mut usize,
) -> u32 {
    let (addend, size) = (number.as_ptr(), sum.len());
    // SAFETY: pointers and lengths are those of two slices, which are lent for the call and don't overlap.
    unsafe { vorgushan_s_increment(session, key, addend, number.len(), sum.as_mut_ptr(), size, length) }
}

pub(crate) fn order(
    session: &mut RawSession,
    from: &mut crate::raw::Place,
    found: &mut [u8],
    length: &mut usize,
) -> u32 {
    let (start, size) = (from.start, found.len());
    // SAFETY: pointers and lengths are those of two slices, which are lent for the call and don't overlap.
    unsafe {
        let found = found.as_mut_ptr();
        vorgushan_s_order(session, from.key, start.as_ptr(), start.len(), from.backward, found, size, length)
    }
}

pub(crate) fn lock(session: &mut RawSession, form: u32, again: u32, keys: &mut [RawKey], had: &mut u64) -> u32 {
    // SAFETY: pointer and length are those of a slice of keys, which are lent for the call.
    unsafe { vorgushan_s_lock(session, form, again, keys.as_mut_ptr(), keys.len(), had) }
}

pub(crate) fn look(
    session: &mut RawSession,
    moment: u32,
    key: &mut RawKey,
    value: &mut [u8],
    length: &mut usize,
) -> u32 {
    // SAFETY: pointer and length are those of a slice, which is lent for the call.
    unsafe { vorgushan_s_look(session, moment, key, value.as_mut_ptr(), value.len(), length) }
}

pub(crate) fn look_order(
    session: &mut RawSession,
    moment: u32,
    from: &mut crate::raw::Place,
    found: &mut [u8],
    length: &mut usize,
) -> u32 {
    let (start, count, back, size) = (from.start.as_ptr(), from.start.len(), from.backward, found.len());
    // SAFETY: pointers and lengths are those of two slices, which are lent for the call and don't overlap.
    unsafe { vorgushan_s_look_order(session, moment, from.key, start, count, back, found.as_mut_ptr(), size, length) }
}

pub(crate) fn walk(
    session: &mut RawSession,
    moment: u32,
    root: &mut RawKey,
    place: &mut RawKey,
    nodes: &mut [u8],
    length: &mut usize,
) -> u32 {
    // SAFETY: pointer and length are those of a slice, which is lent for the call; two `&mut` are two keys.
    unsafe { vorgushan_s_walk(session, moment, root, place, nodes.as_mut_ptr(), nodes.len(), length) }
}

#[cfg(test)]
mod tests {
    use super::{outcome, Line, BUSY, MOST_GIVEN_WAY, SPINNING_TURNS};
    use std::sync::atomic::Ordering::Relaxed;
    use std::time::Instant;

    /// Calls once more after so often `BUSY`; how many were seen in the line at the last call.
    fn seen_in(line: &Line, often: u32, make: impl FnOnce(&Line, &mut dyn FnMut() -> u32) -> u32) -> u32 {
        let (mut turn, mut seen) = (0, 0);
        let answer = make(line, &mut || {
            seen = line.waiting.load(Relaxed);
            let is_busy = turn < often;
            turn += 1;
            [outcome::DONE, BUSY][usize::from(is_busy)]
        });
        assert_eq!((answer, turn, line.waiting.load(Relaxed)), (outcome::DONE, often + 1, 0));
        seen
    }

    #[test]
    fn those_that_spun_in_vain_wait_in_the_line() {
        let line = Line::new();
        assert_eq!(seen_in(&line, SPINNING_TURNS, |line, call| line.tried(call)), 0);
        assert_eq!(seen_in(&line, SPINNING_TURNS + 1, |line, call| line.looked(false, call)), 0);
        assert_eq!(seen_in(&line, SPINNING_TURNS + 1, |line, call| line.read(true, false, call)), 0);
        assert_eq!(line.served.load(Relaxed), 0);
        assert_eq!(seen_in(&line, SPINNING_TURNS + 1, |line, call| line.tried(call)), 1);
        assert_eq!(seen_in(&line, SPINNING_TURNS + 1, |line, call| line.read(false, false, call)), 1);
        assert_eq!(line.served.load(Relaxed), 2);
    }

    #[test]
    fn looks_give_way_for_a_bounded_time() {
        let (line, start) = (Line::new(), Instant::now());
        line.waiting.store(1, Relaxed);
        assert_eq!(line.looked(true, || outcome::DONE), outcome::DONE);
        assert_eq!(line.read(true, true, || outcome::DONE), outcome::DONE);
        assert!(start.elapsed() < MOST_GIVEN_WAY);
        assert_eq!(line.looked(false, || outcome::DONE), outcome::DONE);
        assert!(start.elapsed() >= MOST_GIVEN_WAY);
        assert_eq!(line.read(true, false, || outcome::DONE), outcome::DONE);
        assert!(start.elapsed() >= 2 * MOST_GIVEN_WAY);
    }
}
