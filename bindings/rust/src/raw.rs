//! The calls of `include/vorgushan.h`, and what the caller keeps for them. All calls are made here.
//!
//! What the header asks for holds by the types: a reference or slice is not null and names memory that nothing else
//! names during the call; an engine or key begins as none, and its pointer is the library's own, which no Rust code
//! reads or writes.

use std::ffi::c_void;
use std::ptr::null_mut;

/// The version of the header whose calls these are.
pub(crate) const VERSION: u32 = 200;

/// The library's own outcomes that are told apart here; the refusals are in `error.rs`.
pub(crate) mod outcome {
    pub(crate) const DONE: u32 = 0;
    pub(crate) const BUFFER_TOO_SHORT: u32 = 34;
    pub(crate) const REPLY_KEPT: u32 = 35;
    pub(crate) const NO_REPLY: u32 = 36;
    pub(crate) const AT_END: u32 = 37;
    pub(crate) const NO_KEY: u32 = 39;
    pub(crate) const RESTARTED: u32 = 40;
    pub(crate) const NO_VALUE: u32 = 41;
    pub(crate) const TRANSACTION_OPEN: u32 = 42;
}

/// `VG_NOW`.
pub(crate) const NOW: u64 = 0;

/// `vg_engine`.
#[repr(C)]
pub(crate) struct RawEngine {
    own: *mut c_void,
}

/// `vg_draft`.
#[repr(C)]
struct RawDraft {
    own: *mut c_void,
}

/// `vg_key`.
#[repr(C)]
pub(crate) struct RawKey {
    own: *mut c_void,
    draft: RawDraft,
}

/// `vg_text`.
#[repr(C)]
struct RawText {
    bytes: *const u8,
    length: usize,
}

/// `vg_statistics`.
#[repr(C)]
#[derive(Default)]
pub(crate) struct RawStatistics {
    pub(crate) units: u64,
    pub(crate) journal_bytes: u64,
    pub(crate) nodes: u64,
}

// SAFETY: the calls are declared as the header does. Those that are marked safe take no pointer but references, whose
// types give what the header asks for.
unsafe extern "C" {
    pub(crate) safe fn vorgushan_version() -> u32;
    pub(crate) safe fn vorgushan_new(engine: &mut RawEngine) -> u32;
    fn vorgushan_load(
        engine: &mut RawEngine,
        text: *const u8,
        text_length: usize,
        line: &mut u64,
        column: &mut usize,
        expected: *mut u8,
        expected_size: usize,
        expected_length: &mut usize,
    ) -> u32;
    safe fn vorgushan_end(engine: &mut RawEngine) -> u32;
    fn vorgushan_line(
        engine: &mut RawEngine,
        line: *const u8,
        line_length: usize,
        reply: *mut u8,
        reply_size: usize,
        reply_length: &mut usize,
    ) -> u32;
    fn vorgushan_reply(engine: &mut RawEngine, reply: *mut u8, reply_size: usize, reply_length: &mut usize) -> u32;
    pub(crate) safe fn vorgushan_list_from_start(engine: &mut RawEngine) -> u32;
    fn vorgushan_list_next(
        engine: &mut RawEngine,
        moment: u64,
        node: *mut u8,
        node_size: usize,
        node_length: &mut usize,
    ) -> u32;
    pub(crate) safe fn vorgushan_journal_from(engine: &mut RawEngine, units: u64) -> u32;
    fn vorgushan_journal_next(
        engine: &mut RawEngine,
        lines: *mut u8,
        lines_size: usize,
        lines_length: &mut usize,
    ) -> u32;
    pub(crate) safe fn vorgushan_collect(engine: &mut RawEngine, nodes: usize) -> u32;
    pub(crate) safe fn vorgushan_checkpoint(engine: &mut RawEngine) -> u32;
    pub(crate) safe fn vorgushan_statistics(engine: &mut RawEngine, statistics: &mut RawStatistics) -> u32;
    pub(crate) safe fn vorgushan_units(engine: &mut RawEngine, units: &mut u64) -> u32;
    fn vorgushan_key_subscript(key: &mut RawKey, subscript: *const u8, subscript_length: usize) -> u32;
    fn vorgushan_key_spell(
        key: *mut RawKey,
        draft: *mut RawDraft,
        name: *const u8,
        name_length: usize,
        subscripts: *const RawText,
        count: usize,
    ) -> u32;
    fn vorgushan_key_bytes(key: &mut RawKey, bytes: *mut u8, bytes_size: usize, bytes_length: &mut usize) -> u32;
    safe fn vorgushan_draft_end(draft: &mut RawDraft);
    safe fn vorgushan_key_end(key: &mut RawKey) -> u32;
    fn vorgushan_set(engine: &mut RawEngine, job: u64, key: &mut RawKey, value: *const u8, value_length: usize) -> u32;
    pub(crate) safe fn vorgushan_kill(engine: &mut RawEngine, job: u64, key: &mut RawKey) -> u32;
    pub(crate) safe fn vorgushan_kill_value(engine: &mut RawEngine, job: u64, key: &mut RawKey) -> u32;
    pub(crate) safe fn vorgushan_kill_subscripts(engine: &mut RawEngine, job: u64, key: &mut RawKey) -> u32;
    fn vorgushan_increment(
        engine: &mut RawEngine,
        job: u64,
        key: &mut RawKey,
        number: *const u8,
        number_length: usize,
        sum: *mut u8,
        sum_size: usize,
        sum_length: &mut usize,
    ) -> u32;
    fn vorgushan_next_name(
        engine: &mut RawEngine,
        job: u64,
        start: *const u8,
        start_length: usize,
        backward: u32,
        name: *mut u8,
        name_size: usize,
        name_length: &mut usize,
    ) -> u32;
    fn vorgushan_get(
        engine: &mut RawEngine,
        job: u64,
        key: &mut RawKey,
        value: *mut u8,
        value_size: usize,
        value_length: &mut usize,
    ) -> u32;
    pub(crate) safe fn vorgushan_merge(engine: &mut RawEngine, job: u64, to: &mut RawKey, from: &mut RawKey) -> u32;
    pub(crate) safe fn vorgushan_data(engine: &mut RawEngine, job: u64, key: &mut RawKey, number: &mut u64) -> u32;
    fn vorgushan_order(
        engine: &mut RawEngine,
        job: u64,
        key: &mut RawKey,
        start: *const u8,
        start_length: usize,
        backward: u32,
        subscript: *mut u8,
        subscript_size: usize,
        subscript_length: &mut usize,
    ) -> u32;
    pub(crate) safe fn vorgushan_query(
        engine: &mut RawEngine,
        job: u64,
        key: &mut RawKey,
        is_open: u32,
        backward: u32,
    ) -> u32;
    pub(crate) safe fn vorgushan_view_begin(engine: &mut RawEngine, job: u64) -> u32;
    pub(crate) safe fn vorgushan_look_data(
        engine: &mut RawEngine,
        moment: u64,
        key: &mut RawKey,
        number: &mut u64,
    ) -> u32;
    fn vorgushan_look_order(
        engine: &mut RawEngine,
        moment: u64,
        key: &mut RawKey,
        start: *const u8,
        start_length: usize,
        backward: u32,
        subscript: *mut u8,
        subscript_size: usize,
        subscript_length: &mut usize,
    ) -> u32;
    pub(crate) safe fn vorgushan_look_query(
        engine: &mut RawEngine,
        moment: u64,
        key: &mut RawKey,
        is_open: u32,
        backward: u32,
    ) -> u32;
    fn vorgushan_look(
        engine: &mut RawEngine,
        moment: u64,
        key: &mut RawKey,
        value: *mut u8,
        value_size: usize,
        value_length: &mut usize,
    ) -> u32;
    fn vorgushan_look_name(
        engine: &mut RawEngine,
        moment: u64,
        start: *const u8,
        start_length: usize,
        backward: u32,
        name: *mut u8,
        name_size: usize,
        name_length: &mut usize,
    ) -> u32;
    fn vorgushan_look_children(
        engine: &mut RawEngine,
        moment: u64,
        key: &mut RawKey,
        start: *const u8,
        start_length: usize,
        children: *mut u8,
        children_size: usize,
        children_length: &mut usize,
    ) -> u32;
    fn vorgushan_walk(
        engine: &mut RawEngine,
        moment: u64,
        root: &mut RawKey,
        place: &mut RawKey,
        nodes: *mut u8,
        nodes_size: usize,
        nodes_length: &mut usize,
    ) -> u32;
    pub(crate) safe fn vorgushan_lock(engine: &mut RawEngine, job: u64, key: &mut RawKey, had: &mut u64) -> u32;
    pub(crate) safe fn vorgushan_lock_more(engine: &mut RawEngine, job: u64, key: &mut RawKey, had: &mut u64) -> u32;
    pub(crate) safe fn vorgushan_lock_fewer(engine: &mut RawEngine, job: u64, key: &mut RawKey, had: &mut u64) -> u32;
    fn vorgushan_lock_all(
        engine: &mut RawEngine,
        job: u64,
        form: u32,
        keys: *mut RawKey,
        count: usize,
        had: &mut u64,
    ) -> u32;
    pub(crate) safe fn vorgushan_unlock(engine: &mut RawEngine, job: u64, number: &mut u64) -> u32;
    pub(crate) safe fn vorgushan_tstart(engine: &mut RawEngine, job: u64, level: &mut u64) -> u32;
    pub(crate) safe fn vorgushan_tcommit(engine: &mut RawEngine, job: u64, number: &mut u64) -> u32;
    pub(crate) safe fn vorgushan_trollback(engine: &mut RawEngine, job: u64, number: &mut u64) -> u32;
    pub(crate) safe fn vorgushan_trestart(engine: &mut RawEngine, job: u64, restarts: &mut u64) -> u32;
    pub(crate) safe fn vorgushan_halt(engine: &mut RawEngine, job: u64, number: &mut u64) -> u32;
    pub(crate) safe fn vorgushan_tlevel(engine: &mut RawEngine, job: u64, level: &mut u64) -> u32;
    pub(crate) safe fn vorgushan_trestarts(engine: &mut RawEngine, job: u64, restarts: &mut u64) -> u32;
    fn vorgushan_outcome_name(outcome: u32, name: *mut u8, name_size: usize, name_length: &mut usize) -> u32;
}

impl RawEngine {
    /// `VG_ENGINE_NONE`.
    pub(crate) const fn none() -> RawEngine {
        RawEngine { own: null_mut() }
    }
}

impl Drop for RawEngine {
    fn drop(&mut self) {
        vorgushan_end(self);
    }
}

impl RawKey {
    /// `VG_KEY_NONE`.
    pub(crate) const fn none() -> RawKey {
        RawKey { own: null_mut(), draft: RawDraft { own: null_mut() } }
    }
}

impl Drop for RawKey {
    fn drop(&mut self) {
        vorgushan_draft_end(&mut self.draft);
        vorgushan_key_end(self);
    }
}

/// Where a listing is at fault: a line, a column, and what is expected there.
pub(crate) struct RawFault {
    pub(crate) line: u64,
    pub(crate) column: usize,
    pub(crate) expected: [u8; 128],
    pub(crate) length: usize,
}

pub(crate) fn load(engine: &mut RawEngine, text: &[u8], at: &mut RawFault) -> u32 {
    let (expected, size) = (at.expected.as_mut_ptr(), at.expected.len());
    // SAFETY: pointers and lengths are those of a slice and an array, which are lent for the call and don't overlap.
    unsafe {
        let (line, column) = (&mut at.line, &mut at.column);
        vorgushan_load(engine, text.as_ptr(), text.len(), line, column, expected, size, &mut at.length)
    }
}

pub(crate) fn journal_next(engine: &mut RawEngine, lines: &mut [u8], length: &mut usize) -> u32 {
    // SAFETY: pointer and length are those of a slice, which is lent for the call.
    unsafe { vorgushan_journal_next(engine, lines.as_mut_ptr(), lines.len(), length) }
}

pub(crate) fn lock_all(engine: &mut RawEngine, job: u64, form: u32, keys: &mut [RawKey], had: &mut u64) -> u32 {
    // SAFETY: pointer and length are those of a slice of keys, which are lent for the call.
    unsafe { vorgushan_lock_all(engine, job, form, keys.as_mut_ptr(), keys.len(), had) }
}

pub(crate) fn line(engine: &mut RawEngine, line: &[u8], reply: &mut [u8], length: &mut usize) -> u32 {
    // SAFETY: pointers and lengths are those of two slices, which are lent for the call and don't overlap.
    unsafe { vorgushan_line(engine, line.as_ptr(), line.len(), reply.as_mut_ptr(), reply.len(), length) }
}

pub(crate) fn reply(engine: &mut RawEngine, reply: &mut [u8], length: &mut usize) -> u32 {
    // SAFETY: pointer and length are those of a slice, which is lent for the call.
    unsafe { vorgushan_reply(engine, reply.as_mut_ptr(), reply.len(), length) }
}

pub(crate) fn list_next(engine: &mut RawEngine, moment: u64, node: &mut [u8], length: &mut usize) -> u32 {
    // SAFETY: pointer and length are those of a slice, which is lent for the call.
    unsafe { vorgushan_list_next(engine, moment, node.as_mut_ptr(), node.len(), length) }
}

pub(crate) fn key_subscript(key: &mut RawKey, subscript: &[u8]) -> u32 {
    // SAFETY: pointer and length are those of a slice, which is lent for the call.
    unsafe { vorgushan_key_subscript(key, subscript.as_ptr(), subscript.len()) }
}

pub(crate) fn key_spell(key: &mut RawKey, name: &[u8], subscripts: &[impl AsRef<[u8]>]) -> u32 {
    let texts: Vec<RawText> = subscripts
        .iter()
        .map(|subscript| subscript.as_ref())
        .map(|bytes| RawText { bytes: bytes.as_ptr(), length: bytes.len() })
        .collect();
    let key: *mut RawKey = key;
    // SAFETY: the draft goes with its key, as in the header's `vg_key_spell`, and both pointers come from one
    // reference. The texts are those of slices that are lent for the call.
    unsafe {
        let draft = &raw mut (*key).draft;
        vorgushan_key_spell(key, draft, name.as_ptr(), name.len(), texts.as_ptr(), texts.len())
    }
}

pub(crate) fn set(engine: &mut RawEngine, job: u64, key: &mut RawKey, value: &[u8]) -> u32 {
    // SAFETY: pointer and length are those of a slice, which is lent for the call.
    unsafe { vorgushan_set(engine, job, key, value.as_ptr(), value.len()) }
}

pub(crate) fn get(engine: &mut RawEngine, job: u64, key: &mut RawKey, value: &mut [u8], length: &mut usize) -> u32 {
    // SAFETY: pointer and length are those of a slice, which is lent for the call.
    unsafe { vorgushan_get(engine, job, key, value.as_mut_ptr(), value.len(), length) }
}

pub(crate) fn increment(
    engine: &mut RawEngine,
    job: u64,
    key: &mut RawKey,
    number: &[u8],
    sum: &mut [u8],
    length: &mut usize,
) -> u32 {
    let (addend, size) = (number.as_ptr(), sum.len());
    // SAFETY: pointers and lengths are those of two slices, which are lent for the call and don't overlap.
    unsafe { vorgushan_increment(engine, job, key, addend, number.len(), sum.as_mut_ptr(), size, length) }
}

/// The place where an $ORDER starts: below a key, at a subscript, in a direction.
pub(crate) struct Place<'a> {
    pub(crate) key: &'a mut RawKey,
    pub(crate) start: &'a [u8],
    pub(crate) backward: u32,
}

pub(crate) fn order(engine: &mut RawEngine, job: u64, from: &mut Place, found: &mut [u8], length: &mut usize) -> u32 {
    let (start, size) = (from.start, found.len());
    // SAFETY: pointers and lengths are those of two slices, which are lent for the call and don't overlap.
    unsafe {
        let found = found.as_mut_ptr();
        vorgushan_order(engine, job, from.key, start.as_ptr(), start.len(), from.backward, found, size, length)
    }
}

pub(crate) fn key_bytes(key: &mut RawKey, bytes: &mut [u8], length: &mut usize) -> u32 {
    // SAFETY: pointer and length are those of a slice, which is lent for the call.
    unsafe { vorgushan_key_bytes(key, bytes.as_mut_ptr(), bytes.len(), length) }
}

pub(crate) fn look(engine: &mut RawEngine, moment: u64, key: &mut RawKey, value: &mut [u8], length: &mut usize) -> u32 {
    // SAFETY: pointer and length are those of a slice, which is lent for the call.
    unsafe { vorgushan_look(engine, moment, key, value.as_mut_ptr(), value.len(), length) }
}

pub(crate) fn look_order(
    engine: &mut RawEngine,
    moment: u64,
    from: &mut Place,
    found: &mut [u8],
    length: &mut usize,
) -> u32 {
    let (start, size) = (from.start, found.len());
    // SAFETY: pointers and lengths are those of two slices, which are lent for the call and don't overlap.
    unsafe {
        let found = found.as_mut_ptr();
        vorgushan_look_order(engine, moment, from.key, start.as_ptr(), start.len(), from.backward, found, size, length)
    }
}

/// The place where a search for names starts: at a name, in a direction.
#[derive(Clone, Copy)]
pub(crate) struct NamePlace<'a> {
    pub(crate) start: &'a [u8],
    pub(crate) backward: u32,
}

pub(crate) fn look_name(
    engine: &mut RawEngine,
    moment: u64,
    from: NamePlace,
    name: &mut [u8],
    length: &mut usize,
) -> u32 {
    let (start, size) = (from.start, name.len());
    // SAFETY: pointers and lengths are those of two slices, which are lent for the call and don't overlap.
    unsafe {
        let name = name.as_mut_ptr();
        vorgushan_look_name(engine, moment, start.as_ptr(), start.len(), from.backward, name, size, length)
    }
}

pub(crate) fn next_name(engine: &mut RawEngine, job: u64, from: NamePlace, name: &mut [u8], length: &mut usize) -> u32 {
    let (start, size) = (from.start, name.len());
    // SAFETY: pointers and lengths are those of two slices, which are lent for the call and don't overlap.
    unsafe {
        let name = name.as_mut_ptr();
        vorgushan_next_name(engine, job, start.as_ptr(), start.len(), from.backward, name, size, length)
    }
}

pub(crate) fn look_children(
    engine: &mut RawEngine,
    moment: u64,
    key: &mut RawKey,
    start: &[u8],
    children: &mut [u8],
    length: &mut usize,
) -> u32 {
    let (from, size) = (start.as_ptr(), children.len());
    // SAFETY: pointers and lengths are those of two slices, which are lent for the call and don't overlap.
    unsafe { vorgushan_look_children(engine, moment, key, from, start.len(), children.as_mut_ptr(), size, length) }
}

pub(crate) fn walk(
    engine: &mut RawEngine,
    moment: u64,
    root: &mut RawKey,
    place: &mut RawKey,
    nodes: &mut [u8],
    length: &mut usize,
) -> u32 {
    // SAFETY: pointer and length are those of a slice, which is lent for the call; two `&mut` are two keys.
    unsafe { vorgushan_walk(engine, moment, root, place, nodes.as_mut_ptr(), nodes.len(), length) }
}

pub(crate) fn outcome_name(number: u32, name: &mut [u8], length: &mut usize) -> u32 {
    // SAFETY: pointer and length are those of a slice, which is lent for the call.
    unsafe { vorgushan_outcome_name(number, name.as_mut_ptr(), name.len(), length) }
}
