//! An engine with the buffer that its answers are copied into.

use crate::error::{done, Error};
use crate::fault::Fault;
use crate::key::check_version;
use crate::raw::{self, outcome, RawEngine, RawKey};

/// Enough for a value, a subscript and most nodes, so that few calls are made twice.
const BUFFER: usize = 32_768;

/// An engine, which is ended when it is dropped, and a buffer, which grows with the longest answer.
pub(crate) struct Engine {
    raw: RawEngine,
    buffer: Vec<u8>,
}

/// What a call copied, by its outcome.
type Copied<'a> = (u32, &'a [u8]);

impl Engine {
    pub(crate) fn new() -> Result<Engine, Error> {
        check_version()?;
        let mut raw = RawEngine::none();
        done(raw::vorgushan_new(&mut raw))?;
        Ok(Engine { raw, buffer: vec![0; BUFFER] })
    }

    /// An engine of a listing.
    pub(crate) fn load(listing: &[u8]) -> Result<Engine, Fault> {
        check_version()?;
        let mut raw = RawEngine::none();
        let mut at = raw::RawFault { line: 0, column: 0, expected: [0; 128], length: 0 };
        match raw::load(&mut raw, listing, &mut at) {
            outcome::DONE => Ok(Engine { raw, buffer: vec![0; BUFFER] }),
            refused => Err(Fault::new(Error::of(refused), at)),
        }
    }

    /// The engine itself, for a call that copies nothing.
    pub(crate) fn raw(&mut self) -> &mut RawEngine {
        &mut self.raw
    }

    /// Makes a call that copies bytes into a buffer, again with a longer one where it was too short.
    fn copied(&mut self, mut call: impl FnMut(&mut RawEngine, &mut [u8], &mut usize) -> u32) -> Copied<'_> {
        loop {
            let mut length = 0;
            let outcome = call(&mut self.raw, &mut self.buffer, &mut length);
            if outcome != outcome::BUFFER_TOO_SHORT {
                return (outcome, &self.buffer[..length.min(self.buffer.len())]);
            }
            self.buffer.resize(length, 0);
        }
    }

    /// Runs a line, once, and copies its reply.
    pub(crate) fn line(&mut self, line: &[u8]) -> Copied<'_> {
        let mut length = 0;
        match raw::line(&mut self.raw, line, &mut self.buffer, &mut length) {
            outcome::BUFFER_TOO_SHORT | outcome::REPLY_KEPT => self.reply(),
            outcome => (outcome, &self.buffer[..length.min(self.buffer.len())]),
        }
    }

    /// Copies the last reply.
    pub(crate) fn reply(&mut self) -> Copied<'_> {
        self.copied(raw::reply)
    }

    /// Copies the next node's line.
    pub(crate) fn list_next(&mut self, moment: u64) -> Copied<'_> {
        self.copied(|engine, node, length| raw::list_next(engine, moment, node, length))
    }

    /// Copies the lines of the journal's next units.
    pub(crate) fn journal_next(&mut self) -> Copied<'_> {
        self.copied(raw::journal_next)
    }

    pub(crate) fn set(&mut self, job: u64, key: &mut RawKey, value: &[u8]) -> u32 {
        raw::set(&mut self.raw, job, key, value)
    }

    /// $GET: a value has at most 32,767 bytes, so the command is done once.
    pub(crate) fn get(&mut self, job: u64, key: &mut RawKey) -> Copied<'_> {
        self.copied(|engine, value, length| raw::get(engine, job, key, value, length))
    }

    /// $INCREMENT: a sum has at most 32,767 bytes, so the command is done once.
    pub(crate) fn increment(&mut self, job: u64, key: &mut RawKey, number: &[u8]) -> Copied<'_> {
        self.copied(|engine, sum, length| raw::increment(engine, job, key, number, sum, length))
    }

    /// $ORDER of names: a name has at most 31 bytes, so the command is done once.
    pub(crate) fn next_name(&mut self, job: u64, from: raw::NamePlace<'_>) -> Copied<'_> {
        self.copied(|engine, name, length| raw::next_name(engine, job, from, name, length))
    }

    /// $ORDER: a subscript has at most 255 bytes, so the command is done once.
    pub(crate) fn order(&mut self, job: u64, mut from: raw::Place<'_>) -> Copied<'_> {
        self.copied(|engine, found, length| raw::order(engine, job, &mut from, found, length))
    }

    /// The value at a key, in the database of a moment.
    pub(crate) fn look(&mut self, moment: u64, key: &mut RawKey) -> Copied<'_> {
        self.copied(|engine, value, length| raw::look(engine, moment, key, value, length))
    }

    /// What $ORDER would answer, in the database of a moment.
    pub(crate) fn look_order(&mut self, moment: u64, mut from: raw::Place<'_>) -> Copied<'_> {
        self.copied(|engine, found, length| raw::look_order(engine, moment, &mut from, found, length))
    }

    /// The next name that a node has, in the database of a moment.
    pub(crate) fn look_name(&mut self, moment: u64, from: raw::NamePlace<'_>) -> Copied<'_> {
        self.copied(|engine, name, length| raw::look_name(engine, moment, from, name, length))
    }

    /// The next children of a key, in the database of a moment.
    pub(crate) fn look_children(&mut self, moment: u64, key: &mut RawKey, start: &[u8]) -> Copied<'_> {
        self.copied(|engine, children, length| raw::look_children(engine, moment, key, start, children, length))
    }

    /// A key's own bytes.
    pub(crate) fn key_bytes(&mut self, key: &mut RawKey) -> Copied<'_> {
        self.copied(|_, bytes, length| raw::key_bytes(key, bytes, length))
    }

    /// The next nodes after a place, which becomes that of the last of them.
    pub(crate) fn walk(&mut self, moment: u64, root: &mut RawKey, place: &mut RawKey) -> Copied<'_> {
        self.copied(|engine, nodes, length| raw::walk(engine, moment, root, place, nodes, length))
    }
}
