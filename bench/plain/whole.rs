//! All commands of `mrun`, written by hand in plain Rust: a `BTreeMap` of key bytes with a chain of versions for each,
//! cut as it is written as far as the oldest open transaction allows; transactions with their own writes, killed nodes
//! and read ranges, checked at the commit; locks. No journal, and memory that runs out ends the process. One of the two
//! marks that `bench/run` compares with; `main.rs` is the other.
mod key;
mod line;
mod locks;
mod script;
mod store;
mod sum;
mod text;
mod transaction;
mod view;

use line::{Command, Data, MOST_JOBS, Refusal};
use locks::Locks;
use script::Machine;
use std::collections::BTreeMap;
use std::io;
use std::ops::Bound::Unbounded;
use store::{Stamp, Store};
use text::{write_literal, write_number};
use transaction::Session;
use view::{View, copies, look, taken, total};

const MOST_LEVELS: u64 = 127;

struct Whole {
    store: Store,
    sessions: Vec<Option<Box<Session>>>,
    /// How many transactions began at a stamp.
    starts: BTreeMap<Stamp, usize>,
    locks: Locks,
}

fn write_told(word: &str, number: u64, out: &mut Vec<u8>) {
    out.extend_from_slice(word.as_bytes());
    write_number(number, out);
}

impl Whole {
    fn new() -> Whole {
        let mut sessions = Vec::new();
        sessions.resize_with(MOST_JOBS + 1, || None);
        Whole { store: Store::default(), sessions, starts: BTreeMap::new(), locks: Locks::default() }
    }

    fn session(&mut self, job: u16) -> &mut Option<Box<Session>> {
        &mut self.sessions[usize::from(job)]
    }

    /// The stamp of the oldest open transaction, or the greatest.
    fn horizon(&self) -> Stamp {
        self.starts.first_key_value().map_or(Stamp::MAX, |(start, _)| *start)
    }

    fn open(&mut self, job: u16, restarts: u64) {
        let now = self.store.now;
        *self.starts.entry(now).or_default() += 1;
        *self.session(job) = Some(Box::new(Session::new(now, restarts)));
    }

    fn close(&mut self, job: u16) -> Option<Box<Session>> {
        let session = self.session(job).take()?;
        let count = self.starts.get_mut(&session.start).unwrap();
        *count -= 1;
        if *count == 0 {
            self.starts.remove(&session.start);
        }
        Some(session)
    }

    /// A data command outside a transaction.
    fn access(&mut self, command: Data, out: &mut Vec<u8>) -> Result<(), Refusal> {
        let (stamp, horizon) = (self.store.now + 1, self.horizon());
        match command {
            Data::Set(node, value) => self.store.set(node.key().into(), value.into(), stamp, horizon),
            Data::Kill(node, extent) => {
                let (low, high) = taken(&node, extent);
                self.store.kill(&low, &high, stamp, horizon);
            }
            Data::Increment(node, addend) => {
                let sum = total(&self.store, &node, &addend)?;
                write_literal(&sum, out);
                self.store.set(node.key().into(), sum.into(), stamp, horizon);
                self.store.now = stamp;
                return Ok(());
            }
            Data::Merge(target, source) => {
                for (key, value) in copies(&self.store, &target, &source)? {
                    self.store.set(key, value, stamp, horizon);
                }
            }
            Data::Look(asked) => {
                look(&self.store, &asked)?.write(out);
                return Ok(());
            }
        }
        self.store.now = stamp;
        out.extend_from_slice(b"ok");
        Ok(())
    }

    fn start(&mut self, job: u16) -> Result<u64, Refusal> {
        match self.session(job) {
            Some(session) if session.level == MOST_LEVELS => Err(Refusal::LevelTooDeep),
            Some(session) => {
                session.level += 1;
                Ok(session.level)
            }
            None => {
                self.open(job, 0);
                Ok(1)
            }
        }
    }

    fn commit(&mut self, job: u16, out: &mut Vec<u8>) -> Result<(), Refusal> {
        let session = self.sessions[usize::from(job)].as_mut().ok_or(Refusal::NoTransaction)?;
        if session.level > 1 {
            session.level -= 1;
            write_told("level ", session.level, out);
            return Ok(());
        }
        if session.is_overtaken(&self.store) {
            return self.restart(job, out);
        }
        if let Some(session) = self.close(job) {
            self.write(*session);
        }
        self.locks.commit(job);
        out.extend_from_slice(b"committed");
        Ok(())
    }

    /// What a transaction wrote, at one stamp.
    fn write(&mut self, session: Session) {
        let (stamp, horizon) = (self.store.now + 1, self.horizon());
        for (low, high) in session.work.killed {
            self.store.kill(&low, &high, stamp, horizon);
        }
        for (key, value) in session.work.sets {
            self.store.set(key, value, stamp, horizon);
        }
        self.store.now = stamp;
    }

    fn rollback(&mut self, job: u16) -> Result<Box<Session>, Refusal> {
        let session = self.close(job).ok_or(Refusal::NoTransaction)?;
        self.locks.go_back(job);
        Ok(session)
    }

    fn restart(&mut self, job: u16, out: &mut Vec<u8>) -> Result<(), Refusal> {
        let restarts = self.rollback(job)?.restarts + 1;
        self.open(job, restarts);
        write_told("restart ", restarts, out);
        Ok(())
    }

    fn halt(&mut self, job: u16) {
        self.close(job);
        self.locks.halt(job);
    }
}

impl Machine for Whole {
    fn step(&mut self, job: u16, command: Command, out: &mut Vec<u8>) -> Result<(), Refusal> {
        let inside = self.sessions[usize::from(job)].is_some();
        match command {
            Command::Access(command) => match &mut self.sessions[usize::from(job)] {
                Some(session) => return session.access(&self.store, command, out),
                None => return self.access(command, out),
            },
            Command::Lock(form, names) => {
                let has = self.locks.lock(job, inside, form, names)?;
                write_number(has.into(), out);
                return Ok(());
            }
            Command::Start => {
                let level = self.start(job)?;
                write_told("level ", level, out);
                return Ok(());
            }
            Command::Commit => return self.commit(job, out),
            Command::Restart => return self.restart(job, out),
            Command::Level => {
                write_number(self.session(job).as_ref().map_or(0, |session| session.level), out);
                return Ok(());
            }
            Command::Restarts => {
                write_number(self.session(job).as_ref().map_or(0, |session| session.restarts), out);
                return Ok(());
            }
            Command::Rollback => drop(self.rollback(job)?),
            Command::Release => self.locks.release(job, inside),
            Command::Halt => self.halt(job),
        }
        out.extend_from_slice(b"ok");
        Ok(())
    }

    fn nodes(&self) -> impl Iterator<Item = (&[u8], &[u8])> {
        self.store.forward(Unbounded)
    }
}

fn main() -> io::Result<()> {
    script::run(Whole::new())
}
