//! Open transactions: what they see, what they have read, what they write.
use crate::key::{Node, PAST, name_len, with_byte};
use crate::line::{Data, Direction, Extent, Look, Place, Refusal};
use crate::store::{Stamp, Store};
use crate::text::write_literal;
use crate::view::{Answer, View, copies, look, taken, total};
use std::cmp::Ordering;
use std::collections::BTreeMap;
use std::iter;
use std::ops::Bound::{self, Excluded, Included, Unbounded};

const MOST_COMMANDS: usize = 65535;
/// No name has this byte or a higher one.
const PAST_ALL: u8 = 128;

/// What lies from a key on and before another.
type Killed<'a> = (&'a [u8], &'a [u8]);

/// What a transaction writes: the nodes that it set and didn't kill later, and what it killed, from each key on and
/// before its value; none of these lies in another.
#[derive(Default)]
pub struct Work {
    pub sets: BTreeMap<Box<[u8]>, Box<[u8]>>,
    pub killed: BTreeMap<Box<[u8]>, Box<[u8]>>,
}

impl Work {
    /// What was killed with this key.
    fn killed_over(&self, key: &[u8]) -> Option<Killed<'_>> {
        let (low, high) = self.killed.range::<[u8], _>((Unbounded, Included(key))).next_back()?;
        (*key < **high).then_some((low, high))
    }

    fn decides(&self, key: &[u8]) -> bool {
        self.sets.contains_key(key) || self.killed_over(key).is_some()
    }

    /// Of two kills one lies in the other, or they have nothing in common.
    fn kill(&mut self, node: &Node, extent: Extent) {
        let (low, high) = taken(node, extent);
        self.sets.extract_if((Included(&low), Excluded(&high)), |_, _| true).for_each(drop);
        if self.killed_over(&low).is_none_or(|(_, end)| *end < *high) {
            self.killed.extract_if((Included(&low), Excluded(&high)), |_, _| true).for_each(drop);
            self.killed.insert(low, high);
        }
    }
}

/// The database of a transaction's start, with its own writes over it.
struct Seen<'a> {
    store: &'a Store,
    start: Stamp,
    work: &'a Work,
}

type Item<'a> = (&'a [u8], &'a [u8]);

/// Those of the store that weren't killed and our own, in one order; `beyond` gives those of the store beyond what was
/// killed, and of two keys the one that compares as `first` comes first.
fn merged<'a, S: Iterator<Item = Item<'a>>>(
    work: &'a Work,
    stored: S,
    ours: impl Iterator<Item = Item<'a>>,
    beyond: impl Fn(Killed) -> S,
    first: Ordering,
) -> impl Iterator<Item = Item<'a>> {
    let (mut stored, mut ours) = (stored.peekable(), ours.peekable());
    iter::from_fn(move || {
        while let Some(killed) = stored.peek().and_then(|(key, _)| work.killed_over(key)) {
            stored = beyond(killed).peekable();
        }
        let (Some((theirs, _)), Some((own, _))) = (stored.peek(), ours.peek()) else {
            return stored.next().or_else(|| ours.next());
        };
        let order = theirs.cmp(own);
        if order == first {
            return stored.next();
        }
        if order == Ordering::Equal {
            stored.next();
        }
        ours.next()
    })
}

impl View for Seen<'_> {
    fn get(&self, key: &[u8]) -> Option<&[u8]> {
        match self.work.sets.get(key) {
            Some(value) => Some(value),
            None if self.work.killed_over(key).is_some() => None,
            None => self.store.get_at(key, self.start),
        }
    }

    fn forward(&self, low: Bound<&[u8]>) -> impl Iterator<Item = (&[u8], &[u8])> {
        let ours = self.work.sets.range::<[u8], _>((low, Unbounded)).map(|(key, value)| (&**key, &**value));
        let stored = |low: Bound<&[u8]>| self.store.nodes_at((low, Unbounded), self.start);
        let beyond = move |(_, high): Killed| stored(Included(high));
        merged(self.work, stored(low), ours, beyond, Ordering::Less)
    }

    fn backward(&self, high: Bound<&[u8]>) -> impl Iterator<Item = (&[u8], &[u8])> {
        let ours = self.work.sets.range::<[u8], _>((Unbounded, high)).rev().map(|(key, value)| (&**key, &**value));
        let stored = |high: Bound<&[u8]>| self.store.nodes_at((Unbounded, high), self.start).rev();
        let beyond = move |(low, _): Killed| stored(Excluded(low));
        merged(self.work, stored(high), ours, beyond, Ordering::Greater)
    }
}

/// A reference that was read, or those from a key on and before another.
enum Read {
    At(Box<[u8]>),
    From(Box<[u8]>, Box<[u8]>),
}

impl Read {
    fn is_newer(&self, store: &Store, stamp: Stamp) -> bool {
        match self {
            Read::At(key) => store.is_newer_at(key, stamp),
            Read::From(low, high) => store.is_newer_in((Included(low), Excluded(high)), stamp),
        }
    }
}

#[derive(Default)]
struct Reads(Vec<Read>);

impl Reads {
    /// What lies from a key on and before another, put to the last where it goes on from that.
    fn add(&mut self, low: Box<[u8]>, high: Box<[u8]>) {
        if let Some(Read::From(before, end)) = self.0.last_mut() {
            if *before <= low && low <= *end {
                if *end < high {
                    *end = high;
                }
                return;
            }
        }
        self.0.push(Read::From(low, high));
    }

    fn add_one(&mut self, key: &[u8]) {
        if let Some(Read::From(low, high)) = self.0.last() {
            if **low <= *key && *key < **high {
                return;
            }
        }
        self.0.push(Read::At(key.into()));
    }

    fn note(&mut self, asked: &Look, answer: &Answer, work: &Work) {
        match asked {
            Look::Data(node) => self.add(node.key().into(), node.past().into()),
            Look::Get(node, _) if work.decides(node.key()) => {}
            Look::Get(node, _) => self.add_one(node.key()),
            Look::Order(place, direction) => self.note_order(place, *direction, answer),
            Look::Query(place, direction) => self.note_query(place, *direction, answer),
            Look::Name(start, direction) => self.note_name(start.as_deref(), *direction, answer),
        }
    }

    fn note_name(&mut self, start: Option<&[u8]>, direction: Direction, answer: &Answer) {
        let found = match answer {
            Answer::Reference(name) => Some(*name),
            _ => None,
        };
        let (after, end) = (|name| with_byte(name, PAST), || [PAST_ALL].into());
        match direction {
            Direction::Forward => self.add(start.map_or_else(Box::default, after), found.map_or_else(end, after)),
            Direction::Backward => self.add(found.unwrap_or_default().into(), start.map_or_else(end, Box::from)),
        }
    }

    fn note_order(&mut self, place: &Place, direction: Direction, answer: &Answer) {
        let parent = &place.node.key()[..place.level.unwrap_or(0)];
        let found = match answer {
            Answer::Subscript(key, _) => Some(*key),
            _ => None,
        };
        match direction {
            Direction::Forward => {
                let low = if place.is_open { with_byte(parent, 0) } else { place.node.past().into() };
                self.add(low, with_byte(found.unwrap_or(parent), PAST));
            }
            Direction::Backward => {
                let low = found.map_or_else(|| with_byte(parent, 0), Box::from);
                self.add(low, before(place).into());
            }
        }
    }

    fn note_query(&mut self, place: &Place, direction: Direction, answer: &Answer) {
        let key = place.node.key();
        let name = &key[..name_len(key)];
        let found = match answer {
            Answer::Reference(key) => Some(*key),
            _ => None,
        };
        match direction {
            Direction::Forward => {
                let high = found.map_or_else(|| with_byte(name, PAST), |found| with_byte(found, 0));
                self.add(with_byte(key, 0), high);
            }
            Direction::Backward => self.add(found.unwrap_or(name).into(), before(place).into()),
        }
    }
}

/// Where what stands before the place ends: an open one stands behind all under its reference.
fn before<'a>(place: &Place<'a>) -> &'a [u8] {
    if place.is_open { place.node.past() } else { place.node.key() }
}

/// A job's open transaction.
pub struct Session {
    pub level: u64,
    pub restarts: u64,
    pub start: Stamp,
    commands: usize,
    pub work: Work,
    reads: Reads,
}

impl Session {
    pub fn new(start: Stamp, restarts: u64) -> Session {
        Session { level: 1, restarts, start, commands: 0, work: Work::default(), reads: Reads::default() }
    }

    /// Does a data command on what the transaction sees, and writes its reply.
    pub fn access(&mut self, store: &Store, command: Data, out: &mut Vec<u8>) -> Result<(), Refusal> {
        if self.commands == MOST_COMMANDS {
            return Err(Refusal::TransactionTooLong);
        }
        let seen = Seen { store, start: self.start, work: &self.work };
        match command {
            Data::Set(node, value) => drop(self.work.sets.insert(node.key().into(), value.into())),
            Data::Kill(node, extent) => self.work.kill(&node, extent),
            Data::Merge(target, source) => {
                let nodes = copies(&seen, &target, &source)?;
                self.reads.add(source.key().into(), source.past().into());
                self.work.sets.extend(nodes);
            }
            Data::Increment(node, addend) => {
                let sum = total(&seen, &node, &addend)?;
                write_literal(&sum, out);
                if !self.work.decides(node.key()) {
                    self.reads.add_one(node.key());
                }
                self.work.sets.insert(node.key().into(), sum.into());
                self.commands += 1;
                return Ok(());
            }
            Data::Look(asked) => {
                let answer = look(&seen, &asked)?;
                answer.write(out);
                self.reads.note(&asked, &answer, &self.work);
                self.commands += 1;
                return Ok(());
            }
        }
        self.commands += 1;
        out.extend_from_slice(b"ok");
        Ok(())
    }

    /// Whether what was read has a version after the start.
    pub fn is_overtaken(&self, store: &Store) -> bool {
        store.now > self.start && self.reads.0.iter().any(|read| read.is_newer(store, self.start))
    }
}
