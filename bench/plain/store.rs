//! Nodes with their versions, as far back as an open transaction sees them.
use crate::view::View;
use std::collections::VecDeque;
use std::collections::btree_map::{BTreeMap, Entry};
use std::ops::Bound::{self, Excluded, Included, Unbounded};

/// How many changes were made.
pub type Stamp = u64;

struct Version {
    stamp: Stamp,
    /// None where the node has no value.
    value: Option<Box<[u8]>>,
}

/// The versions of a node. Those before the newest stand by rising stamps, and in a box, since most nodes have none.
struct Chain {
    newest: Version,
    older: Option<Box<VecDeque<Version>>>,
}

impl Chain {
    fn value(&self) -> Option<&[u8]> {
        self.newest.value.as_deref()
    }

    /// The value of the newest version that isn't after the stamp.
    fn at(&self, stamp: Stamp) -> Option<&[u8]> {
        if self.newest.stamp <= stamp {
            return self.value();
        }
        let older = self.older.as_ref()?;
        let end = older.partition_point(|version| version.stamp <= stamp);
        older.get(end.checked_sub(1)?)?.value.as_deref()
    }

    /// Adds a version, and drops those that nobody sees from the horizon on.
    fn put(&mut self, stamp: Stamp, value: Option<Box<[u8]>>, horizon: Stamp) {
        if horizon >= stamp {
            self.older = None;
            self.newest = Version { stamp, value };
            return;
        }
        let before = std::mem::replace(&mut self.newest, Version { stamp, value });
        if before.stamp < stamp {
            self.older.get_or_insert_default().push_back(before);
        }
        self.cut(horizon);
    }

    /// Drops the versions that nobody sees from the horizon on.
    fn cut(&mut self, horizon: Stamp) {
        let Some(older) = &mut self.older else { return };
        if self.newest.stamp > horizon {
            let seen = older.partition_point(|version| version.stamp <= horizon).saturating_sub(1);
            older.drain(..seen);
            if older.front().is_some_and(|first| first.stamp <= horizon && first.value.is_none()) {
                older.pop_front();
            }
        }
        if self.newest.stamp <= horizon || older.is_empty() {
            self.older = None;
        }
    }

    /// Whether nobody sees a value or misses one from the horizon on.
    fn is_bare(&self, horizon: Stamp) -> bool {
        self.newest.value.is_none() && self.newest.stamp <= horizon
    }
}

#[derive(Default)]
pub struct Store {
    chains: BTreeMap<Box<[u8]>, Chain>,
    pub now: Stamp,
}

/// From where on, and up to where.
pub type Span<'a> = (Bound<&'a [u8]>, Bound<&'a [u8]>);

impl Store {
    /// A version of one node. The horizon is the stamp of the oldest open transaction, or the greatest stamp.
    pub fn set(&mut self, key: Box<[u8]>, value: Box<[u8]>, stamp: Stamp, horizon: Stamp) {
        match self.chains.entry(key) {
            Entry::Occupied(mut entry) => entry.get_mut().put(stamp, Some(value), horizon),
            Entry::Vacant(entry) => {
                entry.insert(Chain { newest: Version { stamp, value: Some(value) }, older: None });
            }
        }
    }

    /// No value from a key on and before another.
    pub fn kill(&mut self, low: &Box<[u8]>, high: &Box<[u8]>, stamp: Stamp, horizon: Stamp) {
        let killed = self.chains.extract_if((Included(low), Excluded(high)), |_, chain| {
            if chain.newest.value.is_some() {
                chain.put(stamp, None, horizon);
            } else {
                chain.cut(horizon);
            }
            chain.is_bare(horizon)
        });
        killed.for_each(drop);
    }

    /// Whether a version after the stamp stands in a span.
    pub fn is_newer_in(&self, span: Span, stamp: Stamp) -> bool {
        self.chains.range::<[u8], _>(span).any(|(_, chain)| chain.newest.stamp > stamp)
    }

    pub fn is_newer_at(&self, key: &[u8], stamp: Stamp) -> bool {
        self.chains.get(key).is_some_and(|chain| chain.newest.stamp > stamp)
    }

    pub fn get_at(&self, key: &[u8], stamp: Stamp) -> Option<&[u8]> {
        self.chains.get(key)?.at(stamp)
    }

    /// The nodes that have values at a stamp.
    pub fn nodes_at(&self, span: Span, stamp: Stamp) -> impl DoubleEndedIterator<Item = (&[u8], &[u8])> {
        self.chains.range::<[u8], _>(span).filter_map(move |(key, chain)| Some((&**key, chain.at(stamp)?)))
    }
}

/// The nodes as they are now.
impl View for Store {
    fn get(&self, key: &[u8]) -> Option<&[u8]> {
        self.chains.get(key)?.value()
    }

    fn forward(&self, low: Bound<&[u8]>) -> impl Iterator<Item = (&[u8], &[u8])> {
        self.chains.range::<[u8], _>((low, Unbounded)).filter_map(|(key, chain)| Some((&**key, chain.value()?)))
    }

    fn backward(&self, high: Bound<&[u8]>) -> impl Iterator<Item = (&[u8], &[u8])> {
        let chains = self.chains.range::<[u8], _>((Unbounded, high)).rev();
        chains.filter_map(|(key, chain)| Some((&**key, chain.value()?)))
    }
}
