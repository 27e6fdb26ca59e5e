//! Views of one moment.

use crate::database::{lent, Database};
use crate::error::{done, Error};
use crate::job::{Data, Direction, Start};
use crate::key::{Key, Reference, Subscript};
use crate::raw::{self, outcome};
use crate::walk::{Level, Names, Walk};

/// The database as it was at one moment, of [`Database::view`]. It is ended when it is dropped.
///
/// It shows the same, whatever is set, killed, committed, collected or dropped by checkpoints since. It is never
/// restarted, has no limit of looks, and puts nothing into the journal. While it lasts the database keeps what it
/// shows.
///
/// It is the transaction of the job whose number it goes by, looked at as that began, and is over with it: then its
/// looks answer [`NoTransaction`](Error::NoTransaction).
pub struct View<'a> {
    database: &'a Database,
    number: u64,
}

impl<'a> View<'a> {
    pub(crate) fn begin(database: &'a Database, number: u64) -> Result<View<'a>, Error> {
        done(database.with(|engine| raw::vorgushan_view_begin(engine.raw(), number)))?;
        Ok(View { database, number })
    }

    /// The number by which it goes.
    pub fn number(&self) -> u64 {
        self.number
    }

    /// The value that a key's reference has in it.
    pub fn look(&self, key: &Key) -> Result<Option<Vec<u8>>, Error> {
        self.database.look_at(self.number, key)
    }

    /// As [`look`](View::look), as text. [`NotText`](Error::NotText).
    pub fn look_text(&self, key: &Key) -> Result<Option<String>, Error> {
        self.look(key)?.map(|value| String::from_utf8(value).map_err(|_| Error::NotText)).transpose()
    }

    /// As $DATA: whether a key's reference has a value in it, and whether a node below it has one.
    pub fn data(&self, key: &Key) -> Result<Data, Error> {
        let mut told = 0;
        let data = raw::vorgushan_look_data;
        done(self.database.with(|engine| key.with(|key| data(engine.raw(), self.number, key, &mut told))))?;
        Ok(Data { has_value: told % 10 == 1, has_descendants: told >= 10 })
    }

    /// As $ORDER, of [`Job::order`](crate::Job::order).
    pub fn order(&self, key: &Key, start: impl Subscript, direction: Direction) -> Result<Option<Vec<u8>>, Error> {
        let start = start.bytes();
        let (outcome, found) = self.database.with(|engine| {
            key.with(|key| {
                let place = raw::Place { key, start: &start, backward: direction.number() };
                lent(engine.look_order(self.number, place))
            })
        });
        done(outcome).map(|()| (!found.is_empty()).then_some(found))
    }

    /// As $QUERY: the nearest node with a value in the key's name; none where no node is left.
    pub fn query(&self, key: &Key, start: Start, direction: Direction) -> Result<Option<Key>, Error> {
        let moved = key.try_clone()?;
        let is_open = u32::from(start == Start::BelowKey);
        let (outcome, bytes) = self.database.with(|engine| {
            moved.with(|key| {
                let query = raw::vorgushan_look_query;
                match query(engine.raw(), self.number, key, is_open, direction.number()) {
                    outcome::DONE => lent(engine.key_bytes(key)),
                    outcome => (outcome, Vec::new()),
                }
            })
        });
        if outcome == outcome::AT_END {
            return Ok(None);
        }
        done(outcome)?;
        let found = Reference::of_key(&bytes).expect("a key's bytes are as the header says");
        Ok(Some(moved.moved_to(found)))
    }

    /// The nodes with a value at and under a key, in order.
    pub fn walk<'w>(&'w self, root: &'w Key) -> Walk<'w> {
        Walk::new(self.database, self.number, Some(root))
    }

    /// All nodes with a value, in order.
    pub fn walk_all(&self) -> Walk<'_> {
        Walk::new(self.database, self.number, None)
    }

    /// The children of a key in order, each with its value.
    pub fn children<'w>(&'w self, key: &'w Key) -> Level<'w> {
        Level::new(self.database, self.number, key)
    }

    /// The names of the globals that have a node, in order.
    pub fn names(&self) -> Names<'_> {
        Names::new(self.database, self.number)
    }

    /// All nodes with a value as lines, as [`Database::listing`].
    pub fn listing(&self) -> Result<String, Error> {
        self.database.listing_at(self.number)
    }
}

impl Drop for View<'_> {
    fn drop(&mut self) {
        let mut told = 0;
        self.database.with(|engine| raw::vorgushan_trollback(engine.raw(), self.number, &mut told));
    }
}
