//! A job: who sends commands.

use crate::database::{lent, Database};
use crate::error::{done, Error};
use crate::key::{Key, Reference, Subscript};
use crate::raw::{self, outcome, RawEngine, RawKey};
use crate::transaction::Transaction;
use crate::walk::Children;
use std::ptr;
use std::str;

/// A job of a database: a number, under which commands are sent.
///
/// It keeps nothing here, so there may be several of one number. The job's transaction and its locks last until they
/// are ended, or by [`halt`](Job::halt). Every command stays in the journal until a checkpoint, reads too;
/// [`Database::look`] and [`Database::walk`] leave nothing there.
///
/// Each command may answer [`OutOfMemory`](Error::OutOfMemory), [`StampsUsedUp`](Error::StampsUsedUp) and, in a
/// transaction, [`TransactionTooLong`](Error::TransactionTooLong), also where that isn't named.
#[derive(Clone, Copy, Debug)]
pub struct Job<'a> {
    database: &'a Database,
    number: u64,
}

/// What $DATA tells of a reference.
#[derive(Clone, Copy, Debug, PartialEq, Eq)]
pub struct Data {
    /// It has a value.
    pub has_value: bool,
    /// A node below it has a value.
    pub has_descendants: bool,
}

/// The ways in which $ORDER and $QUERY go.
#[derive(Clone, Copy, Debug, PartialEq, Eq)]
pub enum Direction {
    /// To what comes next.
    Forward,
    /// To what comes before.
    Backward,
}

impl Direction {
    pub(crate) fn number(self) -> u32 {
        match self {
            Direction::Forward => 0,
            Direction::Backward => 1,
        }
    }
}

/// The forms of LOCK with names.
#[derive(Clone, Copy, Debug, PartialEq, Eq)]
pub enum LockForm {
    /// Without a sign: the job's names are released, and then these are asked for.
    Only,
    /// With +: these are asked for in addition.
    More,
    /// With -: one count of each is released.
    Fewer,
}

impl LockForm {
    pub(crate) fn number(self) -> u32 {
        match self {
            LockForm::Only => 0,
            LockForm::More => 1,
            LockForm::Fewer => 2,
        }
    }
}

/// Where $QUERY starts.
#[derive(Clone, Copy, Debug, PartialEq, Eq)]
pub enum Start {
    /// At the key.
    AtKey,
    /// At an empty subscript below it: forward before all that is under the key, backward after all that is.
    BelowKey,
}

/// A command about a key that tells a number.
type Numbered = extern "C" fn(&mut RawEngine, u64, &mut RawKey, &mut u64) -> u32;

/// A command of a job that tells a number.
type Alone = extern "C" fn(&mut RawEngine, u64, &mut u64) -> u32;

impl<'a> Job<'a> {
    pub(crate) fn new(database: &'a Database, number: u64) -> Result<Job<'a>, Error> {
        if (1..=4096).contains(&number) {
            Ok(Job { database, number })
        } else {
            Err(Error::BadJob)
        }
    }

    /// The job's number.
    pub fn number(&self) -> u64 {
        self.number
    }

    /// The job's database.
    pub fn database(&self) -> &'a Database {
        self.database
    }

    fn numbered(&self, key: &Key, call: Numbered) -> Result<u64, Error> {
        let mut told = 0;
        let outcome = self.database.with(|engine| key.with(|key| call(engine.raw(), self.number, key, &mut told)));
        done(outcome).map(|()| told)
    }

    fn alone(&self, call: Alone) -> Result<u64, Error> {
        let mut told = 0;
        done(self.database.with(|engine| call(engine.raw(), self.number, &mut told))).map(|()| told)
    }

    /// SET: gives a key's reference a value, whose bytes are taken as they are.
    ///
    /// [`ValueTooLong`](Error::ValueTooLong) over 32,767 bytes.
    pub fn set(&self, key: &Key, value: impl AsRef<[u8]>) -> Result<(), Error> {
        let value = value.as_ref();
        done(self.database.with(|engine| key.with(|key| engine.set(self.number, key, value))))
    }

    /// $GET: the value of a key's reference, which is empty where it has none.
    pub fn get(&self, key: &Key) -> Result<Vec<u8>, Error> {
        let (outcome, value) = self.database.with(|engine| key.with(|key| lent(engine.get(self.number, key))));
        done(outcome).map(|()| value)
    }

    /// As [`get`](Job::get), as text. [`NotText`](Error::NotText).
    pub fn get_text(&self, key: &Key) -> Result<String, Error> {
        String::from_utf8(self.get(key)?).map_err(|_| Error::NotText)
    }

    /// KILL: takes the values at and under a key's reference away.
    pub fn kill(&self, key: &Key) -> Result<(), Error> {
        let kill = raw::vorgushan_kill;
        done(self.database.with(|engine| key.with(|key| kill(engine.raw(), self.number, key))))
    }

    /// KVALUE: takes the value of a key's reference away, and nothing below it.
    pub fn kill_value(&self, key: &Key) -> Result<(), Error> {
        let kill = raw::vorgushan_kill_value;
        done(self.database.with(|engine| key.with(|key| kill(engine.raw(), self.number, key))))
    }

    /// KSUBSCRIPTS: takes the values under a key's reference away, and not its own.
    pub fn kill_subscripts(&self, key: &Key) -> Result<(), Error> {
        let kill = raw::vorgushan_kill_subscripts;
        done(self.database.with(|engine| key.with(|key| kill(engine.raw(), self.number, key))))
    }

    /// $INCREMENT: adds a number to the one that the value of a key's reference begins with, or to 0 where it begins
    /// with none, and answers the sum, which is the new value. It is exact, however many digits there are.
    ///
    /// The number is given in its shortest decimal form, as `1`, `-2.5` or `.5`; else
    /// [`BadLine`](Error::BadLine). [`SumTooLong`](Error::SumTooLong) where the sum would have over 32,767 bytes.
    ///
    /// ```
    /// # use vorgushan::{Database, Key};
    /// let database = Database::new()?;
    /// let (job, counter) = (database.job(1)?, Key::new("Counter")?);
    /// assert_eq!(job.increment(&counter, "1")?, "1");
    /// assert_eq!(job.increment(&counter, "-2.5")?, "-1.5");
    /// # Ok::<(), vorgushan::Error>(())
    /// ```
    pub fn increment(&self, key: &Key, number: impl AsRef<[u8]>) -> Result<String, Error> {
        let number = number.as_ref();
        let (outcome, sum) =
            self.database.with(|engine| key.with(|key| lent(engine.increment(self.number, key, number))));
        done(outcome)?;
        String::from_utf8(sum).map_err(|_| Error::NotText)
    }

    /// MERGE: copies what is at and under one key's reference to the same places under another's.
    ///
    /// [`MergeOverlap`](Error::MergeOverlap), [`TooManySubscripts`](Error::TooManySubscripts).
    pub fn merge(&self, to: &Key, from: &Key) -> Result<(), Error> {
        if ptr::eq(to, from) {
            return Err(Error::MergeOverlap);
        }
        let merge = |engine: &mut RawEngine| {
            to.with(|to| from.with(|from| raw::vorgushan_merge(engine, self.number, to, from)))
        };
        done(self.database.with(|engine| merge(engine.raw())))
    }

    /// $DATA: whether a key's reference has a value, and whether a node below it has one.
    pub fn data(&self, key: &Key) -> Result<Data, Error> {
        let told = self.numbered(key, raw::vorgushan_data)?;
        Ok(Data { has_value: told % 10 == 1, has_descendants: told >= 10 })
    }

    /// $ORDER: the subscript one level below a key that comes next after `start`, or before it; none where no other
    /// follows. An empty start asks for the first, backward for the last.
    ///
    /// [`SubscriptTooLong`](Error::SubscriptTooLong); [`TooManySubscripts`](Error::TooManySubscripts) below a key with
    /// 31.
    pub fn order(&self, key: &Key, start: impl Subscript, direction: Direction) -> Result<Option<Vec<u8>>, Error> {
        let start = start.bytes();
        let (outcome, found) = self.database.with(|engine| {
            key.with(|key| {
                let place = raw::Place { key, start: &start, backward: direction.number() };
                lent(engine.order(self.number, place))
            })
        });
        done(outcome).map(|()| (!found.is_empty()).then_some(found))
    }

    /// $ORDER of names: the name of the global that comes next after `start`, or before it, and has a node; none where
    /// no other follows. An empty start asks for the first, backward for the last; another one needs no node.
    ///
    /// [`BadName`](Error::BadName) where the start is neither empty nor a name. [`Database::names`] walks them without
    /// commands.
    pub fn next_name(&self, start: impl AsRef<str>, direction: Direction) -> Result<Option<String>, Error> {
        let place = raw::NamePlace { start: start.as_ref().as_bytes(), backward: direction.number() };
        match self.database.with(|engine| lent(engine.next_name(self.number, place))) {
            (outcome::AT_END, _) => Ok(None),
            (outcome, name) => {
                done(outcome)?;
                String::from_utf8(name).map(Some).map_err(|_| Error::NotText)
            }
        }
    }

    /// The subscripts one level below a key, in order, by an $ORDER for each.
    ///
    /// ```
    /// # use vorgushan::{Database, Key};
    /// let database = Database::new()?;
    /// let job = database.job(1)?;
    /// let accounts = Key::new("Account")?;
    /// job.set(&accounts.child("bo")?, "50")?;
    /// job.set(&accounts.child("ann")?, "100")?;
    /// let names: Result<Vec<_>, _> = job.children(&accounts).collect();
    /// assert_eq!(names?, [&b"ann"[..], b"bo"]);
    /// let last = job.children(&accounts).backward().next();
    /// assert_eq!(last, Some(Ok(b"bo".to_vec())));
    /// # Ok::<(), vorgushan::Error>(())
    /// ```
    pub fn children<'k>(&self, key: &'k Key) -> Children<'a, 'k> {
        Children::new(*self, key)
    }

    /// $QUERY: the nearest node with a value in the key's name; none where no node is left.
    ///
    /// [`TooManySubscripts`](Error::TooManySubscripts) from below a key with 31.
    pub fn query(&self, key: &Key, start: Start, direction: Direction) -> Result<Option<Key>, Error> {
        let moved = key.try_clone()?;
        let is_open = u32::from(start == Start::BelowKey);
        let query = raw::vorgushan_query;
        let outcome = self
            .database
            .with(|engine| moved.with(|key| query(engine.raw(), self.number, key, is_open, direction.number())));
        if outcome == outcome::AT_END {
            return Ok(None);
        }
        done(outcome)?;
        let found = reference_of(&self.database.reply()?)?;
        Ok(Some(moved.moved_to(found)))
    }

    /// LOCK of a key's name, with its caret: the job's names are released, and then this one is asked for. Nobody
    /// waits: whether it was granted is the answer.
    pub fn lock(&self, key: &Key) -> Result<bool, Error> {
        Ok(self.numbered(key, raw::vorgushan_lock)? == 1)
    }

    /// LOCK with +: the name is asked for in addition to those that the job has.
    ///
    /// [`LockCountFull`](Error::LockCountFull).
    pub fn lock_more(&self, key: &Key) -> Result<bool, Error> {
        Ok(self.numbered(key, raw::vorgushan_lock_more)? == 1)
    }

    /// LOCK with -: one count of the name is released; in a transaction others see that after its end.
    pub fn lock_fewer(&self, key: &Key) -> Result<(), Error> {
        self.numbered(key, raw::vorgushan_lock_fewer).map(|_| ())
    }

    /// LOCK of the names of several keys at once: whether all of them were granted. If not, none was.
    ///
    /// [`LockCountFull`](Error::LockCountFull); [`NoKey`](Error::NoKey) where no key is given.
    ///
    /// ```
    /// # use vorgushan::{Database, Key, LockForm};
    /// let database = Database::new()?;
    /// let (one, two) = (Key::new("One")?, Key::new("Two")?);
    /// database.job(2)?.lock(&two)?;
    /// assert!(!database.job(1)?.lock_all(LockForm::Only, &[&one, &two])?);
    /// assert!(database.job(3)?.lock(&one)?);
    /// # Ok::<(), vorgushan::Error>(())
    /// ```
    pub fn lock_all(&self, form: LockForm, keys: &[&Key]) -> Result<bool, Error> {
        let copies: Result<Vec<RawKey>, Error> = keys.iter().map(|key| key.try_clone().map(Key::into_raw)).collect();
        let (mut keys, mut had) = (copies?, 0);
        let lock_all = raw::lock_all;
        done(self.database.with(|engine| lock_all(engine.raw(), self.number, form.number(), &mut keys, &mut had)))?;
        Ok(had == 1)
    }

    /// LOCK without names: all names of the job are released.
    pub fn unlock(&self) -> Result<(), Error> {
        self.alone(raw::vorgushan_unlock).map(|_| ())
    }

    /// Calls `body` in a transaction, and commits it where that answers `Ok`. Where it answers `Err`, or panics, the
    /// transaction is rolled back.
    ///
    /// **The closure is called again** after a restart: where another job changed what the transaction has read, the
    /// commit does nothing of it, and the closure runs anew over the present database, as often as that happens. So it
    /// should do nothing outside of the database that may not be done twice. [`Transaction::restarts`] tells how often
    /// that was, for those who want to give up.
    ///
    /// All commands of this job in the closure belong to the transaction, also those that come by lines; levels that it
    /// opened by lines and left open are committed with it. Refusals:
    /// [`TransactionOpen`](Error::TransactionOpen) where the job is in a transaction already, and then the closure
    /// isn't called; [`NoTransaction`](Error::NoTransaction) where the closure has ended it by a line, as
    /// `1 TROLLBACK`: what it did after that stays done.
    ///
    /// ```
    /// # use vorgushan::{Database, Error, Key};
    /// let database = Database::new()?;
    /// let counter = Key::new("Counter")?;
    /// let count = database.job(1)?.transaction(|t| {
    ///     let count: u64 = t.get_text(&counter)?.parse().unwrap_or(0);
    ///     t.set(&counter, (count + 1).to_string())?;
    ///     Ok::<_, Error>(count + 1)
    /// })?;
    /// assert_eq!(count, 1);
    /// # Ok::<(), Error>(())
    /// ```
    pub fn transaction<T, E: From<Error>>(&self, body: impl FnMut(&Transaction<'a>) -> Result<T, E>) -> Result<T, E> {
        Transaction::begin(*self)?.run(body)
    }

    /// TSTART; the level.
    pub(crate) fn tstart(&self) -> Result<u64, Error> {
        self.alone(raw::vorgushan_tstart)
    }

    /// TCOMMIT.
    pub(crate) fn tcommit(&self) -> Result<u64, Error> {
        self.alone(raw::vorgushan_tcommit)
    }

    /// TRESTART, which is never done but restarts.
    pub(crate) fn trestart(&self) -> Result<u64, Error> {
        self.alone(raw::vorgushan_trestart)
    }

    /// TROLLBACK: drops what was done since the start, and ends the transaction. [`transaction`](Job::transaction)
    /// does this by itself; where memory was refused for it, it is to be done by hand.
    ///
    /// [`NoTransaction`](Error::NoTransaction).
    pub fn rollback(&self) -> Result<(), Error> {
        self.alone(raw::vorgushan_trollback).map(|_| ())
    }

    /// $TLEVEL: how deep its transaction is, 0 where it has none, without a command.
    pub fn level(&self) -> Result<u64, Error> {
        self.alone(raw::vorgushan_tlevel)
    }

    /// $TRESTART: how often its transaction was restarted, 0 where it has none, without a command.
    pub fn restarts(&self) -> Result<u64, Error> {
        self.alone(raw::vorgushan_trestarts)
    }

    /// HALT: ends the job. Its transaction is dropped, and its names are released.
    pub fn halt(&self) -> Result<(), Error> {
        self.alone(raw::vorgushan_halt).map(|_| ())
    }
}

/// The reference that a reply to $QUERY has after its job and a space.
fn reference_of(reply: &[u8]) -> Result<Reference, Error> {
    let text = str::from_utf8(reply).map_err(|_| Error::NotText)?;
    text.split_once(' ').ok_or(Error::BadLine)?.1.parse()
}
