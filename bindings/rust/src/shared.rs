//! A database that threads share, and their sessions.

use crate::error::{done, Error};
use crate::job::{Data, Direction, LockForm, Start};
use crate::key::{check_version, Key, Reference, Subscript};
use crate::raw::{key_bytes, outcome, Place, RawKey};
use crate::raw_sessions::{self as raw, act, Line, RawHub, RawSession};
use crate::walk::{nodes_of, Node};
use std::fmt;
use std::ops::{Deref, DerefMut};
use std::ptr;
use std::sync::{Arc, Condvar, Mutex, MutexGuard, PoisonError};
use std::time::{Duration, Instant};

/// Enough for a value, a sum or a subscript, so that no command is done twice.
const BUFFER: usize = 32_768;

/// Enough for any node of a walk.
const NODES: usize = 65_536;

/// The moments of a look: now, or when the transaction began.
const PRESENT: u32 = 0;
const AT_START: u32 = 1;

/// What the handles of a shared database own together.
struct Shared {
    hub: Mutex<RawHub>,
    line: Line,
    turns: Mutex<u64>,
    freed: Condvar,
}

/// Whatever a panicking thread left: neither lock guards more than a number or a handle, which are whole at any time.
fn held<T>(lock: &Mutex<T>) -> MutexGuard<'_, T> {
    lock.lock().unwrap_or_else(PoisonError::into_inner)
}

impl Shared {
    /// How often names may have been given back.
    fn turns(&self) -> u64 {
        *held(&self.turns)
    }

    /// Wakes those who wait for names.
    fn wake(&self) {
        *held(&self.turns) += 1;
        self.freed.notify_all();
    }

    /// Waits until names may have been given back once more, or until that time, where there is one. Whether it is
    /// over.
    fn wait(&self, turns: u64, until: Option<Instant>) -> bool {
        let mut now = held(&self.turns);
        while *now == turns {
            now = match until {
                None => self.freed.wait(now).unwrap_or_else(PoisonError::into_inner),
                Some(until) => {
                    let Some(left) = until.checked_duration_since(Instant::now()).filter(|left| !left.is_zero()) else {
                        return true;
                    };
                    self.freed.wait_timeout(now, left).unwrap_or_else(PoisonError::into_inner).0
                }
            };
        }
        false
    }
}

/// A database that threads share: each works on it by a [`Session`] of its own. A clone is the same database, which
/// ends with its last clone and session.
///
/// ```
/// use std::thread;
/// use vorgushan::{Error, Key, SharedDatabase};
///
/// let database = SharedDatabase::new()?;
/// thread::scope(|scope| {
///     for job in 1..=4 {
///         let database = &database;
///         scope.spawn(move || -> Result<(), Error> {
///             let counter = Key::new("Counter")?;
///             let mut session = database.session(job)?;
///             session.transaction(|t| {
///                 let count: u64 = t.get_text(&counter)?.parse().unwrap_or(0);
///                 t.set(&counter, (count + 1).to_string())
///             })
///         });
///     }
/// });
/// assert_eq!(database.session(9)?.get_text(&Key::new("Counter")?)?, "4");
/// # Ok::<(), Error>(())
/// ```
#[derive(Clone)]
pub struct SharedDatabase {
    shared: Arc<Shared>,
}

impl SharedDatabase {
    /// An empty database. [`OutOfMemory`](Error::OutOfMemory), [`OtherVersion`](Error::OtherVersion).
    pub fn new() -> Result<SharedDatabase, Error> {
        check_version()?;
        let hub = Mutex::new(RawHub::new().map_err(Error::of)?);
        let shared = Shared { hub, line: Line::new(), turns: Mutex::new(0), freed: Condvar::new() };
        Ok(SharedDatabase { shared: Arc::new(shared) })
    }

    /// A session of a job, 1 to 4,096, which has no other.
    ///
    /// [`BadJob`](Error::BadJob) where it isn't such a number, or another session has it;
    /// [`OutOfMemory`](Error::OutOfMemory).
    pub fn session(&self, job: u64) -> Result<Session, Error> {
        let (raw, shared) = (RawSession::none(), Arc::clone(&self.shared));
        let (buffer, has_names, in_transaction, holds) = (vec![0; BUFFER], false, false, false);
        let mut session = Session { raw, shared, buffer, has_names, in_transaction, holds };
        let mut hub = held(&self.shared.hub);
        done(self.shared.line.tried(|| raw::vorgushan_open(&mut hub, &mut session.raw, job)))?;
        Ok(session)
    }
}

impl fmt::Debug for SharedDatabase {
    fn fmt(&self, to: &mut fmt::Formatter<'_>) -> fmt::Result {
        to.write_str("SharedDatabase")
    }
}

/// A job at work on a [`SharedDatabase`]. It may be sent to another thread, which is proved of the library's sessions;
/// it can't be used by two at once. Dropped it ends as by HALT: its transaction is dropped, and its names are released.
///
/// No call waits for ever but [`lock`](Session::lock), and, while a hold of the same thread goes on, each call of another
/// session but looks: where others are at it for a moment it is tried again. Each
/// command may answer [`OutOfMemory`](Error::OutOfMemory), [`StampsUsedUp`](Error::StampsUsedUp) and, in a transaction,
/// [`TransactionTooLong`](Error::TransactionTooLong).
///
/// ```
/// fn is_sent<T: Send>() {}
/// is_sent::<vorgushan::Session>();
/// ```
///
/// ```compile_fail
/// fn is_used_by_threads_at_once<T: Sync>() {}
/// is_used_by_threads_at_once::<vorgushan::Session>();
/// ```
pub struct Session {
    raw: RawSession,
    shared: Arc<Shared>,
    buffer: Vec<u8>,
    has_names: bool,
    in_transaction: bool,
    holds: bool,
}

impl Session {
    /// Makes a call until it isn't in the way of others: one that may need the database for itself. It ends a hold, with
    /// which the session could be in its own way.
    fn tried(&mut self, mut call: impl FnMut(&mut RawSession) -> u32) -> u32 {
        self.let_go();
        self.shared.line.tried(|| call(&mut self.raw))
    }

    /// The same of a command that reads.
    fn read(&mut self, call: impl FnMut(&mut RawSession) -> u32) -> u32 {
        if self.in_transaction {
            self.looked(call)
        } else {
            self.tried(call)
        }
    }

    /// The same of a look.
    fn looked(&mut self, mut call: impl FnMut(&mut RawSession) -> u32) -> u32 {
        self.shared.line.looked(self.holds, || call(&mut self.raw))
    }

    /// The same of a command that writes: in a transaction of a session that holds it looks at no more than what is held.
    fn written(&mut self, call: impl FnMut(&mut RawSession) -> u32) -> u32 {
        if self.holds && self.in_transaction {
            self.looked(call)
        } else {
            self.tried(call)
        }
    }

    /// Ends a hold, where there is one.
    fn let_go(&mut self) {
        if self.holds {
            self.holds = false;
            raw::vorgushan_s_release(&mut self.raw);
        }
    }

    /// A command that reads, and copies bytes into the buffer.
    fn read_copied(
        &mut self,
        mut call: impl FnMut(&mut RawSession, &mut [u8], &mut usize) -> u32,
    ) -> Result<Option<Vec<u8>>, Error> {
        if !self.in_transaction {
            self.let_go();
        }
        let Session { raw, shared, buffer, in_transaction, holds, .. } = self;
        let mut length = 0;
        let outcome = shared.line.read(*in_transaction, *holds, || call(raw, buffer, &mut length));
        self.copied(outcome, length)
    }

    /// The same of a look.
    fn looked_copied(
        &mut self,
        mut call: impl FnMut(&mut RawSession, &mut [u8], &mut usize) -> u32,
    ) -> Result<Option<Vec<u8>>, Error> {
        let Session { raw, shared, buffer, holds, .. } = self;
        let mut length = 0;
        let outcome = shared.line.looked(*holds, || call(raw, buffer, &mut length));
        self.copied(outcome, length)
    }

    /// What a call has copied into the buffer.
    fn copied(&self, outcome: u32, length: usize) -> Result<Option<Vec<u8>>, Error> {
        match outcome {
            outcome::NO_VALUE | outcome::AT_END => Ok(None),
            outcome => done(outcome).map(|()| Some(self.buffer[..length].to_vec())),
        }
    }

    /// TSTART and its like; the number that is told.
    fn act(&mut self, act: u32) -> Result<u64, Error> {
        let mut told = 0;
        let outcome = self.tried(|session| raw::vorgushan_s_act(session, act, &mut told));
        if self.has_names && act != act::TSTART && act != act::TLEVEL {
            self.shared.wake();
        }
        done(outcome)?;
        if matches!(act, act::TSTART | act::TCOMMIT | act::TROLLBACK) {
            self.in_transaction = told > 0;
        }
        Ok(told)
    }

    /// SET, as [`Job::set`](crate::Job::set).
    pub fn set(&mut self, key: &Key, value: impl AsRef<[u8]>) -> Result<(), Error> {
        done(key.with(|key| self.written(|session| raw::set(session, key, value.as_ref()))))
    }

    /// $GET, as [`Job::get`](crate::Job::get).
    pub fn get(&mut self, key: &Key) -> Result<Vec<u8>, Error> {
        let value = key.with(|key| self.read_copied(|session, value, length| raw::get(session, key, value, length)))?;
        Ok(value.unwrap_or_default())
    }

    /// As [`get`](Session::get), as text. [`NotText`](Error::NotText).
    pub fn get_text(&mut self, key: &Key) -> Result<String, Error> {
        String::from_utf8(self.get(key)?).map_err(|_| Error::NotText)
    }

    fn kill_by(&mut self, extent: u32, key: &Key) -> Result<(), Error> {
        done(key.with(|key| self.written(|session| raw::vorgushan_s_kill(session, extent, key))))
    }

    /// KILL, as [`Job::kill`](crate::Job::kill).
    pub fn kill(&mut self, key: &Key) -> Result<(), Error> {
        self.kill_by(0, key)
    }

    /// KVALUE, as [`Job::kill_value`](crate::Job::kill_value).
    pub fn kill_value(&mut self, key: &Key) -> Result<(), Error> {
        self.kill_by(1, key)
    }

    /// KSUBSCRIPTS, as [`Job::kill_subscripts`](crate::Job::kill_subscripts).
    pub fn kill_subscripts(&mut self, key: &Key) -> Result<(), Error> {
        self.kill_by(2, key)
    }

    /// $INCREMENT, as [`Job::increment`](crate::Job::increment).
    pub fn increment(&mut self, key: &Key, number: impl AsRef<[u8]>) -> Result<String, Error> {
        let number = number.as_ref();
        let sum = key
            .with(|key| self.read_copied(|session, sum, length| raw::increment(session, key, number, sum, length)))?
            .unwrap_or_default();
        String::from_utf8(sum).map_err(|_| Error::NotText)
    }

    /// MERGE, as [`Job::merge`](crate::Job::merge).
    pub fn merge(&mut self, to: &Key, from: &Key) -> Result<(), Error> {
        if ptr::eq(to, from) {
            return Err(Error::MergeOverlap);
        }
        done(to.with(|to| from.with(|from| self.read(|session| raw::vorgushan_s_merge(session, to, from)))))
    }

    /// $DATA, as [`Job::data`](crate::Job::data).
    pub fn data(&mut self, key: &Key) -> Result<Data, Error> {
        let mut told = 0;
        done(key.with(|key| self.read(|session| raw::vorgushan_s_data(session, key, &mut told))))?;
        Ok(data_of(told))
    }

    /// $ORDER, as [`Job::order`](crate::Job::order).
    pub fn order(&mut self, key: &Key, start: impl Subscript, direction: Direction) -> Result<Option<Vec<u8>>, Error> {
        let start = start.bytes();
        let found = key.with(|key| {
            let mut from = Place { key, start: &start, backward: direction.number() };
            self.read_copied(|session, found, length| raw::order(session, &mut from, found, length))
        })?;
        Ok(found.filter(|found| !found.is_empty()))
    }

    /// The value that a key's reference has now, without a command: as of [`Database::look`](crate::Database::look).
    pub fn look(&mut self, key: &Key) -> Result<Option<Vec<u8>>, Error> {
        self.look_at(PRESENT, key)
    }

    /// As [`look`](Session::look), as text. [`NotText`](Error::NotText).
    pub fn look_text(&mut self, key: &Key) -> Result<Option<String>, Error> {
        text_of(self.look(key)?)
    }

    fn look_at(&mut self, moment: u32, key: &Key) -> Result<Option<Vec<u8>>, Error> {
        key.with(|key| self.looked_copied(|session, value, length| raw::look(session, moment, key, value, length)))
    }

    /// Calls `body`, and holds the database meanwhile: the session's looks, and in a transaction its data commands, wait
    /// for nobody then, and are quickest so where several threads read. Others read too, and who would write waits, so
    /// `body` makes a few reads and waits for nothing. Each other call in it ends the hold.
    pub fn hold<T>(&mut self, body: impl FnOnce(&mut Session) -> T) -> Result<T, Error> {
        let holding = Holding::begin(self)?;
        Ok(body(holding.session))
    }

    /// LOCK of the names of several keys at once: whether all of them were granted. Where another session is in the way
    /// it waits for them: for as long as is said, or until it has them. [`Fewer`](LockForm::Fewer) never waits.
    ///
    /// [`LockCountFull`](Error::LockCountFull); [`NoKey`](Error::NoKey) where no key is given.
    pub fn lock(&mut self, form: LockForm, keys: &[&Key], wait: Option<Duration>) -> Result<bool, Error> {
        let copies: Result<Vec<RawKey>, Error> = keys.iter().map(|key| key.try_clone().map(Key::into_raw)).collect();
        let (mut keys, mut had, form) = (copies?, 0, form.number());
        let until = wait.and_then(|wait| Instant::now().checked_add(wait));
        let mut turns = self.shared.turns();
        let first = self.tried(|session| raw::lock(session, form, 0, &mut keys, &mut had));
        if self.has_names {
            self.shared.wake();
        }
        done(first)?;
        let mut is_over = wait == Some(Duration::ZERO);
        while had == 0 && !is_over {
            is_over = self.shared.wait(turns, until);
            turns = self.shared.turns();
            done(self.tried(|session| raw::lock(session, form, 1, &mut keys, &mut had)))?;
        }
        self.has_names |= had == 1;
        Ok(had == 1)
    }

    /// LOCK without names: all names of the session are released; in a transaction others see that after its end, and a
    /// rollback gives back those that it had before.
    pub fn unlock(&mut self) -> Result<(), Error> {
        self.act(act::UNLOCK)?;
        if self.has_names && self.act(act::TLEVEL) == Ok(0) {
            self.has_names = false;
        }
        Ok(())
    }

    /// Calls `body` in a transaction, and commits it where that answers `Ok`. Where it answers `Err`, or panics, the
    /// transaction is rolled back.
    ///
    /// **The closure is called again** after a restart, as that of [`Job::transaction`](crate::Job::transaction).
    /// [`TransactionOpen`](Error::TransactionOpen) where the session is in a transaction already, and then the closure
    /// isn't called.
    ///
    /// The closure leaves the session in its place. Where it puts another there, as by [`mem::swap`](std::mem::swap), the
    /// transaction stays open in the session that was moved, and what is committed is that of the other, or
    /// [`NoTransaction`](Error::NoTransaction) is answered.
    pub fn transaction<T, E: From<Error>>(
        &mut self,
        body: impl FnMut(&mut SessionTransaction<'_>) -> Result<T, E>,
    ) -> Result<T, E> {
        SessionTransaction::begin(self)?.run(body)
    }

    /// A view: the database as it is now, which doesn't move until the view is dropped.
    ///
    /// [`TransactionOpen`](Error::TransactionOpen) where the session is in a transaction.
    pub fn view(&mut self) -> Result<SessionView<'_>, Error> {
        Ok(SessionView { transaction: SessionTransaction::begin(self)? })
    }

    /// Lets the collector look at so many nodes, as [`Database::collect`](crate::Database::collect). Whether it looked
    /// at one: otherwise none is left to look at.
    pub fn collect(&mut self, nodes: usize) -> Result<bool, Error> {
        match self.tried(|session| raw::vorgushan_s_collect(session, nodes)) {
            outcome::AT_END => Ok(false),
            outcome => done(outcome).map(|()| true),
        }
    }

    /// Drops the journal up to the oldest open transaction, as [`Database::checkpoint`](crate::Database::checkpoint).
    pub fn checkpoint(&mut self) -> Result<(), Error> {
        done(self.tried(|session| raw::vorgushan_s_checkpoint(session)))
    }
}

/// A hold of a view, which ends when it is dropped.
struct HoldingView<'a, 'v> {
    view: &'a mut SessionView<'v>,
}

impl Drop for HoldingView<'_, '_> {
    fn drop(&mut self) {
        self.view.transaction.session.let_go();
    }
}

/// A hold, which ends when it is dropped.
struct Holding<'a> {
    session: &'a mut Session,
}

impl<'a> Holding<'a> {
    fn begin(session: &'a mut Session) -> Result<Holding<'a>, Error> {
        done(session.looked(|session| raw::vorgushan_s_hold(session)))?;
        session.holds = true;
        Ok(Holding { session })
    }
}

impl Drop for Holding<'_> {
    fn drop(&mut self) {
        self.session.let_go();
    }
}

impl Drop for Session {
    /// Others may have its names once it is over.
    fn drop(&mut self) {
        self.tried(|session| raw::vorgushan_s_halt(session));
        if self.has_names {
            self.shared.wake();
        }
    }
}

impl fmt::Debug for Session {
    fn fmt(&self, to: &mut fmt::Formatter<'_>) -> fmt::Result {
        to.write_str("Session")
    }
}

/// A value as text.
fn text_of(value: Option<Vec<u8>>) -> Result<Option<String>, Error> {
    value.map(|value| String::from_utf8(value).map_err(|_| Error::NotText)).transpose()
}

/// What a number of $DATA says.
fn data_of(told: u64) -> Data {
    Data { has_value: told % 10 == 1, has_descendants: told >= 10 }
}

/// The open transaction that the closure of [`Session::transaction`] is given. It has the calls of its [`Session`].
pub struct SessionTransaction<'a> {
    session: &'a mut Session,
    is_open: bool,
    restarts: u64,
}

impl<'a> SessionTransaction<'a> {
    fn begin(session: &'a mut Session) -> Result<SessionTransaction<'a>, Error> {
        if session.act(act::TLEVEL)? > 0 {
            return Err(Error::TransactionOpen);
        }
        session.act(act::TSTART)?;
        Ok(SessionTransaction { session, is_open: true, restarts: 0 })
    }

    /// Calls the closure and commits, until there is no restart.
    fn run<T, E: From<Error>>(
        mut self,
        mut body: impl FnMut(&mut SessionTransaction<'a>) -> Result<T, E>,
    ) -> Result<T, E> {
        loop {
            let answer = body(&mut self)?;
            match self.session.act(act::TCOMMIT) {
                Ok(_) => {
                    self.is_open = false;
                    return Ok(answer);
                }
                Err(Error::Restarted) => self.restarts += 1,
                Err(refused) => return Err(refused.into()),
            }
        }
    }

    /// Drops what the transaction did, and begins anew over the present database: the closure goes on in it, and isn't
    /// called again for this. What it set before is gone, what it read before may have changed, and what it sets from
    /// then on is committed.
    pub fn restart(&mut self) -> Result<(), Error> {
        match self.session.act(act::TRESTART) {
            Err(Error::Restarted) => {
                self.restarts += 1;
                Ok(())
            }
            Err(refused) => Err(refused),
            Ok(number) => Err(Error::Unknown(number as u32)),
        }
    }

    /// How often the transaction has restarted.
    pub fn restarts(&self) -> u64 {
        self.restarts
    }
}

impl Deref for SessionTransaction<'_> {
    type Target = Session;

    fn deref(&self) -> &Session {
        self.session
    }
}

impl DerefMut for SessionTransaction<'_> {
    fn deref_mut(&mut self) -> &mut Session {
        self.session
    }
}

impl fmt::Debug for SessionTransaction<'_> {
    fn fmt(&self, to: &mut fmt::Formatter<'_>) -> fmt::Result {
        to.write_str("SessionTransaction")
    }
}

impl Drop for SessionTransaction<'_> {
    /// Rolls back what wasn't committed. Where memory is refused for that, the transaction stays open.
    fn drop(&mut self) {
        if self.is_open {
            let _ = self.session.act(act::TROLLBACK);
        }
    }
}

/// The database as it was at one moment, of [`Session::view`]. It is ended when it is dropped.
///
/// It shows the same, whatever others do. It is never restarted, has no limit of looks, and puts nothing into the
/// journal. While it lasts the database keeps what it shows.
pub struct SessionView<'a> {
    transaction: SessionTransaction<'a>,
}

impl SessionView<'_> {
    /// The value that a key's reference has in it.
    pub fn look(&mut self, key: &Key) -> Result<Option<Vec<u8>>, Error> {
        self.transaction.look_at(AT_START, key)
    }

    /// As [`look`](SessionView::look), as text. [`NotText`](Error::NotText).
    pub fn look_text(&mut self, key: &Key) -> Result<Option<String>, Error> {
        text_of(self.look(key)?)
    }

    /// As $DATA: whether a key's reference has a value in it, and whether a node below it has one.
    pub fn data(&mut self, key: &Key) -> Result<Data, Error> {
        let (mut told, session) = (0, &mut self.transaction.session);
        let data = raw::vorgushan_s_look_data;
        done(key.with(|key| session.looked(|session| data(session, AT_START, key, &mut told))))?;
        Ok(data_of(told))
    }

    /// As $ORDER, of [`Job::order`](crate::Job::order).
    pub fn order(&mut self, key: &Key, start: impl Subscript, direction: Direction) -> Result<Option<Vec<u8>>, Error> {
        let (start, session) = (start.bytes(), &mut self.transaction.session);
        let found = key.with(|key| {
            let mut from = Place { key, start: &start, backward: direction.number() };
            session.looked_copied(|session, found, length| raw::look_order(session, AT_START, &mut from, found, length))
        })?;
        Ok(found.filter(|found| !found.is_empty()))
    }

    /// As $QUERY: the nearest node with a value in the key's name; none where no node is left.
    pub fn query(&mut self, key: &Key, start: Start, direction: Direction) -> Result<Option<Key>, Error> {
        let (moved, is_open) = (key.try_clone()?, u32::from(start == Start::BelowKey));
        let (query, backward) = (raw::vorgushan_s_look_query, direction.number());
        let session = &mut *self.transaction.session;
        let outcome = moved.with(|key| session.looked(|session| query(session, AT_START, key, is_open, backward)));
        if outcome == outcome::AT_END {
            return Ok(None);
        }
        done(outcome)?;
        let (bytes, mut length) = (&mut session.buffer, 0);
        done(moved.with(|key| key_bytes(key, bytes, &mut length)))?;
        let found = Reference::of_key(&bytes[..length]).expect("a key's bytes are as the header says");
        Ok(Some(moved.moved_to(found)))
    }

    /// Calls `body`, and holds the database meanwhile, as [`Session::hold`].
    pub fn hold<T>(&mut self, body: impl FnOnce(&mut Self) -> T) -> Result<T, Error> {
        let session = &mut *self.transaction.session;
        done(session.looked(|session| raw::vorgushan_s_hold(session)))?;
        session.holds = true;
        let holding = HoldingView { view: self };
        Ok(body(holding.view))
    }

    /// The nodes with a value at and under a key, in order.
    pub fn nodes(&mut self, root: &Key) -> Result<Vec<Node>, Error> {
        let (mut place, mut buffer, mut nodes) = (RawKey::none(), vec![0; NODES], Vec::new());
        loop {
            let (mut length, session) = (0, &mut self.transaction.session);
            let outcome = root.with(|root| {
                session.looked(|session| raw::walk(session, AT_START, root, &mut place, &mut buffer, &mut length))
            });
            if outcome == outcome::AT_END {
                return Ok(nodes);
            }
            done(outcome)?;
            nodes.extend(nodes_of(&buffer[..length]).expect("nodes lie in the buffer as the header says"));
        }
    }
}

impl fmt::Debug for SessionView<'_> {
    fn fmt(&self, to: &mut fmt::Formatter<'_>) -> fmt::Result {
        to.write_str("SessionView")
    }
}
