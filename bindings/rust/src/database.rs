//! A database: one engine.

use crate::engine::Engine;
use crate::error::{done, Error};
use crate::fault::Fault;
use crate::job::Job;
use crate::key::Key;
use crate::raw::{self, outcome, RawStatistics};
use crate::transaction::Transaction;
use crate::view::View;
use crate::walk::{Level, Names, Walk};
use std::cell::RefCell;
use std::fmt;

/// A database in memory, and the jobs that send it commands. It is ended when it is dropped.
///
/// Calls take it by `&`, so jobs may take turns as one likes. It stays on the thread that made it, and is neither
/// `Send` nor `Sync`: the library takes one call on it at a time, looks too, and that it may be moved between calls is
/// promised but not proved. For several threads give it one of its own, and send that one work by a channel.
///
/// ```compile_fail
/// fn is_sent<T: Send>() {}
/// is_sent::<vorgushan::Database>();
/// ```
///
/// ```compile_fail
/// fn is_used_by_threads_at_once<T: Sync>() {}
/// is_used_by_threads_at_once::<vorgushan::Database>();
/// ```
pub struct Database {
    engine: RefCell<Engine>,
}

/// What a database holds.
#[derive(Clone, Copy, Debug, PartialEq, Eq)]
pub struct Statistics {
    /// Units of the journal: one for each command that was done.
    pub units: u64,
    /// Bytes of those units that no checkpoint dropped.
    pub journal_bytes: u64,
    /// Nodes with a value.
    pub nodes: u64,
}

impl Database {
    /// An empty database.
    ///
    /// [`OutOfMemory`](Error::OutOfMemory); [`OtherVersion`](Error::OtherVersion) where the library isn't that of these
    /// calls.
    pub fn new() -> Result<Database, Error> {
        Ok(Database { engine: RefCell::new(Engine::new()?) })
    }

    /// The database of a listing, of which each line is a reference, `=` and a value, as of
    /// [`listing`](Database::listing). Each is done as a SET of job 1, so it is in the journal.
    ///
    /// Where a line sets nothing there is no database, and the fault tells which. Otherwise errors as of
    /// [`new`](Database::new).
    ///
    /// ```
    /// # use vorgushan::{Database, Error};
    /// let database = Database::load("^Visit(101)=\"cardiology\"\n")?;
    /// assert_eq!(database.line("1 $GET(^Visit(101))")?, "1 \"cardiology\"");
    /// let fault = Database::load("^A=1\n^B=x\n").unwrap_err();
    /// assert_eq!((fault.error, fault.line, fault.column), (Error::BadLine, 2, 4));
    /// # Ok::<(), Error>(())
    /// ```
    pub fn load(listing: impl AsRef<[u8]>) -> Result<Database, Fault> {
        Ok(Database { engine: RefCell::new(Engine::load(listing.as_ref())?) })
    }

    /// Makes a call on the engine. No call makes another one, so it is never borrowed twice.
    pub(crate) fn with<T>(&self, call: impl FnOnce(&mut Engine) -> T) -> T {
        call(&mut self.engine.borrow_mut())
    }

    /// The job of a number, from 1 to 4,096. [`BadJob`](Error::BadJob).
    pub fn job(&self, number: u64) -> Result<Job<'_>, Error> {
        Job::new(self, number)
    }

    /// [`Job::transaction`] of the job of a number; [`BadJob`](Error::BadJob) too.
    pub fn transaction<T, E: From<Error>>(
        &self,
        job: u64,
        body: impl FnMut(&Transaction<'_>) -> Result<T, E>,
    ) -> Result<T, E> {
        self.job(job)?.transaction(body)
    }

    /// Runs a command line, and answers its reply as text, without the line's end.
    ///
    /// An error of the line's own, such as [`BadLine`](Error::BadLine), is the line's refusal;
    /// [`Restarted`](Error::Restarted), where it restarted its transaction. After [`NotText`](Error::NotText) and
    /// [`ReplyKept`](Error::ReplyKept) it was run, and [`reply`](Database::reply) has the reply: don't send it again.
    ///
    /// ```
    /// # use vorgushan::{Database, Error};
    /// let database = Database::new()?;
    /// assert_eq!(database.line("1 SET ^A(1)=5")?, "1 ok");
    /// assert_eq!(database.line("1 $GET(^A(1))")?, "1 5");
    /// assert_eq!(database.line("1 FOO"), Err(Error::BadLine));
    /// assert_eq!(database.reply()?, b"1 error 1 BadLine");
    /// # Ok::<(), Error>(())
    /// ```
    pub fn line(&self, line: &str) -> Result<String, Error> {
        self.line_bytes(line.as_bytes()).and_then(|reply| String::from_utf8(reply).map_err(|_| Error::NotText))
    }

    /// As [`line`](Database::line), in bytes.
    pub fn line_bytes(&self, line: &[u8]) -> Result<Vec<u8>, Error> {
        self.with(|engine| {
            let (outcome, reply) = engine.line(line);
            done(outcome).map(|()| without_end(reply))
        })
    }

    /// The reply to the last line or command, without the line's end, also where that was refused.
    ///
    /// [`NoReply`](Error::NoReply) before the first, [`ReplyKept`](Error::ReplyKept) where memory is refused.
    pub fn reply(&self) -> Result<Vec<u8>, Error> {
        self.with(|engine| match engine.reply() {
            (outcome::NO_REPLY, _) => Err(Error::NoReply),
            (outcome::REPLY_KEPT, _) => Err(Error::ReplyKept),
            (_, reply) => Ok(without_end(reply)),
        })
    }

    /// The value that a key's reference has as it is committed now, without a command: nothing is put into the journal.
    pub fn look(&self, key: &Key) -> Result<Option<Vec<u8>>, Error> {
        self.look_at(raw::NOW, key)
    }

    /// The value that a key's reference has in the database of a moment.
    pub(crate) fn look_at(&self, moment: u64, key: &Key) -> Result<Option<Vec<u8>>, Error> {
        self.with(|engine| match key.with(|key| lent(engine.look(moment, key))) {
            (outcome::NO_VALUE, _) => Ok(None),
            (outcome, value) => done(outcome).map(|()| Some(value)),
        })
    }

    /// As [`look`](Database::look), as text. [`NotText`](Error::NotText).
    pub fn look_text(&self, key: &Key) -> Result<Option<String>, Error> {
        self.look(key)?.map(|value| String::from_utf8(value).map_err(|_| Error::NotText)).transpose()
    }

    /// Begins a view of the database as it is now, by the number of a job, from 1 to 4,096, that does nothing else
    /// meanwhile.
    ///
    /// [`BadJob`](Error::BadJob), [`OutOfMemory`](Error::OutOfMemory); [`TransactionOpen`](Error::TransactionOpen)
    /// where a view by this number is there already, or this job is in a transaction.
    ///
    /// ```
    /// # use vorgushan::{Database, Key};
    /// let database = Database::new()?;
    /// let key = Key::new("A")?;
    /// database.job(1)?.set(&key, "old")?;
    /// let view = database.view(9)?;
    /// database.job(1)?.set(&key, "new")?;
    /// assert_eq!(view.look(&key)?.as_deref(), Some(&b"old"[..]));
    /// # Ok::<(), vorgushan::Error>(())
    /// ```
    pub fn view(&self, number: u64) -> Result<View<'_>, Error> {
        View::begin(self, number)
    }

    /// The nodes with a value at and under a key, in order, as they are committed, without a command.
    ///
    /// ```
    /// # use vorgushan::{Database, Key};
    /// let database = Database::new()?;
    /// database.line("1 SET ^Visit(101,66431)=\"cardiology\"")?;
    /// database.line("1 SET ^Visit(102,66440)=\"surgery\"")?;
    /// for node in database.walk(&Key::parse("^Visit(101)")?) {
    ///     let node = node?;
    ///     assert_eq!(node.reference.to_string(), "^Visit(101,66431)");
    ///     assert_eq!(node.value, b"cardiology");
    /// }
    /// assert_eq!(database.walk_all().count(), 2);
    /// # Ok::<(), vorgushan::Error>(())
    /// ```
    pub fn walk<'a>(&'a self, root: &'a Key) -> Walk<'a> {
        Walk::new(self, raw::NOW, Some(root))
    }

    /// All nodes with a value, in order, as they are committed, without a command.
    pub fn walk_all(&self) -> Walk<'_> {
        Walk::new(self, raw::NOW, None)
    }

    /// The children of a key in order, each with its value, as they are committed, without a command.
    ///
    /// ```
    /// # use vorgushan::{Database, Key};
    /// let database = Database::new()?;
    /// database.line("1 SET ^Visit(101)=\"cardiology\"")?;
    /// database.line("1 SET ^Visit(102,1)=\"surgery\"")?;
    /// let visits = Key::new("Visit")?;
    /// let children: Result<Vec<_>, _> = database.children(&visits).collect();
    /// let children = children?;
    /// assert_eq!((&children[0].subscript[..], children[0].value.as_deref()), (&b"101"[..], Some(&b"cardiology"[..])));
    /// assert_eq!((&children[1].subscript[..], children[1].has_descendants), (&b"102"[..], true));
    /// # Ok::<(), vorgushan::Error>(())
    /// ```
    pub fn children<'a>(&'a self, key: &'a Key) -> Level<'a> {
        Level::new(self, raw::NOW, key)
    }

    /// The names of the globals that have a node, in order, as they are committed, without a command.
    ///
    /// ```
    /// # use vorgushan::Database;
    /// let database = Database::new()?;
    /// database.line("1 SET ^Visit(101)=\"cardiology\"")?;
    /// database.line("1 SET ^Account=1")?;
    /// let names: Result<Vec<String>, _> = database.names().collect();
    /// assert_eq!(names?, ["Account", "Visit"]);
    /// # Ok::<(), vorgushan::Error>(())
    /// ```
    pub fn names(&self) -> Names<'_> {
        Names::new(self, raw::NOW)
    }

    /// All nodes with a value as lines, each with its end, as `^A(1)=5`.
    ///
    /// [`OutOfMemory`](Error::OutOfMemory).
    pub fn listing(&self) -> Result<String, Error> {
        self.listing_at(raw::NOW)
    }

    /// All nodes as lines, in the database of a moment.
    pub(crate) fn listing_at(&self, moment: u64) -> Result<String, Error> {
        let mut lines = Vec::new();
        self.with(|engine| {
            done(raw::vorgushan_list_from_start(engine.raw()))?;
            loop {
                match engine.list_next(moment) {
                    (outcome::AT_END, _) => break,
                    (outcome, line) => done(outcome).map(|()| lines.extend_from_slice(line))?,
                }
            }
            String::from_utf8(lines).map_err(|_| Error::NotText)
        })
    }

    /// The next lines of [`journal_next`](Database::journal_next) are those of the units after so many: 0 for all, as
    /// in a new database, or [`units`](Database::units) for those that are still to come. Give a number at which no
    /// transaction is open that took a LOCK: the lines that follow would begin it once more. Who runs the lines goes on
    /// by `journal_next` alone.
    pub fn journal_from(&self, units: u64) -> Result<(), Error> {
        self.with(|engine| done(raw::vorgushan_journal_from(engine.raw(), units)))
    }

    /// The lines of the journal's next units, at least of one, each line with its end; none where no unit is left. Run
    /// in order they do again what was done; a transaction is written where it was committed.
    ///
    /// [`Gone`](Error::Gone) where a checkpoint has dropped the next unit; [`OutOfMemory`](Error::OutOfMemory): then it
    /// is still the next.
    ///
    /// ```
    /// # use vorgushan::Database;
    /// let database = Database::new()?;
    /// database.line("1 SET ^A=1")?;
    /// assert_eq!(database.journal_next()?.as_deref(), Some("1 SET ^A=1\n"));
    /// assert_eq!(database.journal_next()?, None);
    /// # Ok::<(), vorgushan::Error>(())
    /// ```
    pub fn journal_next(&self) -> Result<Option<String>, Error> {
        self.with(|engine| match engine.journal_next() {
            (outcome::AT_END, _) => Ok(None),
            (outcome, lines) => {
                done(outcome)?;
                String::from_utf8(lines.to_vec()).map(Some).map_err(|_| Error::NotText)
            }
        })
    }

    /// Lets the journal drop the commands before the start of the oldest open transaction. Call it once in 10,000
    /// commands or so. [`OutOfMemory`](Error::OutOfMemory).
    pub fn checkpoint(&self) -> Result<(), Error> {
        self.with(|engine| done(raw::vorgushan_checkpoint(engine.raw())))
    }

    /// Lets the collector look at this number of nodes, from where it stopped, and drop their old versions.
    /// [`OutOfMemory`](Error::OutOfMemory).
    pub fn collect(&self, nodes: usize) -> Result<(), Error> {
        self.with(|engine| done(raw::vorgushan_collect(engine.raw(), nodes)))
    }

    /// How many units the journal has, those too that a checkpoint dropped: after a commit, the place of its unit in the
    /// journal, counted from 1.
    pub fn units(&self) -> Result<u64, Error> {
        let mut units = 0;
        done(self.with(|engine| raw::vorgushan_units(engine.raw(), &mut units)))?;
        Ok(units)
    }

    /// What the database holds; it walks over all nodes.
    pub fn statistics(&self) -> Result<Statistics, Error> {
        let mut told = RawStatistics::default();
        self.with(|engine| done(raw::vorgushan_statistics(engine.raw(), &mut told)))?;
        Ok(Statistics { units: told.units, journal_bytes: told.journal_bytes, nodes: told.nodes })
    }
}

/// What a call copied, as bytes of one's own.
pub(crate) fn lent((outcome, bytes): (u32, &[u8])) -> (u32, Vec<u8>) {
    (outcome, bytes.to_vec())
}

fn without_end(reply: &[u8]) -> Vec<u8> {
    reply.strip_suffix(b"\n").unwrap_or(reply).to_vec()
}

impl fmt::Debug for Database {
    fn fmt(&self, to: &mut fmt::Formatter<'_>) -> fmt::Result {
        to.write_str("Database")
    }
}
