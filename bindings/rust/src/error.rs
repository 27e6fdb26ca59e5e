//! Why a call wasn't done.

use crate::raw::{outcome, outcome_name};
use std::error;
use std::fmt;

/// Why a call wasn't done.
///
/// After any of these but [`ReplyKept`](Error::ReplyKept) and [`NotText`](Error::NotText) the database is as it was.
/// Those from [`BadLine`](Error::BadLine) to [`SumTooLong`](Error::SumTooLong) are the refusals of docs/RULES.md.
#[derive(Clone, Copy, Debug, PartialEq, Eq, Hash)]
#[non_exhaustive]
pub enum Error {
    /// The line isn't of the grammar, the text is no reference, or what $INCREMENT adds is no number in its shortest form.
    BadLine,
    /// A name is a letter or `%`, then letters and digits; at most 31 bytes.
    BadName,
    /// A subscript is empty.
    EmptySubscript,
    /// A subscript has more than 255 bytes.
    SubscriptTooLong,
    /// A reference has more than 31 subscripts, or a copy by MERGE would have.
    TooManySubscripts,
    /// A value has more than 32,767 bytes.
    ValueTooLong,
    /// $ORDER of a name alone.
    NeedSubscript,
    /// MERGE where one reference is below the other, or both are one [`Key`](crate::Key).
    MergeOverlap,
    /// The job has no open transaction.
    NoTransaction,
    /// TSTART at level 127.
    LevelTooDeep,
    /// The count of a lock would pass 65,535.
    LockCountFull,
    /// A job is a number from 1 to 4,096.
    BadJob,
    /// A transaction has at most 65,535 data commands.
    TransactionTooLong,
    /// Memory was refused.
    OutOfMemory,
    /// The journal would pass 2^64 - 1 units.
    StampsUsedUp,
    /// A checkpoint has dropped the journal's next lines.
    Gone,
    /// A sum would have more than 32,767 bytes.
    SumTooLong,
    /// The line was run, but memory was refused for its reply: [`Database::reply`](crate::Database::reply) has it.
    ReplyKept,
    /// No line or command was run yet.
    NoReply,
    /// No key is given.
    NoKey,
    /// The transaction restarts: what it did is dropped, and its commands are to be done again.
    Restarted,
    /// The job has an open transaction already.
    TransactionOpen,
    /// The bytes aren't UTF-8, so they can't be answered as text. The call was done.
    NotText,
    /// The library is of another version, which is this number, than the calls that are declared here.
    OtherVersion(u32),
    /// An outcome that no call here answers.
    Unknown(u32),
}

/// The errors that have a number of the library's, by that number.
const NUMBERED: [(u32, Error); 22] = [
    (1, Error::BadLine),
    (2, Error::BadName),
    (3, Error::EmptySubscript),
    (4, Error::SubscriptTooLong),
    (5, Error::TooManySubscripts),
    (6, Error::ValueTooLong),
    (7, Error::NeedSubscript),
    (8, Error::MergeOverlap),
    (9, Error::NoTransaction),
    (10, Error::LevelTooDeep),
    (11, Error::LockCountFull),
    (12, Error::BadJob),
    (13, Error::TransactionTooLong),
    (14, Error::OutOfMemory),
    (15, Error::StampsUsedUp),
    (16, Error::Gone),
    (19, Error::SumTooLong),
    (outcome::REPLY_KEPT, Error::ReplyKept),
    (outcome::NO_REPLY, Error::NoReply),
    (outcome::NO_KEY, Error::NoKey),
    (outcome::RESTARTED, Error::Restarted),
    (outcome::TRANSACTION_OPEN, Error::TransactionOpen),
];

impl Error {
    /// The error of an outcome that isn't `VG_DONE`.
    pub(crate) fn of(number: u32) -> Error {
        let found = NUMBERED.iter().find(|(known, _)| *known == number);
        found.map_or(Error::Unknown(number), |(_, error)| *error)
    }

    /// The library's number of this outcome, as `VG_BAD_LINE` is 1; none where the library has none.
    pub fn number(self) -> Option<u32> {
        if let Error::Unknown(number) = self {
            return Some(number);
        }
        NUMBERED.iter().find(|(_, known)| *known == self).map(|(number, _)| *number)
    }

    /// The library's name of this outcome, as `OutOfMemory`; none where the library has none.
    pub fn name(self) -> Option<String> {
        let (mut name, mut length) = ([0; 64], 0);
        let is_named = outcome_name(self.number()?, &mut name, &mut length) == outcome::DONE;
        is_named.then(|| String::from_utf8_lossy(&name[..length]).into_owned())
    }
}

/// Nothing where the outcome is `VG_DONE`, else its error.
pub(crate) fn done(number: u32) -> Result<(), Error> {
    match number {
        outcome::DONE => Ok(()),
        refused => Err(Error::of(refused)),
    }
}

impl fmt::Display for Error {
    fn fmt(&self, to: &mut fmt::Formatter<'_>) -> fmt::Result {
        let text = match self {
            Error::BadLine => "the line isn't of the grammar, or the text is no reference or number",
            Error::BadName => "a name is a letter or %, then letters and digits, at most 31 bytes",
            Error::EmptySubscript => "a subscript is empty",
            Error::SubscriptTooLong => "a subscript has more than 255 bytes",
            Error::TooManySubscripts => "a reference has more than 31 subscripts",
            Error::ValueTooLong => "a value has more than 32,767 bytes",
            Error::NeedSubscript => "$ORDER without a subscript",
            Error::MergeOverlap => "MERGE where one reference is below the other",
            Error::NoTransaction => "the job has no open transaction",
            Error::LevelTooDeep => "a transaction has at most 127 levels",
            Error::LockCountFull => "the count of a lock would pass 65,535",
            Error::BadJob => "a job is a number from 1 to 4,096 that no other session has",
            Error::TransactionTooLong => "a transaction has at most 65,535 data commands",
            Error::OutOfMemory => "memory was refused",
            Error::StampsUsedUp => "the journal is at its last unit",
            Error::Gone => "a checkpoint has dropped the journal's next lines",
            Error::SumTooLong => "a sum would have more than 32,767 bytes",
            Error::ReplyKept => "the line was run, but memory was refused for its reply",
            Error::NoReply => "no line or command was run yet",
            Error::NoKey => "no key is given",
            Error::Restarted => "the transaction restarts",
            Error::TransactionOpen => "the job has an open transaction already",
            Error::NotText => "the answer isn't UTF-8",
            Error::OtherVersion(version) => return write!(to, "the library is of another version, {version}"),
            Error::Unknown(number) => return write!(to, "the library answered {number}"),
        };
        to.write_str(text)
    }
}

impl error::Error for Error {}
