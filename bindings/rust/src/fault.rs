//! Where a listing is at fault.

use crate::error::Error;
use crate::raw::RawFault;
use std::error;
use std::fmt;

/// Why a listing wasn't loaded, by [`Database::load`](crate::Database::load).
///
/// It is one [`Error`] too, by `?`.
#[derive(Clone, Debug, PartialEq, Eq)]
pub struct Fault {
    /// Why the line sets nothing, or [`OutOfMemory`](Error::OutOfMemory).
    pub error: Error,
    /// The line's number, counted from 1; 0 where none is at fault.
    pub line: u64,
    /// A byte of the line, counted from 1, or one more than it has; 0 where none is at fault.
    pub column: usize,
    /// What is expected there, in words.
    pub expected: String,
}

impl Fault {
    pub(crate) fn new(error: Error, at: RawFault) -> Fault {
        let expected = &at.expected[..at.length.min(at.expected.len())];
        Fault { error, line: at.line, column: at.column, expected: String::from_utf8_lossy(expected).into_owned() }
    }
}

impl From<Error> for Fault {
    fn from(error: Error) -> Fault {
        Fault { error, line: 0, column: 0, expected: String::new() }
    }
}

impl From<Fault> for Error {
    fn from(fault: Fault) -> Error {
        fault.error
    }
}

impl fmt::Display for Fault {
    fn fmt(&self, to: &mut fmt::Formatter<'_>) -> fmt::Result {
        if self.line == 0 {
            return self.error.fmt(to);
        }
        write!(to, "line {}, column {}: {}: expected {}", self.line, self.column, self.error, self.expected)
    }
}

impl error::Error for Fault {}
