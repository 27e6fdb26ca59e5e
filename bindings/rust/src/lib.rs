//! Vorgushan from Rust: a database of M globals (trees of nodes) in memory, with locks and transactions, whose engine
//! is proved. These are safe types over its library for C; the package itself isn't proved, but tested.
//!
//! ```
//! use vorgushan::{Database, Error, Key};
//!
//! let database = Database::new()?;
//! let teller = database.job(1)?;
//! let ann = Key::parse(r#"^Account("ann")"#)?;
//! let bo = Key::parse(r#"^Account("bo")"#)?;
//! teller.set(&ann, "100")?;
//! teller.transaction(|t| {
//!     let from: i64 = t.get_text(&ann)?.parse().unwrap_or(0);
//!     let to: i64 = t.get_text(&bo)?.parse().unwrap_or(0);
//!     t.set(&ann, (from - 30).to_string())?;
//!     t.set(&bo, (to + 30).to_string())
//! })?;
//! assert_eq!(database.look_text(&ann)?.as_deref(), Some("70"));
//! assert_eq!(database.line("1 $GET(^Account(\"bo\"))")?, "1 30");
//! # Ok::<(), Error>(())
//! ```
//!
//! # Where to find what
//!
//! - [`Database`]: makes an engine; lines, looks, walks, listings, the journal, upkeep. [`View`]: the same moment in
//!   many looks.
//! - [`Job`]: commands on keys, locks, [transactions](Job::transaction) that are done again after a restart.
//! - [`SharedDatabase`]: a database of many threads, each with a [`Session`] of its own.
//! - [`Key`] and [`Reference`]: names and subscripts, by pieces or by text. [`Subscript`]: what may be one.
//! - [`Error`]: why a call wasn't done. [`Fault`]: where a listing is at fault.
//!
//! Values and subscripts are bytes; those that end in `_text` are for UTF-8.
//!
//! # Threads
//!
//! A [`Database`] is neither `Send` nor `Sync`; for many threads take a [`SharedDatabase`]. A [`Session`] and a [`Key`]
//! are `Send`, as is proved of the library's, and not `Sync`. [`Reference`], [`Node`] and [`Error`] are plain values.
//!
//! # Upkeep
//!
//! Every command stays in the journal, reads too, until [`Database::checkpoint`]: call it once in 10,000 commands or
//! so. [`Database::collect`] drops old versions of values after long transactions.
//!
//! # Memory
//!
//! Where the library is refused memory, a call answers [`Error::OutOfMemory`], and the database is as it was. Where
//! Rust's own part is, the buffers and vectors here, the program ends, as Rust programs do.
#![deny(missing_docs)]
#![deny(unsafe_op_in_unsafe_fn)]

mod database;
mod engine;
mod error;
mod fault;
mod job;
mod key;
mod literal;
mod raw;
mod raw_sessions;
mod shared;
mod transaction;
mod view;
mod walk;

pub use database::{Database, Statistics};
pub use error::Error;
pub use fault::Fault;
pub use job::{Data, Direction, Job, LockForm, Start};
pub use key::{Key, Reference, Subscript};
pub use shared::{Session, SessionTransaction, SessionView, SharedDatabase};
pub use transaction::Transaction;
pub use view::View;
pub use walk::{Child, Children, Level, Names, Node, Walk};
