//! Every call of the package, and the errors of each. What is expected comes from docs/RULES.md and docs/FORMATS.md.

mod bank;
mod commands;
mod errors;
mod keys;
mod lines;
mod locks;
mod shared;
mod transactions;
mod values;
mod views;
mod walks;

use vorgushan::{Database, Key};

/// An empty database.
fn empty() -> Database {
    Database::new().expect("memory for an engine")
}

/// A database with the nodes that these lines set, by job 1.
fn with(sets: &[&str]) -> Database {
    let database = empty();
    for set in sets {
        assert_eq!(database.line(&format!("1 SET {set}")).as_deref(), Ok("1 ok"));
    }
    database
}

/// The key of a reference's text.
fn key(text: &str) -> Key {
    Key::parse(text).expect("a reference within the limits")
}
