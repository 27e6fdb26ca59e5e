//! Errors: numbers, names, texts.

use std::error;
use vorgushan::{Database, Error};

/// The numbers and names of include/vorgushan.h.
const NAMED: [(Error, u32, &str); 22] = [
    (Error::BadLine, 1, "BadLine"),
    (Error::BadName, 2, "BadName"),
    (Error::EmptySubscript, 3, "EmptySubscript"),
    (Error::SubscriptTooLong, 4, "SubscriptTooLong"),
    (Error::TooManySubscripts, 5, "TooManySubscripts"),
    (Error::ValueTooLong, 6, "ValueTooLong"),
    (Error::NeedSubscript, 7, "NeedSubscript"),
    (Error::MergeOverlap, 8, "MergeOverlap"),
    (Error::NoTransaction, 9, "NoTransaction"),
    (Error::LevelTooDeep, 10, "LevelTooDeep"),
    (Error::LockCountFull, 11, "LockCountFull"),
    (Error::BadJob, 12, "BadJob"),
    (Error::TransactionTooLong, 13, "TransactionTooLong"),
    (Error::OutOfMemory, 14, "OutOfMemory"),
    (Error::StampsUsedUp, 15, "StampsUsedUp"),
    (Error::Gone, 16, "Gone"),
    (Error::SumTooLong, 19, "SumTooLong"),
    (Error::ReplyKept, 35, "ReplyKept"),
    (Error::NoReply, 36, "NoReply"),
    (Error::NoKey, 39, "NoKey"),
    (Error::Restarted, 40, "Restarted"),
    (Error::TransactionOpen, 42, "TransactionOpen"),
];

#[test]
fn each_has_the_librarys_number_and_name() {
    for (error, number, name) in NAMED {
        assert_eq!((error.number(), error.name().as_deref()), (Some(number), Some(name)));
        assert_eq!(format!("{error:?}"), name);
    }
    for error in [Error::NotText, Error::OtherVersion(200)] {
        assert_eq!((error.number(), error.name()), (None, None));
    }
    assert_eq!((Error::Unknown(99).number(), Error::Unknown(99).name()), (Some(99), None));
}

#[test]
fn each_has_a_text_of_its_own() {
    let others = [Error::NotText, Error::OtherVersion(200), Error::Unknown(99)];
    let mut texts: Vec<String> =
        NAMED.iter().map(|(error, ..)| *error).chain(others).map(|error| error.to_string()).collect();
    texts.sort();
    let count = texts.len();
    texts.dedup();
    assert_eq!(texts.len(), count);
    assert!(texts.iter().all(|text| text.len() > 10));
}

#[test]
fn an_error_goes_where_any_error_goes() {
    fn run() -> Result<(), Box<dyn error::Error + Send + Sync>> {
        Database::new()?.line("1 FOO")?;
        Ok(())
    }
    assert_eq!(run().unwrap_err().downcast_ref(), Some(&Error::BadLine));
}
