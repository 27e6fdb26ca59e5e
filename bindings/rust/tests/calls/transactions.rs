//! Transactions: commit, rollback, restarts, and what the closure may do wrong.

use crate::{empty, key, with};
use std::cell::Cell;
use std::panic::{catch_unwind, AssertUnwindSafe};
use vorgushan::Error;

#[test]
fn others_see_it_after_the_commit() -> Result<(), Error> {
    let (database, a) = (with(&["^A=1"]), key("^A"));
    database.transaction(1, |t| {
        t.set(&a, "2")?;
        assert_eq!(t.get_text(&a)?, "2");
        assert_eq!(database.job(2)?.get_text(&a)?, "1");
        assert_eq!(database.look_text(&a)?.as_deref(), Some("1"));
        Ok::<_, Error>(())
    })?;
    assert_eq!(database.look_text(&a)?.as_deref(), Some("2"));
    Ok(())
}

#[test]
fn a_restart_calls_again_over_the_present_database() -> Result<(), Error> {
    let (database, a) = (with(&["^A=1"]), key("^A"));
    let two = database.job(2)?;
    let seen = database.transaction(1, |t| {
        let seen = t.get_text(&a)?;
        if t.restarts() < 2 {
            two.set(&a, format!("{seen}+"))?;
        }
        t.set(&a, "mine")?;
        Ok::<_, Error>((seen, t.restarts()))
    })?;
    assert_eq!(seen, ("1++".to_string(), 2));
    Ok(())
}

#[test]
fn a_job_restarts_by_itself() -> Result<(), Error> {
    let (database, a) = (empty(), key("^A"));
    let calls = Cell::new(0);
    let answer = database.transaction(1, |t| {
        calls.set(calls.get() + 1);
        t.set(&a, calls.get().to_string())?;
        match calls.get() {
            1 => t.restart(),
            2 => Ok(t.restart().unwrap_or(7)), // the error is swallowed: it is called again all the same
            _ => Ok::<_, Error>(t.restarts()),
        }
    })?;
    assert_eq!((answer, calls.get()), (2, 3));
    assert_eq!(database.look_text(&a)?.as_deref(), Some("3"));
    Ok(())
}

#[test]
fn an_error_gives_up_after_restarts() -> Result<(), Error> {
    let (database, a) = (with(&["^A=1"]), key("^A"));
    let two = database.job(2)?;
    let given_up = database.transaction(1, |t| {
        if t.restarts() == 3 {
            return Err(Error::TransactionTooLong);
        }
        t.get(&a)?;
        two.set(&a, "theirs")?;
        t.set(&a, "mine")
    });
    assert_eq!(given_up, Err(Error::TransactionTooLong));
    assert_eq!(database.look_text(&a)?.as_deref(), Some("theirs"));
    database.transaction(1, |t| t.set(&a, "later"))
}

#[test]
fn a_panic_rolls_back() -> Result<(), Error> {
    let (database, a) = (empty(), key("^A"));
    let unwound = catch_unwind(AssertUnwindSafe(|| {
        database.transaction(1, |t| -> Result<(), Error> {
            t.set(&a, "1")?;
            panic!("in the closure")
        })
    }));
    assert!(unwound.is_err());
    assert_eq!(database.look(&a)?, None);
    assert_eq!(database.job(1)?.rollback(), Err(Error::NoTransaction));
    Ok(())
}

#[test]
fn one_transaction_of_a_job_at_a_time() -> Result<(), Error> {
    let (database, a) = (empty(), key("^A"));
    database.transaction(1, |t| {
        t.set(&a, "outer")?;
        let inner = t.transaction(|t| t.set(&a, "inner"));
        assert_eq!(inner, Err(Error::TransactionOpen));
        assert_eq!(database.line("1 $TLEVEL")?, "1 1");
        Ok::<_, Error>(())
    })?;
    assert_eq!(database.look_text(&a)?.as_deref(), Some("outer"));
    Ok(())
}

#[test]
fn a_closure_that_ends_its_transaction_is_told() -> Result<(), Error> {
    let (database, a) = (empty(), key("^A"));
    let ended = database.transaction(1, |t| {
        t.set(&a, "1")?;
        t.rollback()
    });
    assert_eq!(ended, Err(Error::NoTransaction));
    let halted = database.transaction(1, |t| {
        t.set(&a, "1")?;
        t.halt()
    });
    assert_eq!(halted, Err(Error::NoTransaction));
    assert_eq!(database.look(&a)?, None);
    Ok(())
}

#[test]
fn levels_left_open_are_committed_too() -> Result<(), Error> {
    let (database, a) = (empty(), key("^A"));
    database.transaction(1, |t| {
        t.set(&a, "1")?;
        database.line("1 TSTART").map(|reply| assert_eq!(reply, "1 level 2"))
    })?;
    assert_eq!(database.look_text(&a)?.as_deref(), Some("1"));
    assert_eq!(database.line("1 $TLEVEL")?, "1 0");
    Ok(())
}

#[test]
fn a_transaction_may_be_too_long() -> Result<(), Error> {
    let (database, a) = (empty(), key("^A"));
    let refused = database.transaction(1, |t| (0..=65_535).try_for_each(|count| t.set(&a, count.to_string())));
    assert_eq!(refused, Err(Error::TransactionTooLong));
    assert_eq!(database.look(&a)?, None);
    database.transaction(1, |t| (0..65_535).try_for_each(|count| t.set(&a, count.to_string())))?;
    assert_eq!(database.look_text(&a)?.as_deref(), Some("65534"));
    Ok(())
}

#[test]
fn a_job_tells_its_level_and_restarts() -> Result<(), Error> {
    let database = empty();
    let job = database.job(1)?;
    assert_eq!((job.level()?, job.restarts()?), (0, 0));
    database.line("1 TSTART")?;
    database.line("1 TRESTART").err();
    database.line("1 TSTART")?;
    assert_eq!((job.level()?, job.restarts()?), (2, 1));
    assert_eq!((database.statistics()?.units, database.units()?), (0, 0));
    database.line("2 SET ^A=1")?;
    assert_eq!(database.units()?, 1);
    job.rollback()
}
