//! A bank: transfers between accounts by two jobs, which meet.

use crate::{empty, key};
use std::cell::Cell;
use vorgushan::{Database, Error, Job, Key};

/// Why a transfer wasn't made.
#[derive(Debug, PartialEq)]
enum Refused {
    TooLittle(i64),
    Database(Error),
}

impl From<Error> for Refused {
    fn from(error: Error) -> Refused {
        Refused::Database(error)
    }
}

fn balance(job: &Job<'_>, account: &Key) -> Result<i64, Error> {
    Ok(job.get_text(account)?.parse().unwrap_or(0))
}

/// Transfers in a transaction, and calls `between` after the balances are read; the new balance of the giver.
fn transfer(
    job: &Job<'_>,
    [from, to]: [&Key; 2],
    amount: i64,
    between: impl Fn() -> Result<(), Error>,
) -> Result<i64, Refused> {
    job.transaction(|t| {
        let (given, taken) = (balance(t, from)?, balance(t, to)?);
        between()?;
        t.set(from, (given - amount).to_string())?;
        t.set(to, (taken + amount).to_string())?;
        if given < amount {
            return Err(Refused::TooLittle(given));
        }
        Ok(given - amount)
    })
}

fn opened(database: &Database) -> Result<[Key; 2], Error> {
    let accounts = [key(r#"^Account("ann")"#), key(r#"^Account("bo")"#)];
    database.job(1)?.set(&accounts[0], "100")?;
    database.job(1)?.set(&accounts[1], "50")?;
    Ok(accounts)
}

fn balances(database: &Database, [ann, bo]: &[Key; 2]) -> [Option<String>; 2] {
    [ann, bo].map(|account| database.look_text(account).expect("an account that is text"))
}

fn both(ann: &str, bo: &str) -> [Option<String>; 2] {
    [Some(ann.to_string()), Some(bo.to_string())]
}

#[test]
fn a_transfer_is_committed() -> Result<(), Refused> {
    let database = empty();
    let accounts = opened(&database)?;
    let [ann, bo] = &accounts;
    assert_eq!(transfer(&database.job(1)?, [ann, bo], 30, || Ok(()))?, 70);
    assert_eq!(balances(&database, &accounts), both("70", "80"));
    Ok(())
}

#[test]
fn an_error_of_ones_own_rolls_back() -> Result<(), Refused> {
    let database = empty();
    let accounts = opened(&database)?;
    let [ann, bo] = &accounts;
    let refused = transfer(&database.job(1)?, [ann, bo], 130, || Ok(()));
    assert_eq!(refused, Err(Refused::TooLittle(100)));
    assert_eq!(balances(&database, &accounts), both("100", "50"));
    assert_eq!(database.job(1)?.rollback(), Err(Error::NoTransaction));
    Ok(())
}

#[test]
fn two_jobs_that_meet_restart_and_lose_nothing() -> Result<(), Refused> {
    let database = empty();
    let accounts = opened(&database)?;
    let [ann, bo] = &accounts;
    let (one, two) = (database.job(1)?, database.job(2)?);
    let calls = Cell::new(0);
    let meet = || {
        calls.set(calls.get() + 1);
        if calls.get() > 3 {
            return Ok(());
        }
        assert_eq!(transfer(&two, [bo, ann], 10, || Ok(())), Ok(50 - 10 * calls.get()));
        Ok(())
    };
    assert_eq!(transfer(&one, [ann, bo], 30, meet)?, 100);
    assert_eq!(calls.get(), 4);
    assert_eq!(balances(&database, &accounts), both("100", "50"));
    Ok(())
}

#[test]
fn many_transfers_keep_the_sum() -> Result<(), Refused> {
    let database = empty();
    let accounts = opened(&database)?;
    let [ann, bo] = &accounts;
    let calls = Cell::new(0);
    for round in 0..200 {
        let (one, two) = (database.job(1 + round % 7)?, database.job(4096)?);
        let meet = || {
            calls.set(calls.get() + 1);
            if calls.get() % 3 == 0 {
                transfer(&two, [bo, ann], 1, || Ok(())).expect("bo has enough");
            }
            Ok(())
        };
        match transfer(&one, [ann, bo], 3, meet) {
            Ok(_) => {}
            Err(Refused::TooLittle(_)) => {
                transfer(&one, [bo, ann], 90, || Ok(()))?;
            }
            Err(other) => return Err(other),
        }
        database.checkpoint()?;
    }
    let sum: i64 = balances(&database, &accounts).into_iter().flatten().map(|text| text.parse::<i64>().unwrap()).sum();
    assert_eq!(sum, 150);
    Ok(())
}
