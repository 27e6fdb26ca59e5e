//! Views, beside what is done meanwhile.

use crate::{key, with};
use vorgushan::{Database, Direction, Error, Start};

/// ^A(7)="old", of which a view by this number is to be begun.
const VIEW: u64 = 9;

/// What is done beside the view: ^A(7)="new", ^A(8)="b", and upkeep.
fn change(database: &Database) -> Result<(), Error> {
    let job = database.job(1)?;
    job.set(&key("^A(7)"), "new")?;
    job.set(&key("^A(8)"), "b")?;
    database.collect(100)?;
    database.checkpoint()
}

#[test]
fn a_view_stays() -> Result<(), Error> {
    let database = with(&["^A(7)=\"old\""]);
    let view = database.view(VIEW)?;
    change(&database)?;
    let units = database.statistics()?.units;
    assert_eq!(view.number(), VIEW);
    assert_eq!(view.look_text(&key("^A(7)"))?.as_deref(), Some("old"));
    assert_eq!(view.look(&key("^A(8)"))?, None);
    assert_eq!(view.listing()?, "^A(7)=\"old\"\n");
    assert_eq!((view.walk_all().count(), view.walk(&key("^A(8)")).count()), (1, 0));
    assert_eq!((database.walk_all().count(), database.statistics()?.units), (2, units));
    Ok(())
}

#[test]
fn a_view_answers_what_commands_would() -> Result<(), Error> {
    let database = with(&["^A(7)=\"old\""]);
    let view = database.view(VIEW)?;
    change(&database)?;
    let (a, forward) = (key("^A"), Direction::Forward);
    let (of_a, of_8) = (view.data(&a)?, view.data(&key("^A(8)"))?);
    assert_eq!((of_a.has_value, of_a.has_descendants, of_8.has_value), (false, true, false));
    assert_eq!(view.order(&a, "", forward)?.as_deref(), Some(&b"7"[..]));
    assert_eq!(view.order(&a, "7", forward)?, None);
    let first = view.query(&a, Start::AtKey, forward)?.expect("a node is there");
    assert_eq!(first.reference().to_string(), "^A(7)");
    assert!(view.query(&first, Start::AtKey, forward)?.is_none());
    let last = view.query(&a, Start::BelowKey, Direction::Backward)?.expect("a node is there");
    assert_eq!(last.reference(), first.reference());
    Ok(())
}

#[test]
fn a_view_is_over_when_it_is_dropped() -> Result<(), Error> {
    let database = with(&["^A(7)=\"old\""]);
    let view = database.view(VIEW)?;
    assert_eq!(database.view(VIEW).err(), Some(Error::TransactionOpen));
    assert_eq!(database.view(4097).err(), Some(Error::BadJob));
    database.job(VIEW)?.halt()?;
    assert_eq!(view.look(&key("^A(7)")), Err(Error::NoTransaction));
    drop(view);
    drop(database.view(VIEW)?);
    assert_eq!(database.view(VIEW)?.look_text(&key("^A(7)"))?.as_deref(), Some("old"));
    Ok(())
}
