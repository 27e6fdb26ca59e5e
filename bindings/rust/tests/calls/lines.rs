//! Lines, replies and the listing.

use crate::{empty, with};
use vorgushan::{Database, Error, Fault};

#[test]
fn a_line_is_answered_as_text() -> Result<(), Error> {
    let database = empty();
    assert_eq!(database.reply(), Err(Error::NoReply));
    assert_eq!(database.line("1 SET ^A(1)=\"five\"")?, "1 ok");
    assert_eq!(database.line("2 $GET(^A(1))")?, "2 \"five\"");
    assert_eq!(database.line_bytes(b"2 $DATA(^A)")?, b"2 10");
    assert_eq!(database.reply()?, b"2 10");
    Ok(())
}

#[test]
fn a_refused_line_is_an_error_and_its_reply_is_kept() -> Result<(), Error> {
    let database = empty();
    for (line, error, reply) in [
        ("1 FOO", Error::BadLine, "1 error 1 BadLine"),
        ("", Error::BadLine, "0 error 1 BadLine"),
        ("1 SET ^A=1\n", Error::BadLine, "1 error 1 BadLine"),
        ("1 SET ^1A=1", Error::BadName, "1 error 2 BadName"),
        ("1 $ORDER(^A)", Error::NeedSubscript, "1 error 7 NeedSubscript"),
        ("1 TCOMMIT", Error::NoTransaction, "1 error 9 NoTransaction"),
        ("4097 HALT", Error::BadJob, "0 error 12 BadJob"),
    ] {
        assert_eq!(database.line(line), Err(error), "{line}");
        assert_eq!(database.reply()?, reply.as_bytes(), "{line}");
    }
    assert_eq!(database.listing()?, "");
    Ok(())
}

#[test]
fn a_restart_by_lines_is_an_error() -> Result<(), Error> {
    let database = with(&["^A=1"]);
    for line in ["1 TSTART", "1 $GET(^A)", "2 SET ^A=2", "1 SET ^A=3"] {
        database.line(line)?;
    }
    assert_eq!(database.line("1 TCOMMIT"), Err(Error::Restarted));
    assert_eq!(database.reply()?, b"1 restart 1");
    assert_eq!(database.line("1 $GET(^A)")?, "1 2");
    Ok(())
}

#[test]
fn levels_end_at_127() -> Result<(), Error> {
    let database = empty();
    for level in 1..=127 {
        assert_eq!(database.line("1 TSTART")?, format!("1 level {level}"));
    }
    assert_eq!(database.line("1 TSTART"), Err(Error::LevelTooDeep));
    assert_eq!(database.transaction(1, |_| Ok::<_, Error>(())), Err(Error::LevelTooDeep));
    assert_eq!(database.line("1 TCOMMIT")?, "1 level 126");
    assert_eq!(database.transaction(1, |_| Ok::<_, Error>(())), Err(Error::TransactionOpen));
    assert_eq!(database.line("1 $TLEVEL")?, "1 126");
    Ok(())
}

#[test]
fn the_longest_reply_comes_whole() -> Result<(), Error> {
    let database = empty();
    let codes = vec!["0"; 32_767].join(",");
    assert_eq!(database.line(&format!("1 SET ^A=$C({codes})"))?, "1 ok");
    assert_eq!(database.line("1 $GET(^A)")?, format!("1 $C({codes})"));
    assert_eq!(database.listing()?, format!("^A=$C({codes})\n"));
    assert_eq!(database.statistics()?.units, 2, "the line was run once");
    Ok(())
}

#[test]
fn the_listing_is_the_same_as_often_as_it_is_asked_for() -> Result<(), Error> {
    let database = with(&["^B=\"x\"", "^A(1)=5"]);
    for _ in 0..2 {
        assert_eq!(database.listing()?, "^A(1)=5\n^B=\"x\"\n");
    }
    Ok(())
}

#[test]
fn a_listing_is_loaded_whole_or_not_at_all() -> Result<(), Error> {
    let listing = with(&["^B=\"x\"", "^A(1)=5"]).listing()?;
    let database = Database::load(&listing)?;
    assert_eq!(database.listing()?, listing);
    assert_eq!(database.units()?, 2);
    assert_eq!(database.reply(), Err(Error::NoReply));
    let fault = Database::load("^A=1\n\n^B(1=2\n^C\n").unwrap_err();
    assert_eq!((fault.error, fault.line, fault.column), (Error::BadLine, 3, 5));
    assert_eq!(fault.expected, "a comma or )");
    assert!(fault.to_string().starts_with("line 3, column 5: "), "{fault}");
    assert_eq!(Database::load("").map(|made| made.units()), Ok(Ok(0)));
    assert_eq!(Fault::from(Error::OutOfMemory).to_string(), Error::OutOfMemory.to_string());
    Ok(())
}

#[test]
fn the_journals_lines_do_it_again() -> Result<(), Error> {
    let database = with(&["^A(1)=5"]);
    for line in ["2 TSTART", "2 SET ^B=1", "1 KILL ^A", "2 TCOMMIT"] {
        database.line(line)?;
    }
    let lines = database.journal_next()?.expect("units are there");
    assert!(lines.starts_with("1 SET ^A(1)=5\n1 KILL ^A\n"), "{lines}");
    assert_eq!(database.journal_next()?, None);
    let again = empty();
    for line in lines.lines() {
        again.line(line)?;
    }
    assert_eq!(again.listing()?, database.listing()?);
    database.journal_from(1)?;
    assert_eq!(database.journal_next()?, Some(lines["1 SET ^A(1)=5\n".len()..].to_owned()));
    database.journal_from(0)?;
    database.checkpoint()?;
    assert_eq!(database.journal_next(), Err(Error::Gone));
    database.journal_from(database.units()?)?;
    assert_eq!(database.journal_next()?, None);
    database.line("1 SET ^C=1")?;
    assert_eq!(database.journal_next()?.as_deref(), Some("1 SET ^C=1\n"));
    Ok(())
}
