//! Commands of a job on keys, and what the database is told to do for its upkeep.

use crate::{empty, key, with};
use vorgushan::{Data, Direction, Error, Start};

#[test]
fn a_job_has_a_number_from_1_to_4096() {
    let database = empty();
    for number in [0, 4097, u64::MAX] {
        assert_eq!(database.job(number).unwrap_err(), Error::BadJob);
        assert_eq!(database.transaction(number, |_| Ok::<_, Error>(())), Err(Error::BadJob));
    }
    for number in [1, 4096] {
        assert_eq!(database.job(number).map(|job| job.number()), Ok(number));
    }
}

#[test]
fn kill_takes_all_below() -> Result<(), Error> {
    let database = with(&["^A=1", "^A(1)=2", "^A(1,2)=3", "^B=4"]);
    database.job(1)?.kill(&key("^A(1)"))?;
    assert_eq!(database.listing()?, "^A=1\n^B=4\n");
    Ok(())
}

#[test]
fn kill_value_takes_nothing_below() -> Result<(), Error> {
    let database = with(&["^A=1", "^A(1)=2", "^A(1,2)=3", "^B=4"]);
    let job = database.job(1)?;
    job.kill_value(&key("^A(1)"))?;
    job.kill_value(&key("^C"))?;
    assert_eq!(database.listing()?, "^A=1\n^A(1,2)=3\n^B=4\n");
    Ok(())
}

#[test]
fn kill_subscripts_leaves_the_value() -> Result<(), Error> {
    let database = with(&["^A=1", "^A(1)=2", "^A(1,2)=3", "^B=4"]);
    database.job(1)?.kill_subscripts(&key("^A(1)"))?;
    assert_eq!(database.listing()?, "^A=1\n^A(1)=2\n^B=4\n");
    Ok(())
}

#[test]
fn increment_adds_exactly() -> Result<(), Error> {
    let database = with(&["^A=\"12abc\"", "^B=999999999999999999999"]);
    let job = database.job(1)?;
    let rows = [("^A", "-.5", "11.5"), ("^A", "1", "12.5"), ("^B", "1", "1000000000000000000000"), ("^C", "7", "7")];
    for (text, number, sum) in rows {
        assert_eq!(job.increment(&key(text), number)?, sum);
        assert_eq!(database.look_text(&key(text))?.as_deref(), Some(sum));
    }
    for wrong in ["", "01", "+1", "1E3", "x"] {
        assert_eq!(job.increment(&key("^C"), wrong), Err(Error::BadLine), "{wrong}");
    }
    Ok(())
}

#[test]
fn the_longest_sum_is_done_once() -> Result<(), Error> {
    let database = empty();
    let job = database.job(1)?;
    let nearly = format!("{}8", "9".repeat(32_766));
    job.set(&key("^A"), &nearly)?;
    assert_eq!(job.increment(&key("^A"), "1")?, "9".repeat(32_767));
    assert_eq!(database.units()?, 2);
    assert_eq!(job.increment(&key("^A"), "1"), Err(Error::SumTooLong));
    assert_eq!(job.increment(&key("^A"), "9".repeat(32_768)), Err(Error::ValueTooLong));
    assert_eq!(database.look_text(&key("^A"))?, Some("9".repeat(32_767)));
    Ok(())
}

#[test]
fn an_increment_is_a_read_of_its_node() -> Result<(), Error> {
    let database = with(&["^A=5"]);
    let mut tries = 0;
    let sum = database.transaction(1, |t| {
        tries += 1;
        let sum = t.increment(&key("^A"), "10")?;
        if tries == 1 {
            database.job(2)?.increment(&key("^A"), "100")?;
        }
        Ok::<_, Error>(sum)
    })?;
    assert_eq!((tries, &sum[..]), (2, "115"));
    assert_eq!(database.listing()?, "^A=115\n");
    Ok(())
}

#[test]
fn names_are_walked_in_both_directions() -> Result<(), Error> {
    use Direction::{Backward, Forward};
    let database = with(&["^%A=1", "^Ab(1,2)=1", "^B=1"]);
    let job = database.job(1)?;
    let rows = [
        ("", Forward, Some("%A")),
        ("%A", Forward, Some("Ab")),
        ("Aa", Forward, Some("Ab")),
        ("B", Forward, None),
        ("", Backward, Some("B")),
        ("B", Backward, Some("Ab")),
        ("%A", Backward, None),
    ];
    for (start, direction, found) in rows {
        assert_eq!(job.next_name(start, direction)?.as_deref(), found, "{start} {direction:?}");
    }
    for wrong in ["1", "^A", &"x".repeat(300)] {
        assert_eq!(job.next_name(wrong, Forward), Err(Error::BadName));
    }
    Ok(())
}

#[test]
fn merge_copies_all_below() -> Result<(), Error> {
    let database = with(&["^A(1)=2", "^A(1,2)=3"]);
    let job = database.job(1)?;
    let (a, b) = (key("^A(1)"), key("^B"));
    job.merge(&b, &a)?;
    assert_eq!(database.listing()?, "^A(1)=2\n^A(1,2)=3\n^B=2\n^B(2)=3\n");
    assert_eq!(job.merge(&key("^A(1,2)"), &a), Err(Error::MergeOverlap));
    assert_eq!(job.merge(&a, &a), Err(Error::MergeOverlap));
    assert_eq!(job.merge(&a.try_clone()?, &a), Ok(()));
    Ok(())
}

#[test]
fn data_tells_of_value_and_descendants() -> Result<(), Error> {
    let database = with(&["^A(1)=2", "^A(2)=1", "^A(2,2)=3"]);
    let job = database.job(1)?;
    let rows = [("^A", false, true), ("^A(1)", true, false), ("^A(2)", true, true), ("^A(3)", false, false)];
    for (text, has_value, has_descendants) in rows {
        assert_eq!(job.data(&key(text))?, Data { has_value, has_descendants }, "{text}");
    }
    Ok(())
}

#[test]
fn order_goes_from_any_start() -> Result<(), Error> {
    use Direction::{Backward, Forward};
    let database = with(&["^A(1)=1", "^A(5,1)=1", "^A(\"x\")=1"]);
    let job = database.job(1)?;
    let a = key("^A");
    let rows = [
        ("", Forward, Some("1")),
        ("1", Forward, Some("5")),
        ("4", Forward, Some("5")),
        ("x", Forward, None),
        ("", Backward, Some("x")),
        ("4", Backward, Some("1")),
        ("1", Backward, None),
    ];
    for (start, direction, found) in rows {
        assert_eq!(job.order(&a, start, direction)?.as_deref(), found.map(str::as_bytes), "{start} {direction:?}");
    }
    assert_eq!(job.order(&a, [b'x'; 256], Forward), Err(Error::SubscriptTooLong));
    assert_eq!(job.order(&a, vec![b'x'; 257], Forward), Err(Error::SubscriptTooLong));
    Ok(())
}

#[test]
fn query_goes_from_node_to_node() -> Result<(), Error> {
    use Direction::{Backward, Forward};
    use Start::{AtKey, BelowKey};
    let database = with(&["^A(1)=1", "^A(1,\"a\"_$C(10))=2", "^A(3)=3", "^B=4"]);
    let job = database.job(1)?;
    let rows = [
        ("^A", AtKey, Forward, Some("^A(1)")),
        ("^A(1)", AtKey, Forward, Some("^A(1,\"a\"_$C(10))")),
        ("^A(1)", BelowKey, Backward, Some("^A(1,\"a\"_$C(10))")),
        ("^A(1)", AtKey, Backward, None),
        ("^A(3)", BelowKey, Forward, None),
    ];
    for (text, start, direction, found) in rows {
        let answer = job.query(&key(text), start, direction)?;
        assert_eq!(answer, found.map(key), "{text} {start:?} {direction:?}");
        if let Some(node) = answer {
            assert!(database.look(&node)?.is_some(), "the key itself was moved");
        }
    }
    Ok(())
}

#[test]
fn upkeep_drops_what_nobody_needs() -> Result<(), Error> {
    let (database, a) = (empty(), key("^A"));
    let job = database.job(1)?;
    for count in 0..10 {
        job.set(&a, count.to_string())?;
    }
    assert!(database.look(&a)?.is_some());
    let before = database.statistics()?;
    assert_eq!((before.units, before.nodes), (10, 1));
    assert!(before.journal_bytes > 0);
    database.checkpoint()?;
    database.collect(100)?;
    let after = database.statistics()?;
    assert_eq!((after.units, after.nodes, after.journal_bytes), (10, 1, 0));
    Ok(())
}
