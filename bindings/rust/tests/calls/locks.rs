//! Locks: docs/RULES.md, "Locks".

use crate::{empty, key};
use vorgushan::{Error, LockForm};

#[test]
fn a_name_keeps_others_off_its_ancestors_and_descendants() -> Result<(), Error> {
    let database = empty();
    let (one, two) = (database.job(1)?, database.job(2)?);
    assert!(one.lock(&key("^Bed(3)"))?);
    for name in ["^Bed", "^Bed(3)", "^Bed(3,\"A\")"] {
        assert!(!two.lock(&key(name))?, "{name}");
        assert!(one.lock_more(&key(name))?, "{name}");
    }
    assert!(one.lock(&key("^Bed(3)"))?);
    assert!(two.lock(&key("^Bed(4)"))?);
    Ok(())
}

#[test]
fn counts_are_released_one_by_one() -> Result<(), Error> {
    let database = empty();
    let (one, two) = (database.job(1)?, database.job(2)?);
    let bed = key("^Bed");
    assert!(one.lock_more(&bed)? && one.lock_more(&bed)?);
    one.lock_fewer(&bed)?;
    assert!(!two.lock_more(&bed)?);
    one.lock_fewer(&bed)?;
    assert!(two.lock_more(&bed)?);
    two.unlock()?;
    assert!(one.lock(&bed)?);
    one.halt()?;
    assert!(two.lock(&bed)?);
    Ok(())
}

#[test]
fn several_names_are_had_all_or_none() -> Result<(), Error> {
    let database = empty();
    let (one, two, three) = (database.job(1)?, database.job(2)?, database.job(3)?);
    let (bed, ward) = (key("^Bed"), key("^Ward(\"a long name that needs memory of its own\")"));
    assert!(two.lock(&ward)?);
    assert!(!one.lock_all(LockForm::More, &[&bed, &ward])?);
    assert!(three.lock(&bed)?);
    three.unlock()?;
    two.unlock()?;
    assert!(one.lock_all(LockForm::More, &[&bed, &ward, &bed])?);
    assert!(one.lock_all(LockForm::Fewer, &[&bed, &ward])?);
    assert!(!three.lock(&bed)? && three.lock(&ward)?);
    assert!(one.lock_all(LockForm::Only, &[&key("^Other")])?);
    assert!(three.lock(&bed)?);
    assert_eq!(one.lock_all(LockForm::Only, &[]), Err(Error::NoKey));
    assert!(!two.lock(&key("^Other"))?, "a refused LOCK releases nothing");
    Ok(())
}

#[test]
fn a_rollback_gives_back_the_locks_of_before() -> Result<(), Error> {
    let database = empty();
    let (one, two) = (database.job(1)?, database.job(2)?);
    let (kept, more) = (key("^Bed(3)"), key("^Bed(4)"));
    assert!(one.lock(&kept)?);
    let refused: Result<(), Error> = one.transaction(|t| {
        t.lock_fewer(&kept)?;
        assert!(t.lock_more(&more)?);
        assert!(!two.lock_more(&kept)?, "released in a transaction, it is held until its end");
        Err(Error::NotText)
    });
    assert_eq!(refused, Err(Error::NotText));
    assert!(two.lock_more(&more)?);
    assert!(!two.lock_more(&kept)?);
    Ok(())
}

#[test]
fn a_count_goes_up_to_65535() -> Result<(), Error> {
    let database = empty();
    let (job, bed) = (database.job(1)?, key("^Bed"));
    for _ in 0..65_535 {
        assert!(job.lock_more(&bed)?);
    }
    assert_eq!(job.lock_more(&bed), Err(Error::LockCountFull));
    Ok(())
}
