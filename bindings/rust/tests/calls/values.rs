//! Values: bytes, text, and how long they may be.

use crate::{empty, key};
use vorgushan::Error;

#[test]
fn a_value_has_at_most_32767_bytes() -> Result<(), Error> {
    let (database, a) = (empty(), key("^A"));
    let job = database.job(1)?;
    let longest = vec![b'x'; 32_767];
    job.set(&a, &longest)?;
    assert_eq!(job.set(&a, vec![b'y'; 32_768]), Err(Error::ValueTooLong));
    assert_eq!(job.get(&a)?, longest);
    assert_eq!(database.look(&a)?.as_deref(), Some(&longest[..]));
    assert_eq!(database.walk_all().next().transpose()?.map(|node| node.value), Some(longest));
    Ok(())
}

#[test]
fn bytes_come_back_as_they_are() -> Result<(), Error> {
    let (database, a) = (empty(), key("^A"));
    let job = database.job(1)?;
    for value in [&b"\x00\x01\xFF\n"[..], b"1.50", b"", "Zoë".as_bytes()] {
        job.set(&a, value)?;
        assert_eq!(job.get(&a)?, value);
        assert_eq!(database.look(&a)?.as_deref(), Some(value));
    }
    assert_eq!(job.get_text(&a)?, "Zoë");
    assert_eq!(database.look_text(&a)?.as_deref(), Some("Zoë"));
    Ok(())
}

#[test]
fn no_value_and_an_empty_one_are_two_things() -> Result<(), Error> {
    let (database, a) = (empty(), key("^A"));
    let job = database.job(1)?;
    assert_eq!((job.get(&a)?, database.look(&a)?), (Vec::new(), None));
    job.set(&a, "")?;
    assert_eq!((job.get(&a)?, database.look_text(&a)?), (Vec::new(), Some(String::new())));
    Ok(())
}

#[test]
fn bytes_that_are_no_text_are_told() -> Result<(), Error> {
    let (database, a) = (empty(), key("^A"));
    let job = database.job(1)?;
    job.set(&a, b"\xFF")?;
    assert_eq!(job.get_text(&a), Err(Error::NotText));
    assert_eq!(database.look_text(&a), Err(Error::NotText));
    Ok(())
}
