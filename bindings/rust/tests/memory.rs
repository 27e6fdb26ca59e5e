//! What was made is given back, after errors too. One test, in a process of its own, since it counts all memory.

use vorgushan::{Database, Error, Key};

/// glibc's `struct mallinfo2`.
#[repr(C)]
struct Counted {
    before: [usize; 7],
    in_use: usize,
    after: [usize; 2],
}

extern "C" {
    fn mallinfo2() -> Counted;
}

/// The bytes that are in use.
fn in_use() -> usize {
    // SAFETY: declared as in glibc's malloc.h; it takes nothing.
    unsafe { mallinfo2() }.in_use
}

/// Each way in which a handle is left, by an error too.
fn leaves_all() -> Result<(), Error> {
    assert!(Key::new("5").is_err());
    assert!(Key::spell("A", 1..=32).is_err());
    let database = Database::new()?;
    let (job, a) = (database.job(1)?, Key::spell("A", ["a subscript that is longer than a short key has room for"])?);
    assert!(a.child("").is_err());
    job.set(&a, "1")?;
    assert_eq!(job.set(&a, [0; 32_768]), Err(Error::ValueTooLong));
    assert!(database.walk_all().next().is_some());
    assert_eq!(database.transaction(1, |t| t.set(&a, [0; 40_000])), Err(Error::ValueTooLong));
    database.line("1 FOO").map(|_| ())
}

#[test]
fn everything_is_given_back() {
    for _ in 0..10 {
        assert_eq!(leaves_all(), Err(Error::BadLine));
    }
    let before = in_use();
    for _ in 0..200 {
        assert_eq!(leaves_all(), Err(Error::BadLine));
    }
    assert!(in_use() < before + 20_000, "{before} bytes in use before, {} after", in_use());
}
