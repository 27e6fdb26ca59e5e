//! Keys and references: by pieces, by text, and what is refused.

use crate::{empty, key};
use std::collections::HashSet;
use std::thread;
use vorgushan::{Error, Key, Reference, Subscript};

#[test]
fn pieces_and_text_make_the_same_key() -> Result<(), Error> {
    let by_pieces = Key::new("Visit")?.child(101)?.child("pulse")?;
    let mut pushed = Key::new("Visit")?;
    pushed.push(101)?;
    pushed.push(b"pulse")?;
    let spelled = Key::spell("Visit", [&101 as &dyn Subscript, &"pulse"])?;
    let parsed: Key = r#"^Visit(0101.0,"pulse")"#.parse()?;
    for other in [&pushed, &spelled, &parsed, &by_pieces.try_clone()?] {
        assert_eq!(&by_pieces, other);
        assert_eq!(other.to_string(), r#"^Visit(101,"pulse")"#);
    }
    assert_eq!(format!("{by_pieces:?}"), r#"Key(^Visit(101,"pulse"))"#);
    assert_eq!(HashSet::from([by_pieces, pushed, spelled, parsed]).len(), 1);
    Ok(())
}

#[test]
fn all_of_these_are_the_node_that_lines_name() -> Result<(), Error> {
    let database = empty();
    database.line(r#"1 SET ^Visit(101,"pulse")=72"#)?;
    let mut pushed = Key::new("Visit")?;
    pushed.push(101_u8)?;
    pushed.push("pulse".to_string())?;
    let keys = [Key::new("Visit")?.child(101)?.child("pulse")?, pushed, key(r#"^Visit("101","pulse")"#)];
    for key in keys {
        assert_eq!(database.look_text(&key)?.as_deref(), Some("72"));
    }
    Ok(())
}

#[test]
fn names_are_looked_at() {
    for name in ["", "5", "A_B", "^A", "a-b", "é", &"a".repeat(32)] {
        assert_eq!(Key::new(name).unwrap_err(), Error::BadName, "{name}");
    }
    for name in ["A", "%", "%z9", &"a".repeat(31)] {
        assert!(Key::new(name).is_ok(), "{name}");
    }
}

#[test]
fn subscripts_are_looked_at() -> Result<(), Error> {
    let mut a = Key::new("A")?;
    assert_eq!(a.push(""), Err(Error::EmptySubscript));
    assert_eq!(a.push([b'x'; 256]), Err(Error::SubscriptTooLong));
    assert_eq!(a.child("").unwrap_err(), Error::EmptySubscript);
    assert_eq!(a.child(vec![b'x'; 256]).unwrap_err(), Error::SubscriptTooLong);
    assert_eq!(a, Key::new("A")?);
    a.push([b'x'; 255])?;
    assert_eq!(a.reference().subscripts, [[b'x'; 255]]);
    Ok(())
}

#[test]
fn a_key_has_at_most_31_subscripts() -> Result<(), Error> {
    let mut full = Key::spell("A", 1..=31)?;
    assert_eq!(full.push(32), Err(Error::TooManySubscripts));
    assert_eq!(Key::spell("A", 1..=32).unwrap_err(), Error::TooManySubscripts);
    assert_eq!(Key::spell("A", 1..=64).unwrap_err(), Error::TooManySubscripts);
    assert_eq!(full.reference().subscripts.len(), 31);
    let (database, text) = (empty(), full.to_string());
    database.job(1)?.set(&full, "deep")?;
    assert_eq!(database.look_text(&full)?.as_deref(), Some("deep"));
    assert_eq!(database.walk_all().next().transpose()?.map(|node| node.reference.to_string()), Some(text));
    Ok(())
}

/// Literals and what they mean: docs/FORMATS.md, "Grammar of lines" and "Written literals".
const LITERALS: [(&str, &[u8], &str); 14] = [
    ("7", b"7", "7"),
    ("01.50", b"1.5", "1.5"),
    ("0.50", b".5", ".5"),
    ("-0.0", b"0", "0"),
    ("-00.10", b"-.1", "-.1"),
    (".5", b".5", ".5"),
    (r#""007""#, b"007", r#""007""#),
    (r#""7""#, b"7", "7"),
    (r#""-0""#, b"-0", r#""-0""#),
    (r#""a""b""#, b"a\"b", r#""a""b""#),
    (r#"$C(0,1)_"b""#, b"\x00\x01b", r#"$C(0,1)_"b""#),
    (r#""a"_$char(10)"#, b"a\n", r#""a"_$C(10)"#),
    ("\"Zoë\"", "Zoë".as_bytes(), r#""Zo"_$C(195,171)"#),
    ("$C(49)", b"1", "1"),
];

#[test]
fn literals_are_read_and_written_as_by_lines() -> Result<(), Error> {
    let database = empty();
    for (text, bytes, written) in LITERALS {
        let reference: Reference = format!("^A({text})").parse()?;
        assert_eq!(reference.subscripts, [bytes], "{text}");
        assert_eq!(reference.to_string(), format!("^A({written})"));
        assert_eq!(database.line(&format!("1 SET ^A({text})=1"))?, "1 ok");
        assert_eq!(database.line("1 $QUERY(^A(\"\"))")?, format!("1 {reference}"));
        assert_eq!(database.walk_all().next().transpose()?.map(|node| node.reference), Some(reference));
        database.line("1 KILL ^A")?;
    }
    Ok(())
}

#[test]
fn what_is_no_reference_is_refused() {
    let texts = [
        "",
        "^",
        "A",
        "A(1)",
        "^A(",
        "^A()",
        "^A(1",
        "^A(1,)",
        "^A(1)x",
        "^A (1)",
        "^A(1.)",
        "^A(+1)",
        "^A(1E3)",
        "^A(--1)",
        "^A(.)",
        "^A(-)",
        "^A(\"x)",
        "^A(x)",
        "^A(\"a\"_1)",
        "^A($C(256))",
        "^A($C())",
        "^A($C(0001))",
        "^A($D(1))",
        "^é",
    ];
    for text in texts {
        assert_eq!(text.parse::<Reference>(), Err(Error::BadLine), "{text}");
        let line = empty().line(&format!("1 $DATA({text})"));
        assert_eq!(line, Err(Error::BadLine), "{text}");
    }
    assert_eq!(Key::parse("^1A(2)").unwrap_err(), Error::BadName);
    assert_eq!(Key::parse("^A(\"\")").unwrap_err(), Error::EmptySubscript);
}

#[test]
fn a_key_goes_to_another_thread_and_to_another_database() -> Result<(), Error> {
    let one = empty();
    let key = key("^A(1)");
    one.job(1)?.set(&key, "5")?;
    let key = thread::spawn(move || {
        let other = empty();
        other.job(1).and_then(|job| job.set(&key, "6")).expect("a SET");
        key
    })
    .join()
    .expect("a thread that ends");
    assert_eq!(one.look_text(&key)?.as_deref(), Some("5"));
    Ok(())
}
