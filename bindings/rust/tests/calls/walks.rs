//! Walks: over a level, over a subtree, over all.

use crate::{empty, key, with};
use vorgushan::{Child, Database, Error, Key, Names, Node};

/// The subscripts of a level as text.
fn texts(children: impl Iterator<Item = Result<Vec<u8>, Error>>) -> Result<Vec<String>, Error> {
    children.map(|child| String::from_utf8(child?).map_err(|_| Error::NotText)).collect()
}

/// Nodes as lines.
fn lines(nodes: impl Iterator<Item = Result<Node, Error>>) -> Result<Vec<String>, Error> {
    nodes.map(|node| node.map(|node| format!("{}={}", node.reference, String::from_utf8_lossy(&node.value)))).collect()
}

#[test]
fn children_are_a_levels_subscripts() -> Result<(), Error> {
    let database = with(&["^A(2)=1", "^A(-1,5)=1", "^A(10)=1", "^A(\"x\",1)=1", "^AB(7)=1"]);
    let job = database.job(1)?;
    let a = key("^A");
    assert_eq!(texts(job.children(&a))?, ["-1", "2", "10", "x"]);
    assert_eq!(texts(job.children(&a).backward())?, ["x", "10", "2", "-1"]);
    assert_eq!(texts(job.children(&a).after(2))?, ["10", "x"]);
    assert_eq!(texts(job.children(&a).after(3).backward())?, ["2", "-1"]);
    assert_eq!(texts(job.children(&key("^A(2)")))?, [""; 0]);
    Ok(())
}

#[test]
fn children_may_be_killed_on_the_way() -> Result<(), Error> {
    let database = with(&["^A(1)=1", "^A(2)=1", "^A(3)=1"]);
    let a = key("^A");
    database.transaction(1, |t| {
        for child in t.children(&a) {
            t.kill(&a.child(child?)?)?;
        }
        assert_eq!(texts(t.children(&a))?, [""; 0]);
        Ok::<_, Error>(())
    })?;
    assert_eq!(database.listing()?, "");
    Ok(())
}

#[test]
fn an_error_ends_children() -> Result<(), Error> {
    let database = empty();
    let (job, full) = (database.job(1)?, Key::spell("A", 1..=31)?);
    let all: Vec<_> = job.children(&full).collect();
    assert_eq!(all, [Err(Error::TooManySubscripts)]);
    Ok(())
}

#[test]
fn a_walk_has_what_is_at_and_under_its_root() -> Result<(), Error> {
    let database = with(&["^A=0", "^A(1)=1", "^A(1,-2.5)=2", "^A(1,\"x\")=3", "^A(10)=4", "^B=5"]);
    let under = lines(database.walk(&key("^A(1)")))?;
    assert_eq!(under, ["^A(1)=1", "^A(1,-2.5)=2", "^A(1,\"x\")=3"]);
    let all = lines(database.walk_all())?;
    assert_eq!(all, ["^A=0", "^A(1)=1", "^A(1,-2.5)=2", "^A(1,\"x\")=3", "^A(10)=4", "^B=5"]);
    assert_eq!(lines(database.walk(&key("^C")))?, [""; 0]);
    Ok(())
}

#[test]
fn a_walk_leaves_nothing_in_the_journal() -> Result<(), Error> {
    let database = with(&["^A=0", "^A(1)=1"]);
    let units = database.statistics()?.units;
    assert_eq!(database.walk_all().count(), 2);
    database.look(&key("^A"))?;
    assert_eq!(database.statistics()?.units, units);
    assert_eq!(database.reply()?, b"1 ok");
    Ok(())
}

/// A database with this many nodes, each of a number and the same as text.
fn many(count: u32) -> Result<Database, Error> {
    let database = empty();
    let (job, a) = (database.job(1)?, Key::new("A")?);
    for number in 0..count {
        job.set(&a.child(number)?, number.to_string())?;
    }
    Ok(database)
}

#[test]
fn a_walk_goes_on_where_the_buffer_ended() -> Result<(), Error> {
    let database = many(3_000)?;
    let mut count: u32 = 0;
    for node in database.walk_all() {
        let node = node?;
        assert_eq!(node.value, count.to_string().as_bytes());
        assert_eq!(node.reference.subscripts, [count.to_string().as_bytes()]);
        count += 1;
    }
    assert_eq!(count, 3_000);
    Ok(())
}

#[test]
fn a_walk_and_changes_take_turns() -> Result<(), Error> {
    let database = many(3_000)?;
    let job = database.job(2)?;
    for node in database.walk_all() {
        job.kill(&node?.key()?)?;
    }
    assert_eq!(database.walk_all().count(), 0);
    Ok(())
}

#[test]
fn the_longest_node_is_walked() -> Result<(), Error> {
    let database = empty();
    let longest = Key::spell("A".repeat(31).as_str(), (0..31_u8).map(|_| [0_u8; 255]))?;
    database.job(1)?.set(&longest, vec![0; 32_767])?;
    let node = database.walk_all().next().transpose()?.expect("a node");
    assert_eq!(&node.reference, longest.reference());
    assert_eq!(node.value, [0; 32_767]);
    assert_eq!(node.key()?, longest);
    Ok(())
}

/// Numbers whose key bytes take each of the ways.
const NUMBERS: [&str; 16] = [
    "-1000.001",
    "-12",
    "-10",
    "-1.5",
    "-1",
    "-.5",
    "-.05",
    "0",
    ".005",
    ".5",
    ".55",
    "1",
    "10",
    "10.01",
    "100",
    "123456.789",
];

#[test]
fn numbers_come_back_from_key_bytes() -> Result<(), Error> {
    let database = empty();
    let (job, a) = (database.job(1)?, key("^A"));
    for number in NUMBERS {
        job.set(&a.child(number)?, number)?;
    }
    let longest = ["9".repeat(255), format!("-.{}1", "0".repeat(252)), format!("1{}", "0".repeat(254))];
    for number in &longest {
        job.set(&a.child(number)?, number)?;
    }
    let nodes: Vec<Node> = database.walk_all().collect::<Result<_, _>>()?;
    assert_eq!(nodes.len(), NUMBERS.len() + longest.len());
    for node in &nodes {
        assert_eq!(node.reference.subscripts, std::slice::from_ref(&node.value));
        assert_eq!(node.reference.to_string().parse(), Ok(node.reference.clone()));
    }
    assert_eq!(
        texts(job.children(&a))?,
        nodes.iter().map(|node| String::from_utf8_lossy(&node.value)).collect::<Vec<_>>()
    );
    Ok(())
}

/// The names that come next.
fn some(names: Names<'_>) -> Result<Vec<String>, Error> {
    names.collect()
}

#[test]
fn names_come_in_order() -> Result<(), Error> {
    let database = with(&["^B(1,2)=1", "^B(3)=1", "^%A=1"]);
    let view = database.view(9)?;
    database.job(1)?.set(&key("^z"), "1")?;
    assert_eq!(some(database.names())?, ["%A", "B", "z"]);
    assert_eq!(some(database.names().backward())?, ["z", "B", "%A"]);
    assert_eq!(some(database.names().after("A"))?, ["B", "z"]);
    assert_eq!(some(database.names().after("B").backward())?, ["%A"]);
    assert_eq!(some(view.names())?, ["%A", "B"]);
    let mut refused = database.names().after("1");
    assert_eq!((refused.next(), refused.next()), (Some(Err(Error::BadName)), None));
    Ok(())
}

#[test]
fn each_command_is_a_unit() -> Result<(), Error> {
    let database = with(&["^A=1", "^A=2"]);
    assert_eq!((database.units()?, database.statistics()?.units), (2, 2));
    Ok(())
}

/// A child by its texts.
fn child(subscript: &str, value: Option<&str>, has_descendants: bool) -> Child {
    let value = value.map(|value| value.as_bytes().to_vec());
    Child { subscript: subscript.as_bytes().to_vec(), value, has_descendants }
}

#[test]
fn children_come_with_their_values() -> Result<(), Error> {
    let database = with(&["^A(2)=\"two\"", "^A(10,1,1)=1", "^A(\"x\")=\"\"", "^A(\"x\",1)=1"]);
    let (a, view) = (key("^A"), database.view(9)?);
    database.job(1)?.set(&key("^A(\"y\")"), "why")?;
    let all = [
        child("2", Some("two"), false),
        child("10", None, true),
        child("x", Some(""), true),
        child("y", Some("why"), false),
    ];
    assert_eq!(database.children(&a).collect::<Result<Vec<_>, _>>()?, all);
    assert_eq!(database.children(&a).after("3").collect::<Result<Vec<_>, _>>()?, all[1..]);
    assert_eq!(view.children(&a).collect::<Result<Vec<_>, _>>()?, all[..3]);
    assert_eq!(database.children(&key("^B")).next(), None);
    let (long, mut steps) = ("s".repeat(256), 0);
    let mut refused = database.children(&a).after(long.as_str());
    while refused.next().is_some() {
        steps += 1;
    }
    assert_eq!(steps, 1);
    Ok(())
}
