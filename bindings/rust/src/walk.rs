//! Walks: over the subscripts and the children of a level, the nodes of a subtree, and the names of globals.

use crate::database::{lent, Database};
use crate::error::{done, Error};
use crate::job::{Direction, Job};
use crate::key::{Key, Reference, Subscript};
use crate::raw::{outcome, NamePlace, RawKey};
use std::vec::IntoIter;

/// The subscripts one level below a key, of [`Job::children`]. After an error there are no more.
///
/// Each step asks for the subscript next to the one before, in the database as the job sees it then: nodes may be set
/// and killed between steps.
pub struct Children<'a, 'k> {
    job: Job<'a>,
    key: &'k Key,
    start: Vec<u8>,
    direction: Direction,
    is_at_end: bool,
}

impl<'a, 'k> Children<'a, 'k> {
    pub(crate) fn new(job: Job<'a>, key: &'k Key) -> Children<'a, 'k> {
        Children { job, key, start: Vec::new(), direction: Direction::Forward, is_at_end: false }
    }

    /// From the last to the first.
    pub fn backward(self) -> Children<'a, 'k> {
        Children { direction: Direction::Backward, ..self }
    }

    /// Those that come after a subscript, or backward before it. It need not be there.
    pub fn after(self, start: impl Subscript) -> Children<'a, 'k> {
        Children { start: start.bytes().into_owned(), ..self }
    }
}

impl Iterator for Children<'_, '_> {
    type Item = Result<Vec<u8>, Error>;

    fn next(&mut self) -> Option<Result<Vec<u8>, Error>> {
        if self.is_at_end {
            return None;
        }
        let found = self.job.order(self.key, &self.start, self.direction).transpose();
        match &found {
            Some(Ok(subscript)) => self.start.clone_from(subscript),
            _ => self.is_at_end = true,
        }
        found
    }
}

/// A node with its value.
#[derive(Clone, Debug, PartialEq, Eq)]
pub struct Node {
    /// Its name and subscripts.
    pub reference: Reference,
    /// Its value.
    pub value: Vec<u8>,
}

impl Node {
    /// The node's key. [`OutOfMemory`](Error::OutOfMemory).
    pub fn key(&self) -> Result<Key, Error> {
        Key::of(self.reference.clone())
    }
}

/// Nodes in order, of [`Database::walk`], [`Database::walk_all`] and those of a [`View`](crate::View). After an error
/// there are no more.
///
/// They are read some hundreds at a time, each time in the database as it is committed then, or in the view.
pub struct Walk<'a> {
    database: &'a Database,
    moment: u64,
    root: Option<&'a Key>,
    place: RawKey,
    nodes: IntoIter<Node>,
    is_at_end: bool,
}

impl<'a> Walk<'a> {
    pub(crate) fn new(database: &'a Database, moment: u64, root: Option<&'a Key>) -> Walk<'a> {
        Walk { database, moment, root, place: RawKey::none(), nodes: Vec::new().into_iter(), is_at_end: false }
    }

    /// Reads the next nodes, as many as the engine's buffer has room for.
    fn more(&mut self) -> Result<Vec<Node>, Error> {
        let (database, moment, place) = (self.database, self.moment, &mut self.place);
        let (outcome, bytes) = database.with(|engine| match self.root {
            Some(root) => root.with(|root| lent(engine.walk(moment, root, place))),
            None => lent(engine.walk(moment, &mut RawKey::none(), place)),
        });
        if outcome == outcome::AT_END {
            return Ok(Vec::new());
        }
        done(outcome)?;
        Ok(nodes_of(&bytes).expect("nodes lie in the buffer as the header says"))
    }
}

impl Iterator for Walk<'_> {
    type Item = Result<Node, Error>;

    fn next(&mut self) -> Option<Result<Node, Error>> {
        if self.nodes.len() == 0 && !self.is_at_end {
            match self.more() {
                Ok(nodes) => {
                    self.is_at_end = nodes.is_empty();
                    self.nodes = nodes.into_iter();
                }
                Err(refused) => {
                    self.is_at_end = true;
                    return Some(Err(refused));
                }
            }
        }
        self.nodes.next().map(Ok)
    }
}

/// A child of a key, one level below it.
#[derive(Clone, Debug, PartialEq, Eq)]
pub struct Child {
    /// Its subscript.
    pub subscript: Vec<u8>,
    /// Its value, where it has one.
    pub value: Option<Vec<u8>>,
    /// Whether a node below it has a value.
    pub has_descendants: bool,
}

/// The children of a key in order, each with its value, of [`Database::children`] and
/// [`View::children`](crate::View::children). After an error there are no more.
///
/// They are read many at a time, each time in the database as it is committed then, or in the view; what lies below
/// them is passed over.
pub struct Level<'a> {
    database: &'a Database,
    moment: u64,
    key: &'a Key,
    start: Vec<u8>,
    children: IntoIter<Child>,
    is_at_end: bool,
}

impl<'a> Level<'a> {
    pub(crate) fn new(database: &'a Database, moment: u64, key: &'a Key) -> Level<'a> {
        Level { database, moment, key, start: Vec::new(), children: Vec::new().into_iter(), is_at_end: false }
    }

    /// Those that come after a subscript. It need not be there.
    pub fn after(self, start: impl Subscript) -> Level<'a> {
        Level { start: start.bytes().into_owned(), ..self }
    }

    /// Reads the next children, as many as the engine's buffer has room for.
    fn more(&mut self) -> Result<Vec<Child>, Error> {
        let (moment, start) = (self.moment, &self.start);
        let (outcome, bytes) =
            self.database.with(|engine| self.key.with(|key| lent(engine.look_children(moment, key, start))));
        if outcome == outcome::AT_END {
            return Ok(Vec::new());
        }
        done(outcome)?;
        let children = children_of(&bytes).expect("children lie in the buffer as the header says");
        if let Some(last) = children.last() {
            self.start.clone_from(&last.subscript);
        }
        Ok(children)
    }
}

impl Iterator for Level<'_> {
    type Item = Result<Child, Error>;

    fn next(&mut self) -> Option<Result<Child, Error>> {
        if self.children.len() == 0 && !self.is_at_end {
            match self.more() {
                Ok(children) => {
                    self.is_at_end = children.is_empty();
                    self.children = children.into_iter();
                }
                Err(refused) => {
                    self.is_at_end = true;
                    return Some(Err(refused));
                }
            }
        }
        self.children.next().map(Ok)
    }
}

/// The names of the globals that have a node, without carets, of [`Database::names`] and [`View::names`](crate::View::names).
/// After an error there are no more.
///
/// Each step asks for the name next to the one before, in the database as it is committed then, or in the view.
pub struct Names<'a> {
    database: &'a Database,
    moment: u64,
    start: String,
    direction: Direction,
    is_at_end: bool,
}

impl<'a> Names<'a> {
    pub(crate) fn new(database: &'a Database, moment: u64) -> Names<'a> {
        Names { database, moment, start: String::new(), direction: Direction::Forward, is_at_end: false }
    }

    /// From the last to the first.
    pub fn backward(self) -> Names<'a> {
        Names { direction: Direction::Backward, ..self }
    }

    /// Those that come after a name, or backward before it. No global need have it; where it is no name the first step
    /// answers [`BadName`](Error::BadName).
    pub fn after(self, name: &str) -> Names<'a> {
        Names { start: name.to_owned(), ..self }
    }
}

impl Iterator for Names<'_> {
    type Item = Result<String, Error>;

    fn next(&mut self) -> Option<Result<String, Error>> {
        if self.is_at_end {
            return None;
        }
        let from = NamePlace { start: self.start.as_bytes(), backward: self.direction.number() };
        let (outcome, name) = self.database.with(|engine| lent(engine.look_name(self.moment, from)));
        if outcome == outcome::DONE {
            self.start = String::from_utf8(name).expect("a name is letters and digits");
            return Some(Ok(self.start.clone()));
        }
        self.is_at_end = true;
        (outcome != outcome::AT_END).then(|| done(outcome).map(|()| String::new()))
    }
}

/// A length in eight bytes, the lowest first, and what follows it.
fn split_length(bytes: &[u8]) -> Option<(usize, &[u8])> {
    let (length, rest) = bytes.split_first_chunk::<8>()?;
    Some((usize::try_from(u64::from_le_bytes(*length)).ok()?, rest))
}

/// The nodes in a buffer, each the lengths of key and value and then these; none where it isn't so.
pub(crate) fn nodes_of(mut bytes: &[u8]) -> Option<Vec<Node>> {
    let mut nodes = Vec::new();
    while !bytes.is_empty() {
        let (key_length, rest) = split_length(bytes)?;
        let (value_length, rest) = split_length(rest)?;
        let (key, rest) = rest.split_at_checked(key_length)?;
        let (value, rest) = rest.split_at_checked(value_length)?;
        nodes.push(Node { reference: Reference::of_key(key)?, value: value.to_vec() });
        bytes = rest;
    }
    Some(nodes)
}

/// The children in a buffer, each the lengths of subscript and value, what $DATA tells, and then these; none where it
/// isn't so.
fn children_of(mut bytes: &[u8]) -> Option<Vec<Child>> {
    let mut children = Vec::new();
    while !bytes.is_empty() {
        let (subscript_length, rest) = split_length(bytes)?;
        let (value_length, rest) = split_length(rest)?;
        let (data, rest) = split_length(rest)?;
        let (subscript, rest) = rest.split_at_checked(subscript_length)?;
        let (value, rest) = rest.split_at_checked(value_length)?;
        let value = (data % 10 == 1).then(|| value.to_vec());
        children.push(Child { subscript: subscript.to_vec(), value, has_descendants: data >= 10 });
        bytes = rest;
    }
    Some(children)
}
