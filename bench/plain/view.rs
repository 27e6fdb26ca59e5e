//! What the data commands answer on any ordered view of nodes with values.
use crate::key::{Node, PAST, count_subscripts, name_len, subscript_len, with_byte, write_reference, write_subscript};
use crate::line::{Direction, Extent, LONGEST_VALUE, Look, MOST_SUBSCRIPTS, Place, Refusal};
use crate::sum::sum;
use crate::text::{write_literal, write_number};
use std::ops::Bound::{self, Excluded, Included, Unbounded};

/// Nodes with values, by their keys.
pub trait View {
    fn get(&self, key: &[u8]) -> Option<&[u8]>;
    /// From a bound on.
    fn forward(&self, low: Bound<&[u8]>) -> impl Iterator<Item = (&[u8], &[u8])>;
    /// From a bound back.
    fn backward(&self, high: Bound<&[u8]>) -> impl Iterator<Item = (&[u8], &[u8])>;
}

pub enum Answer<'a> {
    Value(&'a [u8]),
    Number(u64),
    /// The key as far as the subscript, and where that begins.
    Subscript(&'a [u8], usize),
    Reference(&'a [u8]),
}

impl Answer<'_> {
    pub fn write(&self, out: &mut Vec<u8>) {
        match self {
            Answer::Value(value) => write_literal(value, out),
            Answer::Number(number) => write_number(*number, out),
            Answer::Subscript(key, level) => write_subscript(&key[*level..], out),
            Answer::Reference(key) => write_reference(key, out),
        }
    }
}

pub fn look<'a>(view: &'a impl View, look: &'a Look) -> Result<Answer<'a>, Refusal> {
    match look {
        Look::Data(node) => Ok(Answer::Number(data(view, node))),
        Look::Get(node, default) => Ok(Answer::Value(view.get(node.key()).or(default.as_deref()).unwrap_or(b""))),
        Look::Order(place, direction) => {
            let level = place.level.ok_or(Refusal::NeedSubscript)?;
            Ok(order(view, place, level, *direction).map_or(Answer::Value(b""), |key| Answer::Subscript(key, level)))
        }
        Look::Query(place, direction) => {
            Ok(query(view, place, *direction).map_or(Answer::Value(b""), Answer::Reference))
        }
        Look::Name(start, direction) => {
            Ok(next_name(view, start.as_deref(), *direction).map_or(Answer::Value(b""), Answer::Reference))
        }
    }
}

fn data(view: &impl View, node: &Node) -> u64 {
    let mut found = view.forward(Included(node.key())).take_while(|(key, _)| key.starts_with(node.key()));
    match found.next() {
        None => 0,
        Some((key, _)) if key.len() > node.key().len() => 10,
        Some(_) if found.next().is_some() => 11,
        Some(_) => 1,
    }
}

/// The key of the nearest sibling beyond the place.
fn order<'a>(view: &'a impl View, place: &Place, level: usize, direction: Direction) -> Option<&'a [u8]> {
    let parent = &place.node.key()[..level];
    let (key, _) = match (direction, place.is_open) {
        (Direction::Forward, false) => view.forward(Included(place.node.past())).next(),
        (Direction::Forward, true) => view.forward(Excluded(parent)).next(),
        (Direction::Backward, false) => view.backward(Excluded(place.node.key())).next(),
        (Direction::Backward, true) => view.backward(Excluded(place.node.past())).next(),
    }?;
    let rest = key.strip_prefix(parent).filter(|rest| !rest.is_empty())?;
    Some(&key[..level + subscript_len(rest)])
}

/// The key of the nearest node of the name beyond the place.
fn query<'a>(view: &'a impl View, place: &Place, direction: Direction) -> Option<&'a [u8]> {
    let key = place.node.key();
    let (found, _) = match (direction, place.is_open) {
        (Direction::Forward, _) => view.forward(Excluded(key)).next(),
        (Direction::Backward, false) => view.backward(Excluded(key)).next(),
        (Direction::Backward, true) => view.backward(Excluded(place.node.past())).next(),
    }?;
    found.starts_with(&key[..name_len(key)]).then_some(found)
}

/// The nearest name beyond the start, as in a key.
fn next_name<'a>(view: &'a impl View, start: Option<&[u8]>, direction: Direction) -> Option<&'a [u8]> {
    let (found, _) = match (direction, start) {
        (Direction::Forward, Some(name)) => view.forward(Included(&with_byte(name, PAST))).next(),
        (Direction::Forward, None) => view.forward(Unbounded).next(),
        (Direction::Backward, Some(name)) => view.backward(Excluded(name)).next(),
        (Direction::Backward, None) => view.backward(Unbounded).next(),
    }?;
    Some(&found[..name_len(found)])
}

/// What $INCREMENT answers and sets.
pub fn total(view: &impl View, node: &Node, addend: &[u8]) -> Result<Vec<u8>, Refusal> {
    let sum = sum(view.get(node.key()).unwrap_or(b""), addend);
    if sum.len() > LONGEST_VALUE { Err(Refusal::SumTooLong) } else { Ok(sum) }
}

/// What a kill takes: from a key on and before another.
pub fn taken(node: &Node, extent: Extent) -> (Box<[u8]>, Box<[u8]>) {
    let key = node.key();
    match extent {
        Extent::All => (key.into(), node.past().into()),
        Extent::Value => (key.into(), with_byte(key, 0)),
        Extent::Below => (with_byte(key, 0), node.past().into()),
    }
}

/// Nodes with their values.
pub type Nodes = Vec<(Box<[u8]>, Box<[u8]>)>;

/// What MERGE sets.
pub fn copies(view: &impl View, target: &Node, source: &Node) -> Result<Nodes, Refusal> {
    let (to, from) = (target.key(), source.key());
    if to == from {
        return Ok(Vec::new());
    }
    if to.starts_with(from) || from.starts_with(to) {
        return Err(Refusal::MergeOverlap);
    }
    let room = MOST_SUBSCRIPTS - target.count;
    let under = view.forward(Included(from)).map_while(|(key, value)| Some((key.strip_prefix(from)?, value)));
    under
        .map(|(rest, value)| {
            // No subscript has no byte.
            if rest.len() > room && count_subscripts(rest) > room {
                return Err(Refusal::TooManySubscripts);
            }
            Ok(([to, rest].concat().into(), value.into()))
        })
        .collect()
}
