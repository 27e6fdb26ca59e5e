//! The data commands of `mrun`, written by hand in plain Rust over one `BTreeMap` of key bytes: no versions, no
//! transactions, no locks, no journal, and memory that runs out ends the process. One of the two marks that `bench/run`
//! compares with; `whole.rs` is the other.
mod key;
mod line;
mod script;
mod sum;
mod text;
mod view;

use line::{Command, Data, Refusal};
use text::write_literal;
use script::Machine;
use std::collections::BTreeMap;
use std::io;
use std::ops::Bound::{self, Excluded, Included, Unbounded};
use view::{View, copies, look, taken, total};

#[derive(Default)]
struct Map(BTreeMap<Box<[u8]>, Box<[u8]>>);

impl View for Map {
    fn get(&self, key: &[u8]) -> Option<&[u8]> {
        self.0.get(key).map(|value| &**value)
    }

    fn forward(&self, low: Bound<&[u8]>) -> impl Iterator<Item = (&[u8], &[u8])> {
        self.0.range::<[u8], _>((low, Unbounded)).map(|(key, value)| (&**key, &**value))
    }

    fn backward(&self, high: Bound<&[u8]>) -> impl Iterator<Item = (&[u8], &[u8])> {
        self.0.range::<[u8], _>((Unbounded, high)).rev().map(|(key, value)| (&**key, &**value))
    }
}

impl Map {
    fn access(&mut self, command: Data, out: &mut Vec<u8>) -> Result<(), Refusal> {
        match command {
            Data::Set(node, value) => drop(self.0.insert(node.key().into(), value.into())),
            Data::Kill(node, extent) => {
                let (low, high) = taken(&node, extent);
                self.0.extract_if((Included(&low), Excluded(&high)), |_, _| true).for_each(drop);
            }
            Data::Increment(node, addend) => {
                let sum = total(self, &node, &addend)?;
                write_literal(&sum, out);
                self.0.insert(node.key().into(), sum.into());
                return Ok(());
            }
            Data::Merge(target, source) => {
                let nodes = copies(self, &target, &source)?;
                self.0.extend(nodes);
            }
            Data::Look(asked) => {
                look(self, &asked)?.write(out);
                return Ok(());
            }
        }
        out.extend_from_slice(b"ok");
        Ok(())
    }
}

impl Machine for Map {
    fn step(&mut self, _job: u16, command: Command, out: &mut Vec<u8>) -> Result<(), Refusal> {
        match command {
            Command::Access(command) => self.access(command, out),
            _ => panic!("only data commands are done here"),
        }
    }

    fn nodes(&self) -> impl Iterator<Item = (&[u8], &[u8])> {
        self.forward(Unbounded)
    }
}

fn main() -> io::Result<()> {
    script::run(Map::default())
}
