//! SET, `$GET`, TSTART, TCOMMIT and TROLLBACK of many jobs on threads, in plain Rust over one `BTreeMap` under one lock:
//! what `bench/threads` compares `mjobs` with. It does less: no versions, no look at what others wrote, no journal; a
//! transaction keeps its writes to itself until its commit.
//!
//! threads rwlock|mutex WORKERS FILE
mod key;
mod line;
mod sum;
mod text;
mod view;

use key::write_reference;
use line::{Command, Data, Look, Reader};
use std::collections::BTreeMap;
use std::io::{self, Write};
use std::sync::atomic::{AtomicUsize, Ordering};
use std::sync::{Mutex, OnceLock, RwLock};
use text::{write_literal, write_number};

type Map = BTreeMap<Box<[u8]>, Box<[u8]>>;

/// A map under a lock of one kind or the other.
trait Locked: Sync {
    fn look(&self, key: &[u8]) -> Option<Box<[u8]>>;
    fn change(&self, changes: Map);
    fn into_map(self) -> Map;
}

impl Locked for RwLock<Map> {
    fn look(&self, key: &[u8]) -> Option<Box<[u8]>> {
        self.read().unwrap().get(key).cloned()
    }

    fn change(&self, changes: Map) {
        self.write().unwrap().extend(changes);
    }

    fn into_map(self) -> Map {
        self.into_inner().unwrap()
    }
}

impl Locked for Mutex<Map> {
    fn look(&self, key: &[u8]) -> Option<Box<[u8]>> {
        self.lock().unwrap().get(key).cloned()
    }

    fn change(&self, changes: Map) {
        self.lock().unwrap().extend(changes);
    }

    fn into_map(self) -> Map {
        self.into_inner().unwrap()
    }
}

/// The writes of the open transaction, if there is one.
type Open = Option<Map>;

fn get(map: &impl Locked, open: &Open, key: &[u8], out: &mut Vec<u8>) {
    let own = open.as_ref().and_then(|writes| writes.get(key).cloned());
    write_literal(&own.or_else(|| map.look(key)).unwrap_or_default(), out);
}

fn step(map: &impl Locked, open: &mut Open, command: Command, out: &mut Vec<u8>) {
    match command {
        Command::Access(Data::Set(node, value)) => {
            match open {
                Some(writes) => drop(writes.insert(node.key().into(), value.into())),
                None => map.change(Map::from([(node.key().into(), value.into())])),
            }
            out.extend_from_slice(b"ok");
        }
        Command::Access(Data::Look(Look::Get(node, None))) => get(map, open, node.key(), out),
        Command::Start => {
            *open = Some(Map::new());
            out.extend_from_slice(b"level 1");
        }
        Command::Commit => {
            map.change(open.take().unwrap_or_default());
            out.extend_from_slice(b"committed");
        }
        Command::Rollback => {
            *open = None;
            out.extend_from_slice(b"ok");
        }
        _ => panic!("only SET, $GET, TSTART, TCOMMIT and TROLLBACK are done here"),
    }
}

fn run_job(map: &impl Locked, lines: &[&[u8]]) -> Vec<u8> {
    let (mut reader, mut open, mut out) = (Reader::default(), None, Vec::new());
    for line in lines {
        let (job, command) = reader.read(line);
        write_number(job.into(), &mut out);
        out.push(b' ');
        step(map, &mut open, command.ok().expect("a line that can be read"), &mut out);
        out.push(b'\n');
    }
    out
}

/// The lines by job, in order of first appearance.
fn groups(text: &[u8]) -> Vec<Vec<&[u8]>> {
    let (mut places, mut groups) = (BTreeMap::new(), Vec::<Vec<&[u8]>>::new());
    for line in text.split(|byte| *byte == b'\n').filter(|line| !line.is_empty()) {
        let job = line.split(|byte| *byte == b' ').next();
        let place = *places.entry(job).or_insert(groups.len());
        if place == groups.len() {
            groups.push(Vec::new());
        }
        groups[place].push(line);
    }
    groups
}

fn serve<L: Locked>(map: L, workers: usize, text: &[u8]) -> io::Result<()> {
    let groups = groups(text);
    let replies: Vec<OnceLock<Vec<u8>>> = groups.iter().map(|_| OnceLock::new()).collect();
    let next = AtomicUsize::new(0);
    std::thread::scope(|scope| {
        for _ in 0..workers {
            scope.spawn(|| {
                while let Some(place) = Some(next.fetch_add(1, Ordering::Relaxed)).filter(|place| *place < groups.len()) {
                    replies[place].set(run_job(&map, &groups[place])).unwrap();
                }
            });
        }
    });
    let mut output = io::stdout().lock();
    for reply in &replies {
        output.write_all(reply.get().unwrap())?;
    }
    let mut out = b"--\n".to_vec();
    for (key, value) in map.into_map() {
        write_reference(&key, &mut out);
        out.push(b'=');
        write_literal(&value, &mut out);
        out.push(b'\n');
    }
    output.write_all(&out)
}

fn main() -> io::Result<()> {
    let words: Vec<String> = std::env::args().skip(1).collect();
    let text = std::fs::read(&words[2])?;
    let workers = words[1].parse().expect("a number of workers");
    match words[0].as_str() {
        "mutex" => serve(Mutex::new(Map::new()), workers, &text),
        _ => serve(RwLock::new(Map::new()), workers, &text),
    }
}
