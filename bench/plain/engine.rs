//! The work of `bench/timings/engine` in plain Rust, over one `BTreeMap` under one `RwLock`: what `bench/engine`
//! compares the shared engine with. The same lines are read, in the same turns and threads, and the same counts are
//! printed.
//!
//! A node has its value and the stamp of the commit that wrote it. A transaction notes the clock when it starts,
//! without the lock. Its reads are done a few under each hold of the shared lock, and are all of that moment: since no
//! older value is kept, one that meets a newer stamp ends it. A commit takes the exclusive lock, also where nothing is
//! written, since its stamp is its place in the order; if another came since the start, it looks at the stamps of what
//! was read.
//!
//! It does less than the engine: no versions, no journal, no receipts, no ranges, no LOCKs; a transaction that is
//! overtaken isn't begun anew; and memory that runs out ends the process.
//!
//! engine TURNS
mod key;
mod line;
mod text;

use line::{Command, Data, Look, Reader};
use std::collections::BTreeMap;
use std::hint::black_box;
use std::sync::RwLock;
use std::sync::atomic::{AtomicU64, Ordering};
use std::thread;
use std::time::Instant;

type Bytes = Box<[u8]>;

const THREADS: u64 = 4;
/// How many reads are done under one hold of the lock, at most.
const READS_PER_HOLD: u64 = 16;
const READ_LINE: &str = "1 $GET(^A(5))";
const SEED_LINE: &str = "1 SET ^A(5)=7";

/// What threads are measured at: how many nodes each transaction reads, whether it commits, and each how many-th, 0 for
/// none, sets a node and commits.
struct Kind {
    name: &'static str,
    reads: u64,
    commits: bool,
    each: u64,
}

const KINDS: [Kind; 5] = [
    Kind { name: "8 reads, rolled back", reads: 8, commits: false, each: 0 },
    Kind { name: "100 reads, rolled back", reads: 100, commits: false, each: 0 },
    Kind { name: "8 reads, committed", reads: 8, commits: true, each: 0 },
    Kind { name: "100 reads, committed", reads: 100, commits: true, each: 0 },
    Kind { name: "8 reads, nine of ten rolled back, one with a SET committed", reads: 8, commits: false, each: 10 },
];

struct Node {
    stamp: u64,
    value: Bytes,
}

type Nodes = BTreeMap<Bytes, Node>;

/// The stamp of the last commit, away from the words of the lock.
#[derive(Default)]
#[repr(align(128))]
struct Clock(AtomicU64);

#[derive(Default)]
struct Engine {
    nodes: RwLock<Nodes>,
    clock: Clock,
}

struct Overtaken;

struct Transaction {
    start: u64,
    /// A node that is read several times in a row is there once.
    reads: Vec<Bytes>,
    writes: BTreeMap<Bytes, Bytes>,
}

impl Transaction {
    fn read(&mut self, nodes: &Nodes, key: Bytes) -> Result<Option<Bytes>, Overtaken> {
        if let Some(own) = self.writes.get(&key) {
            return Ok(Some(own.clone()));
        }
        let node = nodes.get(&key);
        if node.is_some_and(|node| node.stamp > self.start) {
            return Err(Overtaken);
        }
        if self.reads.last() != Some(&key) {
            self.reads.push(key);
        }
        Ok(node.map(|node| node.value.clone()))
    }

    fn is_overtaken(&self, nodes: &Nodes) -> bool {
        self.reads.iter().any(|key| nodes.get(key).is_some_and(|node| node.stamp > self.start))
    }
}

impl Engine {
    fn begin(&self) -> Transaction {
        Transaction { start: self.clock.0.load(Ordering::Acquire), reads: Vec::new(), writes: BTreeMap::new() }
    }

    /// Nodes' values, under one hold of the lock.
    fn read_all(&self, open: &mut Transaction, keys: Vec<Bytes>) -> Result<Vec<Option<Bytes>>, Overtaken> {
        let nodes = self.nodes.read().unwrap();
        keys.into_iter().map(|key| open.read(&nodes, key)).collect()
    }

    fn commit(&self, open: Transaction) -> Result<(), Overtaken> {
        let mut nodes = self.nodes.write().unwrap();
        if self.clock.0.load(Ordering::Relaxed) > open.start && open.is_overtaken(&nodes) {
            return Err(Overtaken);
        }
        self.write(&mut nodes, open.writes);
        Ok(())
    }

    /// The next commit, whose stamp is told after what it wrote.
    fn write(&self, nodes: &mut Nodes, writes: impl IntoIterator<Item = (Bytes, Bytes)>) {
        let stamp = self.clock.0.load(Ordering::Relaxed) + 1;
        for (key, value) in writes {
            nodes.insert(key, Node { stamp, value });
        }
        self.clock.0.store(stamp, Ordering::Release);
    }

    fn lone(&self, set: (Bytes, Bytes)) {
        self.write(&mut self.nodes.write().unwrap(), [set]);
    }
}

fn key_of(reader: &mut Reader, line: &str) -> Bytes {
    match reader.read(line.as_bytes()) {
        (_, Ok(Command::Access(Data::Look(Look::Get(node, None))))) => node.key().into(),
        _ => panic!("a line with another command than $GET: {line}"),
    }
}

fn set_of(reader: &mut Reader, line: &str) -> (Bytes, Bytes) {
    match reader.read(line.as_bytes()) {
        (_, Ok(Command::Access(Data::Set(node, value)))) => (node.key().into(), value.into()),
        _ => panic!("a line with another command than SET: {line}"),
    }
}

/// A transaction that reads, and then sets what the line says, if there is one, and commits.
fn transaction(engine: &Engine, reader: &mut Reader, kind: &Kind, sets: Option<&str>) -> Result<(), Overtaken> {
    let mut open = engine.begin();
    let mut left = kind.reads;
    while left > 0 {
        let count = left.min(READS_PER_HOLD);
        let keys = (0..count).map(|_| key_of(reader, READ_LINE)).collect();
        black_box(engine.read_all(&mut open, keys)?);
        left -= count;
    }
    open.writes.extend(sets.map(|line| set_of(reader, line)));
    if kind.commits || sets.is_some() { engine.commit(open) } else { Ok(()) }
}

/// What the job of this number sets.
fn own_line(number: u64) -> String {
    format!("1 SET ^B({})=7", number % THREADS + 1)
}

fn transactions(engine: &Engine, kind: &Kind, number: u64, turns: u64) -> u64 {
    let (mut reader, line) = (Reader::default(), own_line(number));
    let mut done = 0;
    for turn in 0..turns {
        let sets = (kind.each > 0 && turn % kind.each == 0).then_some(&*line);
        done += u64::from(transaction(engine, &mut reader, kind, sets).is_ok());
    }
    done
}

fn lone_sets(engine: &Engine, line: &str, turns: u64) -> u64 {
    let mut reader = Reader::default();
    for _ in 0..turns {
        engine.lone(set_of(&mut reader, line));
    }
    turns
}

fn tell(what: &str, turns: u64, begun: Instant) {
    eprintln!("{what}: {} ns", begun.elapsed().as_nanos() / u128::from(turns.max(1)));
}

/// Does the work in so many threads, each with its number, and answers how many turns they did in all.
fn together(what: &str, who: &str, threads: u64, turns: u64, work: impl Fn(u64) -> u64 + Sync) -> u64 {
    let (begun, work) = (Instant::now(), &work);
    let done = thread::scope(|scope| {
        let others: Vec<_> = (1..threads).map(|number| scope.spawn(move || work(number))).collect();
        work(0) + others.into_iter().map(|other| other.join().unwrap()).sum::<u64>()
    });
    let each = begun.elapsed().as_nanos() / u128::from(turns.max(1));
    eprintln!("{what}, {who}: {each} ns a turn of each");
    done
}

/// One thread, four, and four that have an engine each.
fn measure(what: &str, engine: &Engine, turns: u64, work: impl Fn(&Engine, u64) -> u64 + Sync) {
    let one = together(what, "one thread", 1, turns, |number| work(engine, number));
    let four = together(what, "four threads", THREADS, turns, |number| work(engine, number));
    let apart = together(what, "four threads apart", THREADS, turns, |number| {
        let own = Engine::default();
        lone_sets(&own, SEED_LINE, 1);
        work(&own, number)
    });
    println!("{one} {four} {apart}");
}

fn main() {
    let turns = std::env::args().nth(1).and_then(|word| word.parse().ok()).unwrap_or(1_000);
    let engine = Engine::default();
    let begun = Instant::now();
    for _ in 0..turns {
        drop(black_box(engine.begin()));
    }
    tell("tstart and rollback_free", turns, begun);
    let begun = Instant::now();
    let done = lone_sets(&engine, SEED_LINE, turns);
    tell("a lone SET", turns, begun);
    println!("{turns} {done}");
    for kind in &KINDS {
        measure(kind.name, &engine, turns, |engine, number| transactions(engine, kind, number, turns));
    }
    measure("lone SETs", &engine, turns, |engine, number| lone_sets(engine, &own_line(number), turns));
}
