//! The work of `bench/timings/btree` with std's `BTreeMap<Vec<u8>, u64>`: the same keys, the same checksums.
use std::collections::BTreeMap;
use std::time::Instant;

fn key_of(number: u64) -> Vec<u8> {
    let mut key = Vec::with_capacity(10 + number as usize % 27 + 2);
    let mut place = 1_000_000_000;
    while place > 0 {
        key.push((number / place % 10) as u8 + b'0');
        place /= 10;
    }
    key.extend(std::iter::repeat_n(b'.', number as usize % 27 + 2));
    key.truncate(38);
    key
}

fn shuffled(step: u64, count: u64) -> u64 {
    step % 1_000_000_007 * 7_368_787 % count
}

fn time_tree(count: u64, rising: bool) {
    let mut tree = BTreeMap::new();
    let start = Instant::now();
    for step in 0..count {
        let number = if rising { step } else { shuffled(step, count) };
        tree.insert(key_of(number), number);
    }
    eprintln!("inserts: {} ms", start.elapsed().as_millis());
    let start = Instant::now();
    let mut found: u64 = 0;
    for step in 0..count {
        if let Some(value) = tree.get(&key_of(shuffled(step, count))) {
            found = found.wrapping_mul(31).wrapping_add(*value);
        }
    }
    eprintln!("look-ups: {} ms", start.elapsed().as_millis());
    let start = Instant::now();
    let mut passed: u64 = 0;
    for (_, value) in &tree {
        passed = passed.wrapping_mul(31).wrapping_add(*value);
    }
    eprintln!("walk: {} ms", start.elapsed().as_millis());
    let start = Instant::now();
    let mut taken: u64 = 0;
    for step in 0..count {
        if let Some(value) = tree.remove(&key_of(shuffled(step, count))) {
            taken = taken.wrapping_mul(31).wrapping_add(value);
        }
    }
    eprintln!("removals: {} ms", start.elapsed().as_millis());
    println!("{found} {passed} {taken} {}", tree.len());
}

fn main() {
    let count = std::env::args().nth(1).and_then(|word| word.parse().ok()).unwrap_or(1_000);
    eprintln!("{count} rising keys");
    time_tree(count, true);
    eprintln!("{count} shuffled keys");
    time_tree(count, false);
}
