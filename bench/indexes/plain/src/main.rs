//! Nanoseconds for each call on Rust's maps, with the same keys in the same order.
use std::collections::{BTreeMap, HashMap};
use std::ops::Bound::{Excluded, Unbounded};
use std::time::Instant;

const CALLS: u64 = 100_000;
const SAMPLES: u64 = 30_000;

/// The key of a version, by its id: a number from anywhere.
fn number(id: u64) -> u64 {
    id.wrapping_mul(2_654_435_761) & 0xffff_ffff
}

/// The id of the version that a call asks for.
fn sample(call: u64, count: u64) -> u64 {
    call % SAMPLES * 7_919 % count + 1
}

fn tell(call: &str, count: u64, start: Instant, calls: u64, sum: u64) {
    let tenths = start.elapsed().as_nanos() as u64 * 10 / calls;
    println!("{call}-{count} {}.{} {sum}", tenths / 10, tenths % 10);
}

fn hash(count: u64) {
    let mut map = HashMap::new();
    let start = Instant::now();
    for id in 1..=count {
        map.insert(number(id), id as u32);
    }
    tell("hash-put", count, start, count, map.len() as u64);
    let start = Instant::now();
    let mut sum = 0u64;
    for call in 0..CALLS {
        if map.contains_key(&number(sample(call, count))) {
            sum += 1;
        }
    }
    tell("hash-found", count, start, CALLS, sum);
    let start = Instant::now();
    for id in 1..=count {
        map.remove(&number(id));
    }
    tell("hash-removed", count, start, count, map.len() as u64);
}

/// A map in the order of key and id, as the index has it.
fn tree(count: u64) {
    let mut map = BTreeMap::new();
    let start = Instant::now();
    for id in 1..=count {
        map.insert((number(id), id), id as u32);
    }
    tell("tree-put", count, start, count, map.len() as u64);
    let start = Instant::now();
    let mut sum = 0u64;
    for call in 0..CALLS {
        let key = number(sample(call, count));
        sum += map.range((key, 0)..=(key, u64::MAX)).count() as u64;
    }
    tell("tree-found", count, start, CALLS, sum);
    let start = Instant::now();
    let mut sum = 0u64;
    for call in 0..CALLS {
        let id = sample(call, count);
        if map.range((Excluded((number(id), id)), Unbounded)).next().is_some() {
            sum += 1;
        }
    }
    tell("tree-sought", count, start, CALLS, sum);
    let start = Instant::now();
    for id in 1..=count {
        map.remove(&(number(id), id));
    }
    tell("tree-removed", count, start, count, map.len() as u64);
}

fn main() {
    for count in [1_000, 30_000, 300_000] {
        for _ in 0..3 {
            hash(count);
            tree(count);
        }
    }
}
