//! Times the library's hashed map beside std's `HashMap` with the same hasher, on the same random keys, and compares their answers.
//!
//! Each time is the best of some runs, the two maps in turn, of the time that the calls took (`harness/phases.rs`).
mod harness;
mod jobs;

use harness::{Folded, Keys, compare, mark, mixed, print_head};
use jobs::bench_map_hash;
use std::collections::HashMap;
use std::hash::BuildHasherDefault;

// Pairs, and rounds of runs.
const SIZES: [(usize, usize); 2] = [(1_000, 500), (100_000, 30)];

#[inline(never)]
fn run_ours(keys: &Keys) -> u64 {
    bench_map_hash(&keys.inserted, &keys.sought)
}

#[inline(never)]
fn run_std(keys: &Keys) -> u64 {
    let mut map: HashMap<u64, u64, BuildHasherDefault<Folded>> = HashMap::default();
    let mut checksum = 0;
    mark();
    for key in &keys.inserted {
        checksum = mixed(checksum, map.insert(*key, *key));
    }
    mark();
    for key in &keys.sought {
        checksum = mixed(checksum, map.get(key).copied());
    }
    mark();
    checksum
}

fn main() {
    print_head("nanoseconds a call, best of so many runs: ours / std's HashMap (ours as a multiple of std's)");
    for (pairs, rounds) in SIZES {
        println!("{pairs} pairs, {rounds} runs");
        let keys = Keys::new(pairs);
        let calls = [keys.inserted.len(), keys.sought.len()];
        let phases = compare(&keys, rounds, [run_ours, run_std]);
        for ((name, phase), calls) in ["TryHashMap::insert", "TryHashMap::get"].iter().zip(&phases).zip(calls) {
            phase.print_least(name, (18, 7, 1), calls);
        }
    }
}
