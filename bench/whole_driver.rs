//! Times calls on whole maps beside std's `BTreeMap` on the same keys, and compares what both left.
//!
//! A time is the best of some runs, the two maps in turn, of the time that the call took (`harness/phases.rs`); a multiple is the median of those
//! that each round gave (`harness/rounds.rs`).
//!
//! With the word `count` each job runs once at a thousand pairs, for `bench/instructions.py`.
mod harness;
mod jobs;

use harness::{Random, Runs, compare, mark, mixed, print_head, start, tell_second};
use jobs::{bench_map_collect, bench_map_whole};
use std::collections::BTreeMap;
use std::mem::forget;

// Pairs, and rounds of runs.
const SIZES: [(u64, usize); 2] = [(1_000, 400), (1_000_000, 8)];
const APPEND: u64 = 0;
const SPLIT_OFF: u64 = 1;
const CLONE: u64 = 2;
const POP: u64 = 3;
const POP_LAST: u64 = 4;

#[derive(Default)]
struct Job {
    name: &'static str,
    // The keys are collected, and nothing else is done.
    collects: bool,
    keys: Vec<u64>,
    others: Vec<u64>,
    at: u64,
    way: u64,
}

#[inline(never)]
fn run_ours(job: &Job) -> u64 {
    match job.collects {
        true => bench_map_collect(&job.keys) as u64,
        false => bench_map_whole(&job.keys, &job.others, job.at, job.way),
    }
}

fn insert_all(keys: &[u64]) -> BTreeMap<u64, u64> {
    let mut map = BTreeMap::new();
    for key in keys {
        map.insert(*key, *key);
    }
    map
}

// As `BTreeMap::from_iter` of std, which sorts all pairs first.
fn collect_std(job: &Job) -> u64 {
    mark();
    let map: BTreeMap<u64, u64> = job.keys.iter().map(|key| (*key, *key)).collect();
    mark();
    let len = map.len() as u64;
    forget(map);
    len
}

#[inline(never)]
fn run_std(job: &Job) -> u64 {
    if job.collects {
        return collect_std(job);
    }
    let mut map = insert_all(&job.keys);
    let mut other = insert_all(&job.others);
    let mut popped = 0;
    mark();
    match job.way {
        APPEND => map.append(&mut other),
        SPLIT_OFF => other = map.split_off(&job.at),
        CLONE => other = map.clone(),
        POP => {
            while let Some((key, value)) = map.pop_first() {
                popped = mixed(popped, Some(key ^ value));
            }
        }
        _ => {
            while let Some((key, value)) = map.pop_last() {
                popped = mixed(popped, Some(key ^ value));
            }
        }
    }
    mark();
    let lengths = mixed(map.len() as u64, Some(other.len() as u64));
    let ends = mixed(lengths, map.last_key_value().map(|pair| *pair.0));
    let seen = mixed(ends, other.first_key_value().map(|pair| *pair.0));
    forget(map);
    forget(other);
    mixed(seen, Some(popped))
}

fn jobs(pairs: u64) -> Vec<Job> {
    let mut random = Random(pairs);
    let mut shuffled = |keys| random.shuffled(keys);
    let half = pairs / 2;
    let all = shuffled((0..pairs).collect());
    let made = |name, way| Job {
        name,
        way,
        ..Job::default()
    };
    vec![
        Job {
            keys: shuffled((0..half).map(|key| 2 * key).collect()),
            others: shuffled((0..half).map(|key| 2 * key + 1).collect()),
            ..made("append, interleaved", APPEND)
        },
        Job {
            keys: shuffled((0..half).collect()),
            others: shuffled((half..pairs).collect()),
            ..made("append, one after the other", APPEND)
        },
        Job {
            keys: all.clone(),
            at: half,
            ..made("split_off in the middle", SPLIT_OFF)
        },
        Job {
            keys: all.clone(),
            ..made("try_clone", CLONE)
        },
        Job {
            keys: all.clone(),
            ..made("pop_first until empty", POP)
        },
        Job {
            keys: all.clone(),
            ..made("pop_last until empty", POP_LAST)
        },
        Job {
            keys: (0..pairs).collect(),
            collects: true,
            ..made("try_from_iterator, ascending", 0)
        },
        Job {
            keys: all,
            collects: true,
            ..made("try_from_iterator, random", 0)
        },
    ]
}

const RUNS: Runs<Job> = [run_ours, run_std];

// Each job on each side, at a thousand pairs.
fn count() {
    let pairs = 1_000;
    for job in jobs(pairs) {
        for (who, run) in RUNS.iter().enumerate() {
            tell_second(who, job.name, pairs as usize, || run(&job));
        }
    }
}

fn print_times() {
    print_head("nanoseconds a pair of the whole, best of so many runs: ours / std's BTreeMap (the median of ours as a multiple of std's)");
    for (pairs, rounds) in SIZES {
        println!("{pairs} pairs, {rounds} runs");
        for job in jobs(pairs) {
            compare(&job, rounds, RUNS)[0].print_median(job.name, (30, 9, 3), pairs as f64);
        }
    }
}

fn main() {
    start(&[("count", count)], print_times);
}
