//! Times walks over the library's ordered map beside std's `BTreeMap` on the same random keys, and compares what both saw.
//!
//! A time is the best of some runs, the two maps in turn, of the time that the walks of a job took (`harness/phases.rs`); a multiple is the median
//! of those that each round gave (`harness/rounds.rs`). `into_iter` stands with the other calls that end a map, in `map_driver.rs`.
//!
//! With the word `count` each job runs once at a thousand pairs, and with `misses` a walk over 200,000, for `bench/instructions.py`.
mod harness;
mod jobs;

use harness::{Random, Runs, compare, count, mark, mixed, print_head, start};
use jobs::bench_map_walk;
use std::collections::BTreeMap;

// Pairs, walks over all of them, and rounds of runs.
const SIZES: [(u64, u64, usize); 3] = [(1_000, 400, 60), (100_000, 40, 20), (1_000_000, 10, 6)];
const RANGE: u64 = 100;
const RANGES: usize = 2_000;
const RANGE_WAY: u64 = 2;
const WAYS: [&str; 6] = [
    "iter",
    "both ends",
    "range of 100",
    "values_mut by next",
    "keys",
    "values_mut by for_each",
];

struct Job {
    keys: Vec<u64>,
    starts: Vec<u64>,
    way: u64,
    times: u64,
}

#[inline(never)]
fn run_ours(job: &Job) -> u64 {
    bench_map_walk(&job.keys, &job.starts, job.way, job.times)
}

#[inline(never)]
fn run_std(job: &Job) -> u64 {
    let mut map = BTreeMap::new();
    let mut seen = 0;
    for key in &job.keys {
        seen = mixed(seen, map.insert(*key, *key));
    }
    mark();
    for _ in 0..job.times {
        match job.way {
            0 => {
                for (key, value) in &map {
                    seen = mixed(seen, Some(key ^ value));
                }
            }
            1 => {
                let mut walk = map.iter();
                while let Some((key, _)) = walk.next() {
                    seen = mixed(seen, Some(*key));
                    if let Some((_, value)) = walk.next_back() {
                        seen = mixed(seen, Some(*value));
                    }
                }
            }
            2 => {
                for from in &job.starts {
                    for (key, value) in map.range(*from..from.saturating_add(RANGE)) {
                        seen = mixed(seen, Some(key ^ value));
                    }
                }
            }
            4 => {
                for key in map.keys() {
                    seen = mixed(seen, Some(*key));
                }
            }
            _ => map.values_mut().for_each(|value| *value = value.wrapping_add(1)),
        }
    }
    mark();
    seen
}

const RUNS: Runs<Job> = [run_ours, run_std];

impl Job {
    fn new(pairs: u64, times: u64, way: u64) -> Job {
        let mut random = Random(pairs);
        let keys = random.shuffled((0..pairs).collect());
        let starts = (0..RANGES).map(|_| random.below(pairs - RANGE)).collect();
        Job {
            keys,
            starts,
            way,
            times,
        }
    }

    // How many pairs its walks give.
    fn given(&self) -> usize {
        let pairs = match self.way {
            RANGE_WAY => self.starts.len() * RANGE as usize,
            _ => self.keys.len(),
        };
        self.times as usize * pairs
    }
}

fn print_times() {
    print_head("nanoseconds a pair, best of so many runs: ours / std's BTreeMap (the median of ours as a multiple of std's)");
    for (pairs, times, rounds) in SIZES {
        println!("{pairs} pairs, {times} walks a run, {rounds} runs");
        for (way, name) in WAYS.iter().enumerate() {
            let job = Job::new(pairs, times, way as u64);
            compare(&job, rounds, RUNS)[0].print_median(name, (22, 7, 2), job.given() as f64);
        }
    }
}

// One run of a walk on each side, after the map was filled.
fn count_one(name: &str, job: Job) {
    count(&[(name, job.given())], &job, RUNS);
}

fn count_all() {
    for (way, name) in WAYS.iter().enumerate() {
        count_one(name, Job::new(1_000, 20, way as u64));
    }
}

fn count_misses() {
    count_one("iter", Job::new(200_000, 2, 0));
}

fn main() {
    start(&[("count", count_all), ("misses", count_misses)], print_times);
}
