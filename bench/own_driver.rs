//! Times the toolchain's own ordered map beside std's `BTreeMap` on random keys, as `map_driver.rs` does the library's.
//!
//! With the word `count` each job runs once at a thousand pairs, for `bench/own.py`.
mod harness;
mod jobs;

use harness::one_key::{self, DROPPED, GET, INSERT, Job, REMOVE, Row, Run, run_std};
use harness::{Keys, machine, start};
use jobs::bench_own_run;

// Pairs, and rounds of runs.
const SIZES: [(usize, usize); 3] = [(1_000, 500), (100_000, 20), (1_000_000, 6)];
const ROWS: [Row; 4] = [INSERT, GET, REMOVE, DROPPED];
const RUNS: [Run; 2] = [run_own, run_std];

// Its job drops the map in each case.
#[inline(never)]
fn run_own(job: &Job) -> u64 {
    bench_own_run(job.keys, job.sought, job.removed)
}

fn print_times() {
    println!("the toolchain's own map / std's, best of so many runs; {}", machine());
    for (pairs, rounds) in SIZES {
        println!("nanoseconds, {pairs} pairs");
        one_key::print_times(&ROWS, &Keys::new(pairs), rounds, RUNS);
    }
}

fn count() {
    let keys = Keys::new(1_000);
    for (who, run) in RUNS.into_iter().enumerate() {
        one_key::count(&ROWS, &keys, who, run);
    }
}

fn main() {
    start(&[("count", count)], print_times);
}
