//! Times bounded reading into a new vector beside std's, from a source in memory, and compares what both read.
//!
//! Each time is the best of some runs, the two in turn, of the time that the calls took (`harness/phases.rs`).
mod harness;
mod jobs;

use harness::heap::keep_all;
use harness::{compare, mark, mixed, print_head};
use jobs::bench_map_read;
use std::hint::black_box;
use std::io::Read;

// Bytes that are read of as many more, calls a run, and rounds of runs.
const SIZES: [(usize, u64, usize); 3] = [(1_000, 1_000, 200), (100_000, 50, 100), (10_000_000, 2, 30)];
// How many bytes are read of these, and how often.
struct Job {
    bytes: Vec<u8>,
    limit: u64,
    times: u64,
}

#[inline(never)]
fn run_ours(job: &Job) -> u64 {
    bench_map_read(&job.bytes, job.limit, job.times)
}

#[inline(never)]
fn run_std(job: &Job) -> u64 {
    let mut seen = 0;
    mark();
    for _ in 0..job.times {
        let mut made = Vec::new();
        job.bytes.take(job.limit).read_to_end(&mut made).expect("bytes in memory");
        seen = mixed(seen, black_box(made).last().map(|byte| u64::from(*byte)));
    }
    mark();
    seen
}

fn main() {
    keep_all();
    print_head("nanoseconds a call, best of so many runs: ours / std's `read_to_end` of a `Take` (ours as a multiple of std's)");
    for (limit, times, rounds) in SIZES {
        let bytes: Vec<u8> = (0..2 * limit).map(|i| (i * 7 % 251) as u8).collect();
        let job = Job {
            bytes,
            limit: limit as u64,
            times,
        };
        println!("{limit} bytes, {rounds} runs of {times} calls");
        compare(&job, rounds, [run_ours, run_std])[0].print_least("read_into_try_vec", (17, 11, 0), times as usize);
    }
}
