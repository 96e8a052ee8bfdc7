//! Times calls that fill vectors beside those of std's `Vec`, and compares what both hold last.
//!
//! Each time is the best of some runs, the two vectors in turn, of the time that the calls took (`harness/phases.rs`).
mod harness;
mod jobs;

use harness::heap::keep_all;
use harness::{compare, mark, mixed, print_head};
use jobs::{bench_map_copy_bytes, bench_map_push_numbers};
use std::hint::black_box;

// Items, calls a run, and rounds of runs.
const SIZES: [(usize, u64, usize); 2] = [(1_000, 1_000, 200), (1_000_000, 5, 60)];
#[derive(Clone, Copy)]
enum Call {
    // By that way of the library's (`bench_map_copy_bytes`).
    Copy(u64),
    Push,
}

// A call, made so often of as many items as there are bytes.
struct Job<'a> {
    call: Call,
    bytes: &'a [u8],
    times: u64,
}

const CALLS: [(&str, Call); 5] = [
    ("try_extend_from_slice, bytes", Call::Copy(0)),
    ("TryVec::extend_from_slice, bytes", Call::Copy(1)),
    ("TryVec::try_from_slice, bytes", Call::Copy(2)),
    ("try_clone, bytes", Call::Copy(3)),
    ("TryVec::push, u64", Call::Push),
];

#[inline(never)]
fn run_ours(job: &Job) -> u64 {
    match job.call {
        Call::Copy(way) => bench_map_copy_bytes(job.bytes, way, job.times),
        Call::Push => bench_map_push_numbers(job.bytes.len() as u64, job.times),
    }
}

fn copied(source: &Vec<u8>, way: u64) -> Vec<u8> {
    match way {
        0 | 1 => {
            let mut made = Vec::new();
            made.try_reserve(source.len()).expect("room");
            made.extend_from_slice(source);
            made
        }
        2 => source.as_slice().to_vec(),
        _ => source.clone(),
    }
}

fn pushed(count: usize) -> Vec<u64> {
    let mut made = Vec::new();
    for number in 0..count as u64 {
        made.try_reserve(1).expect("room");
        made.push(number);
    }
    made
}

#[inline(never)]
fn run_std(job: &Job) -> u64 {
    let source = job.bytes.to_vec();
    let mut seen = 0;
    mark();
    for _ in 0..job.times {
        let last = match job.call {
            Call::Copy(way) => black_box(copied(&source, way))
                .last()
                .map(|byte| u64::from(*byte)),
            Call::Push => black_box(pushed(job.bytes.len())).last().copied(),
        };
        seen = mixed(seen, last);
    }
    mark();
    seen
}

const RUNS: [fn(&Job) -> u64; 2] = [run_ours, run_std];

fn main() {
    keep_all();
    print_head("nanoseconds a call, best of so many runs: ours / std's Vec (ours as a multiple of std's)");
    for (count, times, rounds) in SIZES {
        println!("{count} items, {rounds} runs of {times} calls");
        let bytes: Vec<u8> = (0..count).map(|i| (i * 7 % 251) as u8).collect();
        for (name, call) in CALLS {
            let job = Job {
                call,
                bytes: &bytes,
                times,
            };
            compare(&job, rounds, RUNS)[0].print_least(name, (33, 9, 0), times as usize);
        }
    }
}
