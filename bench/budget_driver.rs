//! Makes each job over a map in a budget, and over one at `Global`, once at a thousand pairs with the word `count`, for `bench/instructions.py`: what that calls
//! std's is here ours at `Global`. Without the word it prints how many bytes the maps hold.
mod harness;
mod jobs;

use harness::one_key::{self, DROPPED, FORM, GET, INSERT, Job, LET_GO, REMOVE, Row, Run};
use harness::phases::weights;
use harness::{Keys, Random, print_row, start, tell, tell_second};
use jobs::{bench_budget_run, bench_budget_walk, bench_budget_whole};
use std::hint::black_box;

const PAIRS: u64 = 1_000;
const SIZES: [usize; 3] = [1_000, 100_000, 1_000_000];
const WALKS: u64 = 20;
const ROWS: [Row; 4] = [INSERT, GET, REMOVE, DROPPED];
const APPEND: u64 = 0;
const CLONE: u64 = 1;
const RUNS: [Run; 2] = [|job| run(job, true), |job| run(job, false)];

#[inline(never)]
fn run(job: &Job, is_in_budget: bool) -> u64 {
    bench_budget_run(job.keys, job.sought, job.removed, job.way, is_in_budget)
}

fn count() {
    let mut random = Random(PAIRS);
    let mut shuffled = |keys| random.shuffled(keys);
    let keys = Keys::new(PAIRS as usize);
    let all = shuffled((0..PAIRS).collect());
    let even = shuffled((0..PAIRS / 2).map(|key| 2 * key).collect());
    let odd = shuffled((0..PAIRS / 2).map(|key| 2 * key + 1).collect());
    for (who, run) in RUNS.into_iter().enumerate() {
        let is_in_budget = who == 0;
        one_key::count(&ROWS, &keys, who, run);
        tell(who, &[("iter", (WALKS * PAIRS) as usize)], || {
            black_box(bench_budget_walk(&all, WALKS, is_in_budget));
        });
        let wholes: [(&str, &[u64], &[u64], u64); 2] = [
            ("append, interleaved", &even, &odd, APPEND),
            ("try_clone", &all, &[], CLONE),
        ];
        for (name, keys, others, way) in wholes {
            tell_second(who, name, PAIRS as usize, || {
                bench_budget_whole(keys, others, way, is_in_budget)
            });
        }
    }
}

// What the maps hold once all keys are in. Nothing is given back, and each is made twice, so the second finds no blocks that the allocator has left over.
fn print_bytes() {
    println!("bytes, of the allocator's blocks with their heads: in a budget / at Global (in a budget as a multiple)");
    for pairs in SIZES {
        let keys = Keys::new(pairs);
        let job = Job {
            keys: &keys.inserted,
            sought: &[],
            removed: &[],
            way: LET_GO,
        };
        let [budget, global] = RUNS.map(|run| {
            let weigh = || weights(|| _ = run(&job))[0];
            weigh();
            weigh() as f64 / pairs as f64
        });
        println!("{pairs} pairs");
        print_row("bytes, a pair", FORM, [budget, global], budget / global);
    }
}

fn main() {
    start(&[("count", count)], print_bytes);
}
