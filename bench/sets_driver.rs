//! Times the library's ordered set beside std's `BTreeSet` on the same numbers, and compares what both gave: the six calls on one item,
//! walks over all items, the four lazy operations, and a union that is built.
//!
//! A time is the best of some runs, the two sets in turn, of the time of a phase (`harness/phases.rs`); a multiple is the median of those that
//! each round gave (`harness/rounds.rs`).
//!
//! With the word `count` each walk runs once over two sets of a thousand, for `bench/instructions.py`.
mod harness;
mod jobs;

use harness::{Form, Random, Runs, compare, count, mark, mixed, print_head, start};
use jobs::{bench_set_run, bench_set_walk};
use std::collections::BTreeSet;

// Items, and rounds of runs.
const SIZES: [(u64, usize); 3] = [(1_000, 300), (100_000, 12), (1_000_000, 5)];
// How a row is printed.
const FORM: Form = (22, 8, 2);
const CALLS: [&str; 6] = ["try_insert", "contains", "get", "replace", "take", "remove"];
const WAYS: [&str; 9] = [
    "iter of the first",
    "difference",
    "symmetric difference",
    "intersection",
    "union",
    "bitor, built",
    "sub, built",
    "bitxor, built",
    "bitand, built",
];
// Items of a set beside a small one, and of that one.
const LARGE: u64 = 100_000;
const SMALL: u64 = 100;
// Items of each of two sets that have half of them in common, walks a run, and rounds of runs.
const HALVES: [(u64, u64, usize); 2] = [(1_000, 400, 60), (100_000, 20, 20)];

struct Calls {
    items: Vec<u64>,
    sought: Vec<u64>,
    taken: Vec<u64>,
    removed: Vec<u64>,
}

#[inline(never)]
fn call_ours(job: &Calls) -> u64 {
    bench_set_run(&job.items, &job.sought, &job.taken, &job.removed)
}

#[inline(never)]
fn call_std(job: &Calls) -> u64 {
    let mut set = BTreeSet::new();
    mark();
    let mut seen = 0;
    for item in &job.items {
        seen = mixed(seen, Some(set.insert(*item) as u64));
    }
    mark();
    for item in &job.sought {
        seen = mixed(seen, Some(set.contains(item) as u64));
    }
    mark();
    for item in &job.sought {
        seen = mixed(seen, set.get(item).copied());
    }
    mark();
    for item in &job.items {
        seen = mixed(seen, set.replace(*item));
    }
    mark();
    for item in &job.taken {
        seen = mixed(seen, set.take(item));
    }
    mark();
    for item in &job.removed {
        seen = mixed(seen, Some(set.remove(item) as u64));
    }
    mark();
    seen
}

struct Walks {
    items: Vec<u64>,
    others: Vec<u64>,
    way: u64,
    times: u64,
}

#[inline(never)]
fn walk_ours(job: &Walks) -> u64 {
    bench_set_walk(&job.items, &job.others, job.way, job.times)
}

fn mixed_all<'a>(start: u64, items: impl Iterator<Item = &'a u64>) -> u64 {
    let mut seen = start;
    for item in items {
        seen = mixed(seen, Some(*item));
    }
    seen
}

#[inline(never)]
fn walk_std(job: &Walks) -> u64 {
    let (mut set, mut other) = (BTreeSet::new(), BTreeSet::new());
    let mut seen = 0;
    for item in &job.items {
        seen = mixed(seen, Some(set.insert(*item) as u64));
    }
    for item in &job.others {
        other.insert(*item);
    }
    mark();
    for _ in 0..job.times {
        seen = match job.way {
            0 => mixed_all(seen, set.iter()),
            1 => mixed_all(seen, set.difference(&other)),
            2 => mixed_all(seen, set.symmetric_difference(&other)),
            3 => mixed_all(seen, set.intersection(&other)),
            4 => mixed_all(seen, set.union(&other)),
            5 => mixed(seen, Some((&set | &other).len() as u64)),
            6 => mixed(seen, Some((&set - &other).len() as u64)),
            7 => mixed(seen, Some((&set ^ &other).len() as u64)),
            _ => mixed(seen, Some((&set & &other).len() as u64)),
        };
    }
    mark();
    seen
}

fn measure_calls(count: u64, rounds: usize) {
    let mut random = Random(count);
    let items = random.shuffled((0..count).map(|i| 2 * i).collect());
    let sought = random.shuffled((0..2 * count).collect());
    let mut gone = random.shuffled(items.clone());
    let removed = gone.split_off(gone.len() / 2);
    let counts = [items.len(), sought.len(), sought.len(), items.len(), gone.len(), removed.len()];
    let job = Calls {
        items,
        sought,
        taken: gone,
        removed,
    };
    println!("{count} items, {rounds} runs: nanoseconds a call");
    let phases = compare(&job, rounds, [call_ours, call_std]);
    for ((name, phase), count) in CALLS.iter().zip(&phases).zip(counts) {
        phase.print_median(name, FORM, count as f64);
    }
}

const RUNS: Runs<Walks> = [walk_ours, walk_std];

fn measure_walks(title: &str, items: Vec<u64>, others: Vec<u64>, times: u64, rounds: usize) {
    println!("{title}, {times} walks a run, {rounds} runs: microseconds a walk");
    for (way, name) in WAYS.iter().enumerate() {
        let job = Walks {
            items: items.clone(),
            others: others.clone(),
            way: way as u64,
            times,
        };
        compare(&job, rounds, RUNS)[0].print_median(name, FORM, times as f64 * 1000.0);
    }
}

fn shuffled(items: Vec<u64>) -> Vec<u64> {
    Random(1).shuffled(items)
}

// The items of two sets of so many: half of each are the other's too, and which these are is random.
fn halves(count: u64) -> (Vec<u64>, Vec<u64>) {
    let all = shuffled((0..count + count / 2).collect());
    let half = count as usize / 2;
    (all[..2 * half].to_vec(), all[half..].to_vec())
}

fn print_times() {
    print_head("time, best of so many runs: ours / std's BTreeSet (the median of ours as a multiple of std's)");
    for (count, rounds) in SIZES {
        measure_calls(count, rounds);
    }
    for (count, times, rounds) in HALVES {
        let (items, others) = halves(count);
        let title = format!("{count} items beside {count}, half in common");
        measure_walks(&title, items, others, times, rounds);
    }
    let few = shuffled((0..SMALL).map(|i| i * (LARGE / SMALL)).collect());
    measure_walks("100 items beside 100000", few, shuffled((0..LARGE).collect()), 400, 8);
}

// Each walk once on each side, over two sets of a thousand with half in common.
fn count_all() {
    let (items, others) = halves(1_000);
    let given = [1_000, 500, 1_000, 500, 1_500, 1_500, 500, 1_000, 500];
    for (way, name) in WAYS.iter().enumerate() {
        let job = Walks {
            items: items.clone(),
            others: others.clone(),
            way: way as u64,
            times: 20,
        };
        count(&[(*name, 20 * given[way])], &job, RUNS);
    }
}

fn main() {
    start(&[("count", count_all)], print_times);
}
