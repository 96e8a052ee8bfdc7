//! Times the library's ordered map beside std's `BTreeMap` on the same random keys, after following both through a million calls.
//!
//! First all answers and lengths of the two are compared, call by call. Then each time is the best of some runs, the two maps in
//! turn, of the time between two marks of a job (`harness/phases.rs`).
//!
//! With the word `count` each job runs once at a thousand pairs, and with `misses` the calls on one key over 200,000, for `bench/instructions.py`.
mod harness;
mod jobs;

use harness::one_key::{self, CLEAR, DROPPED, FORM, GET, GIVE_OUT, INSERT, Job, LET_GO, REMOVE, Row, Run, run_std};
use harness::phases::{phases, weights};
use harness::{Keys, Random, mark, print_head, print_row, start, tell};
use jobs::{Step, bench_map_count, bench_map_follow, bench_map_put, bench_map_run};
use std::collections::BTreeMap;
use std::hint::black_box;

const CALLS_PER_BLOCK: usize = 100_000;
// Keys below, and inserts in a hundred of the inserts and removals of a block.
const BLOCKS: [(u64, u64); 10] = [
    (50_000, 50),
    (50_000, 90),
    (50_000, 10),
    (50_000, 100),
    (50_000, 3),
    (500, 50),
    (50, 20),
    (50_000, 70),
    (5_000, 30),
    (50_000, 50),
];
// Pairs, and rounds of runs.
const SIZES: [(usize, usize); 3] = [(1_000, 500), (100_000, 20), (1_000_000, 10)];

// A million random inserts and removals, and then a look-up of every key.
fn random_steps() -> Vec<Step> {
    let mut random = Random(11);
    let mut steps = Vec::new();
    let mut add = |call, key| {
        let value = steps.len() as u64;
        steps.push(Step {
            call,
            key,
            value,
            found: false,
            answer: 0,
            len: 0,
        });
    };
    for (keys, inserts) in BLOCKS {
        for _ in 0..CALLS_PER_BLOCK {
            let call = if random.below(100) < inserts { 0 } else { 1 };
            add(call, random.below(keys));
        }
    }
    (0..50_000).for_each(|key| add(2, key));
    steps
}

fn follow_std(steps: &mut [Step]) {
    let mut map = BTreeMap::new();
    for step in steps {
        let answer = match step.call {
            0 => map.insert(step.key, step.value),
            1 => map.remove(&step.key),
            _ => map.get(&step.key).copied(),
        };
        step.found = answer.is_some();
        step.answer = answer.unwrap_or(0);
        step.len = map.len();
    }
}

fn compare_answers() {
    let mut ours = random_steps();
    let mut stds = ours.clone();
    bench_map_follow(&mut ours);
    follow_std(&mut stds);
    let found = stds.iter().filter(|step| step.found).count();
    let longest = stds.iter().map(|step| step.len).max().unwrap();
    for (i, (our, std)) in ours.iter().zip(&stds).enumerate() {
        assert_eq!(our, std, "call {i}");
    }
    println!(
        "{} random calls answered alike ({found} found a value, up to {longest} pairs)",
        stds.len()
    );
}

#[inline(never)]
fn run_ours(job: &Job) -> u64 {
    bench_map_run(job.keys, job.sought, job.removed, job.way)
}

const RUNS: [Run; 2] = [run_ours, run_std];
const CALLS: [Row; 3] = [INSERT, GET, REMOVE];
const ROWS: [Row; 6] = [
    INSERT,
    GET,
    REMOVE,
    DROPPED,
    ("clear, a pair", 3, CLEAR),
    ("into_iter, a pair", 3, GIVE_OUT),
];

// Different keys of a count, and rounds of runs; each key comes ten times or so.
const COUNTS: [(u64, usize); 3] = [(1_000, 200), (100_000, 10), (1_000_000, 3)];

fn count_std(keys: &[u64]) -> usize {
    let mut map = BTreeMap::new();
    mark();
    for key in keys {
        *map.entry(*key).or_insert(0u64) += 1;
    }
    mark();
    map.len()
}

fn count_keys(different: u64) -> Vec<u64> {
    let mut random = Random(different);
    (0..10 * different).map(|_| random.below(different)).collect()
}

fn count(way: usize, keys: &[u64]) -> usize {
    match way {
        0 => bench_map_count(keys, true),
        1 => bench_map_count(keys, false),
        _ => count_std(keys),
    }
}

// Nanoseconds a key: ours by entries, ours by look-ups and insertions, std's by entries.
fn measure_counts(keys: &[u64], rounds: usize) -> [f64; 3] {
    let mut best = [f64::INFINITY; 3];
    for _ in 0..rounds {
        let mut lens = [0; 3];
        for way in 0..3 {
            let times = phases(|| lens[way] = count(way, black_box(keys)));
            best[way] = best[way].min(times[0] / keys.len() as f64);
        }
        assert!(lens[0] == lens[2] && lens[1] == lens[2]);
    }
    best
}

fn print_times() {
    print_head("nanoseconds, best of so many runs: ours / std's BTreeMap (ours as a multiple of std's)");
    for (pairs, rounds) in SIZES {
        let keys = Keys::new(pairs);
        println!("{pairs} pairs, {rounds} runs");
        one_key::print_times(&ROWS, &keys, rounds, RUNS);
        let held = RUNS.map(|run| {
            let bytes = weights(|| {
                run(&one_key::job(&keys, LET_GO));
            });
            bytes[0] as f64 / pairs as f64
        });
        print_row("bytes, a pair", FORM, held, held[0] / held[1]);
    }
    println!("counting keys, ten times each: by entries, then ours by get and try_insert");
    for (different, rounds) in COUNTS {
        let [entries, insertions, stds] = measure_counts(&count_keys(different), rounds);
        println!(
            "{different} keys, {rounds} runs: {entries:.1} / {stds:.1} ({:4.2}), {insertions:.1}",
            entries / stds
        );
    }
}

// Puts all keys into a map by their entries, made ready first or at once, or into std's.
fn put(who: usize, keys: &[u64], is_made_ready: bool) -> usize {
    if who == 1 {
        let mut map = BTreeMap::new();
        mark();
        for key in keys {
            map.entry(*key).or_insert(*key);
        }
        mark();
        return map.len();
    }
    bench_map_put(keys, is_made_ready)
}

// Calls over many pairs, once on each side.
fn count_misses() {
    let keys = Keys::new(200_000);
    for (who, run) in RUNS.into_iter().enumerate() {
        one_key::count(&CALLS, &keys, who, run);
    }
}

// Each job once on each side.
fn count_all() {
    let keys = Keys::new(1_000);
    let counted = count_keys(1_000);
    for (who, run) in RUNS.into_iter().enumerate() {
        one_key::count(&ROWS, &keys, who, run);
        tell(who, &[("entry, of keys that come ten times", counted.len())], || {
            black_box(count(2 * who, &counted));
        });
        for (name, is_made_ready) in [("new keys by entries", false), ("made ready first", true)] {
            tell(who, &[(name, keys.inserted.len())], || {
                black_box(put(who, &keys.inserted, is_made_ready));
            });
        }
    }
}

fn main() {
    start(&[("count", count_all), ("misses", count_misses)], || {
        compare_answers();
        print_times();
    });
}
