//! Times loads of the library's ordered map by `try_from_iterator`, and `append`, beside those of std's `BTreeMap`, and compares what both then hold.
//!
//! A time is the best of some runs, the two maps in turn, of the time that a phase took (`harness/phases.rs`); a multiple is the median of those that each
//! round gave (`harness/rounds.rs`). To each load belong the first walk over all pairs, walks in a row, and the bytes that a pair takes. With the word `loads`
//! or `append` that part is measured alone, at the sizes after it or at all; with `count` each job runs at a thousand pairs, for `bench/instructions.py`.
mod harness;
mod jobs;

use harness::phases::weights;
use harness::rounds::Compared;
use harness::{Form, Random, Runs, chosen, compare, mark, mixed, print_head, print_row, start, tell_second, tell_second_of};
use jobs::{bench_kinds_append, bench_kinds_load};
use std::collections::BTreeMap;
use std::hint::black_box;

// Pairs, and rounds of runs.
const SIZES: [(usize, usize); 3] = [(1_000, 400), (100_000, 40), (1_000_000, 11)];
const FORM: Form = (44, 7, 1);
// So many pairs all walks in a row give, but no more walks than 400.
const WALKED: usize = 4_000_000;
const MOST_WALKS: usize = 400;
// Of fewer pairs it tells what blocks the allocator keeps for the next requests and counts as held.
const LEAST_WEIGHED: usize = 100_000;

// Keys in the order that they are loaded in, and how many walks follow in a row.
struct Load {
    order: &'static str,
    keys: Vec<u64>,
    walks: usize,
}

impl Load {
    // What each phase is called, and how many pairs it takes or gives.
    fn rows(&self) -> [(String, usize); 3] {
        let pairs = self.keys.len();
        let named = |name| format!("{name}, {}", self.order);
        [(named("try_from_iterator"), pairs), (named("first walk"), pairs), (named("walks in a row"), pairs * self.walks)]
    }
}

fn walk(map: &BTreeMap<u64, u64>, start: u64) -> u64 {
    let mut checksum = start;
    for (key, value) in map {
        checksum = mixed(checksum, Some(key ^ value));
    }
    checksum
}

#[inline(never)]
fn load_ours(load: &Load) -> u64 {
    bench_kinds_load(&load.keys, load.walks as u64)
}

#[inline(never)]
fn load_std(load: &Load) -> u64 {
    mark();
    let map: BTreeMap<u64, u64> = load.keys.iter().map(|key| (*key, *key)).collect();
    mark();
    let seen = walk(&map, 0);
    mark();
    let seen = (0..load.walks).fold(seen, |seen, _| walk(&map, seen));
    mark();
    seen
}

fn loads(pairs: usize) -> Vec<Load> {
    let ascending: Vec<u64> = (0..pairs as u64).collect();
    let mut random = Random(pairs as u64);
    let mut moved = ascending.clone();
    for _ in 0..pairs / 200 {
        moved.swap(random.below(pairs as u64) as usize, random.below(pairs as u64) as usize);
    }
    let orders = [
        ("ascending", ascending.clone()),
        ("random", random.shuffled(ascending.clone())),
        ("descending", ascending.iter().rev().copied().collect()),
        ("two runs", ascending.iter().step_by(2).chain(ascending.iter().skip(1).step_by(2)).copied().collect()),
        ("one in 100 out of place", moved),
    ];
    let walks = (WALKED / pairs).min(MOST_WALKS);
    orders.into_iter().map(|(order, keys)| Load { order, keys, walks }).collect()
}

// The keys of two maps.
struct Append {
    name: &'static str,
    keys: Vec<u64>,
    others: Vec<u64>,
}

#[inline(never)]
fn append_ours(job: &Append) -> u64 {
    bench_kinds_append(&job.keys, &job.others)
}

fn filled(keys: &[u64]) -> BTreeMap<u64, u64> {
    let mut map = BTreeMap::new();
    for key in keys {
        map.insert(*key, *key);
    }
    map
}

#[inline(never)]
fn append_std(job: &Append) -> u64 {
    let mut map = filled(&job.keys);
    let mut other = filled(&job.others);
    mark();
    map.append(&mut other);
    mark();
    walk(&map, other.len() as u64)
}

// Random insertions make both maps of each.
fn appends(pairs: usize) -> Vec<Append> {
    let pairs = pairs as u64;
    let mut random = Random(pairs);
    let mut made = |name, is_other: &dyn Fn(u64) -> bool| {
        let (others, keys) = (0..pairs).partition(|key| is_other(*key));
        Append { name, keys: random.shuffled(keys), others: random.shuffled(others) }
    };
    vec![
        made("append, interleaved", &|key| key % 2 == 1),
        made("append, ten blocks into ten", &|key| key * 20 / pairs % 2 == 1),
        made("append, one in 16", &|key| key % 16 == 0),
        made("append, one in a thousand", &|key| key % 1_000 == 500),
    ]
}

const LOADS: Runs<Load> = [load_ours, load_std];
const APPENDS: Runs<Append> = [append_ours, append_std];

// Bytes a pair after the load, on each side.
fn held(load: &Load) -> [f64; 2] {
    let once = Load {
        walks: 0,
        keys: load.keys.clone(),
        ..*load
    };
    LOADS.map(|run| weights(|| _ = black_box(run(&once)))[0] as f64 / load.keys.len() as f64)
}

// A row of each load for one phase.
fn print_phase(phase: usize, loads: &[Load], compared: &[Vec<Compared>]) {
    for (load, compared) in loads.iter().zip(compared) {
        let (name, pairs) = &load.rows()[phase];
        compared[phase].print_median(name, FORM, *pairs as f64);
    }
}

fn print_bytes(loads: &[Load]) {
    for load in loads.iter().filter(|load| load.keys.len() >= LEAST_WEIGHED) {
        let bytes = held(load);
        print_row(&format!("bytes, {}", load.order), FORM, bytes, bytes[0] / bytes[1]);
    }
}

fn print_loads() {
    print_head("nanoseconds a pair, best of so many runs: ours / std's BTreeMap (the median of ours as a multiple of std's)");
    for (pairs, rounds) in chosen(SIZES) {
        println!("{pairs} pairs, {rounds} runs");
        let loads = loads(pairs);
        let compared: Vec<Vec<Compared>> = loads.iter().map(|load| compare(load, rounds, LOADS)).collect();
        (0..3).for_each(|phase| print_phase(phase, &loads, &compared));
        print_bytes(&loads);
    }
}

fn print_appends() {
    print_head("nanoseconds a pair of the whole, best of so many runs: ours / std's BTreeMap (the median of ours as a multiple of std's)");
    for (pairs, rounds) in chosen(SIZES) {
        println!("{pairs} pairs, {rounds} runs");
        for job in appends(pairs) {
            compare(&job, rounds, APPENDS)[0].print_median(job.name, FORM, pairs as f64);
        }
    }
}

// Each job on one side, at a thousand pairs.
fn count_on(who: usize) {
    let pairs = 1_000;
    for load in loads(pairs) {
        let once = Load { walks: 0, ..load };
        tell_second_of(who, &once.rows()[0].0, pairs, 3, || LOADS[who](&once));
    }
    for job in appends(pairs) {
        tell_second(who, job.name, pairs, || APPENDS[who](&job));
    }
}

fn main() {
    let parts: [(&str, fn()); 3] = [("loads", print_loads), ("append", print_appends), ("count", || (0..2).for_each(count_on))];
    start(&parts, || {
        print_loads();
        print_appends();
    });
}
