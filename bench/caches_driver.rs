//! Times calls on the library's cache beside one that a Rust programmer would write over std's `HashMap` with the same hasher, from keys to places of a `Vec` in
//! which links make a ring, and beside the toolchain's `LruCache`, and compares what both answer.
//!
//! A cache is filled; then as many other keys are put in, each of which evicts one, and all are looked up at random, then as many keys that are not there.
//! With the word `count` each job runs once at each size, for `bench/instructions.py`.
mod harness;
mod jobs;

use harness::sizes::{self, count, print_times};
use harness::{Folded, Random, Runs, mark, mixed, start};
use jobs::{bench_caches_run, bench_lru_run};
use std::collections::HashMap;
use std::hash::BuildHasherDefault;
use std::marker::PhantomData;

struct Job<B> {
    keys: Vec<u64>,
    others: Vec<u64>,
    sought: Vec<u64>,
    missing: Vec<u64>,
    beside: PhantomData<B>,
}

/// What the cache is measured beside, and how its rows are named.
trait Beside: 'static {
    const ROWS: [&'static str; 5];

    fn run(job: &Job<Self>) -> u64
    where
        Self: Sized;
}

impl<B: Beside> sizes::Job for Job<B> {
    const ITEMS: &'static str = "entries";
    const SIZES: [(u64, usize); 2] = [(1_000, 200), (100_000, 10)];
    const RUNS: Runs<Job<B>> = [run_ours, B::run];

    fn new(entries: u64) -> Job<B> {
        let mut random = Random(entries);
        let mut keys = || -> Vec<u64> { (0..entries).map(|_| random.next()).collect() };
        let (keys, others, missing) = (keys(), keys(), keys());
        let sought = random.shuffled(others.clone());
        Job {
            keys,
            others,
            sought,
            missing,
            beside: PhantomData,
        }
    }

    fn rows(&self) -> Vec<(&'static str, usize)> {
        let all = self.keys.len();
        B::ROWS.map(|name| (name, all)).to_vec()
    }
}

#[inline(never)]
fn run_ours<B>(job: &Job<B>) -> u64 {
    bench_caches_run(&job.keys, &job.others, &job.sought, &job.missing, job.keys.len())
}

// The place of no entry, at which the ring of links begins and ends.
const ENDS: usize = 0;

struct Entry {
    key: u64,
    value: u64,
    cost: usize,
    previous: usize,
    next: usize,
}

struct Cache {
    places: HashMap<u64, usize, BuildHasherDefault<Folded>>,
    entries: Vec<Entry>,
    vacant: Vec<usize>,
    used: usize,
    budget: usize,
}

impl Cache {
    fn new(budget: usize) -> Cache {
        let ends = Entry {
            key: 0,
            value: 0,
            cost: 0,
            previous: ENDS,
            next: ENDS,
        };
        Cache {
            places: HashMap::default(),
            entries: vec![ends],
            vacant: Vec::new(),
            used: 0,
            budget,
        }
    }

    fn join(&mut self, previous: usize, next: usize) {
        self.entries[previous].next = next;
        self.entries[next].previous = previous;
    }

    fn unlink(&mut self, place: usize) {
        self.join(self.entries[place].previous, self.entries[place].next);
    }

    fn link_last(&mut self, place: usize) {
        self.join(self.entries[ENDS].previous, place);
        self.join(place, ENDS);
    }

    // The entry of a place whose key is not found any more.
    fn take(&mut self, place: usize) -> (u64, u64) {
        self.unlink(place);
        self.vacant.push(place);
        self.used -= self.entries[place].cost;
        (self.entries[place].key, self.entries[place].value)
    }

    fn get(&mut self, key: u64) -> Option<u64> {
        let place = *self.places.get(&key)?;
        self.unlink(place);
        self.link_last(place);
        Some(self.entries[place].value)
    }

    fn pop_oldest(&mut self) -> Option<(u64, u64)> {
        let place = self.entries[ENDS].next;
        if place == ENDS {
            return None;
        }
        self.places.remove(&self.entries[place].key);
        Some(self.take(place))
    }

    // False where the entry costs more than the budget.
    fn put(&mut self, key: u64, value: u64, cost: usize) -> bool {
        if cost > self.budget {
            return false;
        }
        if let Some(place) = self.places.remove(&key) {
            self.take(place);
        }
        while self.used + cost > self.budget {
            self.pop_oldest();
        }
        let entry = Entry {
            key,
            value,
            cost,
            previous: ENDS,
            next: ENDS,
        };
        let place = match self.vacant.pop() {
            Some(place) => {
                self.entries[place] = entry;
                place
            }
            None => {
                self.entries.push(entry);
                self.entries.len() - 1
            }
        };
        self.link_last(place);
        self.places.insert(key, place);
        self.used += cost;
        true
    }
}

impl Beside for Cache {
    const ROWS: [&'static str; 5] = ["put into one with room", "put into a full one", "get that hits", "get that misses", "pop_oldest"];

    fn run(job: &Job<Cache>) -> u64 {
        run_std(job)
    }
}

/// The toolchain's cache, which counts entries, and no costs.
struct Lru;

impl Beside for Lru {
    const ROWS: [&'static str; 5] = [
        "put into one with room beside LruCache",
        "put into a full one beside LruCache",
        "get that hits beside LruCache",
        "get that misses beside LruCache",
        "pop_oldest beside LruCache",
    ];

    fn run(job: &Job<Lru>) -> u64 {
        bench_lru_run(&job.keys, &job.others, &job.sought, &job.missing, job.keys.len())
    }
}

#[inline(never)]
fn run_std(job: &Job<Cache>) -> u64 {
    let mut cache = Cache::new(job.keys.len());
    let mut checksum = 0;
    mark();
    for key in &job.keys {
        assert!(cache.put(*key, *key, 1));
    }
    mark();
    for key in &job.others {
        assert!(cache.put(*key, *key, 1));
    }
    mark();
    for key in &job.sought {
        checksum = mixed(checksum, cache.get(*key));
    }
    mark();
    for key in &job.missing {
        checksum = mixed(checksum, cache.get(*key));
    }
    mark();
    while let Some((key, value)) = cache.pop_oldest() {
        checksum = mixed(checksum, Some(key ^ value));
    }
    mark();
    checksum
}

fn count_all() {
    count::<Job<Cache>>();
    count::<Job<Lru>>();
}

fn print_all() {
    print_times::<Job<Cache>>();
    print_times::<Job<Lru>>();
}

fn main() {
    start(&[("count", count_all)], print_all);
}
