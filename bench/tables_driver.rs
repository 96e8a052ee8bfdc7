//! Times calls on the library's table of rows beside one that a Rust programmer would write over std's: a `BTreeMap` of rows, and two `BTreeSet`s of second keys
//! with ids, kept by hand; and compares what both answer.
//!
//! Rows are put in at random ids, with a first key that some four have. Then all are looked up, ten rows are walked over from random first keys on, each row is
//! replaced by one with other keys, and all are taken out. With the word `count` each job runs once at each size, for `bench/instructions.py`.
mod harness;
mod jobs;

use harness::sizes::{self, count, print_times};
use harness::{Random, Runs, mark, mixed, start};
use jobs::bench_tables_run;
use std::collections::{BTreeMap, BTreeSet};

// How many rows have a first key, and how many a walk gives.
const OF_A_KEY: u64 = 4;
const WALK: usize = 10;

struct Job {
    ids: Vec<u64>,
    firsts: Vec<u64>,
    seconds: Vec<u64>,
    sought: Vec<u64>,
    keys: Vec<u64>,
    removed: Vec<u64>,
}

impl sizes::Job for Job {
    const ITEMS: &'static str = "rows";
    const SIZES: [(u64, usize); 2] = [(1_000, 200), (100_000, 10)];
    const RUNS: Runs<Job> = [run_ours, run_std];

    fn new(rows: u64) -> Job {
        let mut random = Random(rows);
        let ids: Vec<u64> = (0..rows).map(|_| random.next()).collect();
        let mut firsts = || -> Vec<u64> { (0..rows).map(|_| random.below(rows / OF_A_KEY)).collect() };
        let (firsts, keys) = (firsts(), firsts());
        let seconds = (0..rows).map(|_| random.next()).collect();
        let (sought, removed) = (random.shuffled(ids.clone()), random.shuffled(ids.clone()));
        Job {
            ids,
            firsts,
            seconds,
            sought,
            keys,
            removed,
        }
    }

    fn rows(&self) -> Vec<(&'static str, usize)> {
        let all = self.ids.len();
        ["insert of a row", "get of a row", "walk over ten rows", "replace of a row", "remove of a row"].map(|name| (name, all)).to_vec()
    }
}

#[inline(never)]
fn run_ours(job: &Job) -> u64 {
    bench_tables_run(&job.ids, &job.firsts, &job.seconds, &job.sought, &job.keys, &job.removed)
}

struct Row {
    first: u64,
    second: u64,
    value: u64,
}

fn checked(row: Row) -> u64 {
    row.first ^ row.second ^ row.value
}

#[derive(Default)]
struct Table {
    rows: BTreeMap<u64, Row>,
    firsts: BTreeSet<(u64, u64)>,
    seconds: BTreeSet<(u64, u64)>,
}

impl Table {
    fn insert(&mut self, id: u64, first: u64, second: u64, value: u64) -> Option<Row> {
        let old = self.rows.insert(id, Row { first, second, value });
        if let Some(old) = &old {
            self.firsts.remove(&(old.first, id));
            self.seconds.remove(&(old.second, id));
        }
        self.firsts.insert((first, id));
        self.seconds.insert((second, id));
        old
    }

    fn get(&self, id: u64) -> Option<&Row> {
        self.rows.get(&id)
    }

    fn from_first(&self, key: u64) -> impl Iterator<Item = &(u64, u64)> {
        self.firsts.range((key, 0)..)
    }

    fn remove(&mut self, id: u64) -> Option<Row> {
        let row = self.rows.remove(&id)?;
        self.firsts.remove(&(row.first, id));
        self.seconds.remove(&(row.second, id));
        Some(row)
    }
}

fn insert_all(table: &mut Table, ids: &[u64], firsts: &[u64], seconds: &[u64], checksum: u64) -> u64 {
    let rows = ids.iter().zip(firsts).zip(seconds);
    rows.fold(checksum, |seen, ((id, first), second)| mixed(seen, table.insert(*id, *first, *second, *second).map(checked)))
}

#[inline(never)]
fn run_std(job: &Job) -> u64 {
    let mut table = Table::default();
    mark();
    let mut checksum = insert_all(&mut table, &job.ids, &job.firsts, &job.seconds, 0);
    mark();
    for id in &job.sought {
        checksum = mixed(checksum, table.get(*id).map(|row| row.value));
    }
    mark();
    for key in &job.keys {
        for (first, id) in table.from_first(*key).take(WALK) {
            checksum = mixed(checksum, Some(first ^ id));
        }
    }
    mark();
    checksum = insert_all(&mut table, &job.sought, &job.seconds, &job.firsts, checksum);
    mark();
    for id in &job.removed {
        checksum = mixed(checksum, table.remove(*id).map(checked));
    }
    mark();
    checksum
}

fn main() {
    start(&[("count", count::<Job>)], print_times::<Job>);
}
