//! Times calls on the library's ordered map beside std's `BTreeMap`: on other keys and values than numbers, and on numbers by entries and ranges; and compares
//! what both answer.
//!
//! A time is the best of some runs, the two maps in turn, of the time that a phase took (`harness/phases.rs`); a multiple is the median of those that each
//! round gave (`harness/rounds.rs`). "insert again" is that of keys that are there. With the word `kinds` or `entries` that part is measured alone, at the
//! sizes after it or at all, and with `depths` the stack that calls take; with `count` each job runs at a thousand pairs, for `bench/instructions.py`.
mod harness;
mod jobs;

use harness::items::{BEGINNING, Key, Value};
use harness::phases::depths;
use harness::{Form, Keys, Runs, chosen, compare, mark, mixed, print_head, print_row, start, tell};
use jobs::{bench_kinds_entries, bench_kinds_run};
use std::collections::BTreeMap;
use std::collections::btree_map::Entry;
use std::hint::black_box;

// Pairs, and rounds of runs.
const SIZES: [(usize, usize); 2] = [(1_000, 200), (100_000, 20)];
const FORM: Form = (44, 7, 1);
const NUMBERS: u64 = 0;
const VALUES_OF_256_BYTES: u64 = 6;
const KINDS: [&str; 7] = [
    "numbers",
    "texts",
    "texts with 31 bytes in common",
    "two numbers as a key",
    "values of 0 bytes",
    "values of 64 bytes",
    "values of 256 bytes",
];
const CALLS: [&str; 4] = ["insert", "insert again", "get", "remove"];

#[inline(never)]
fn insert_all<K: Key, V: Value>(map: &mut BTreeMap<K, V>, keys: Vec<K>, start: u64) -> u64 {
    keys.into_iter().fold(start, |seen, key| {
        let value = V::of(key.number());
        mixed(seen, map.insert(key, value).map(|old| old.number()))
    })
}

#[inline(never)]
fn get_all<K: Key, V: Value>(map: &BTreeMap<K, V>, keys: &[K], start: u64) -> u64 {
    keys.iter().fold(start, |seen, key| mixed(seen, map.get(key).map(V::number)))
}

#[inline(never)]
fn remove_all<K: Key, V: Value>(map: &mut BTreeMap<K, V>, keys: &[K], start: u64) -> u64 {
    keys.iter().fold(start, |seen, key| mixed(seen, map.remove(key).map(|old| old.number())))
}

fn run_map<K: Key, V: Value>(beginning: &str, keys: &Keys) -> u64 {
    let made = |numbers: &[u64]| -> Vec<K> { numbers.iter().map(|number| K::of(beginning, *number)).collect() };
    let (new, again) = (made(&keys.inserted), made(&keys.removed));
    let (asked, gone) = (made(&keys.sought), made(&keys.removed));
    let mut map: BTreeMap<K, V> = BTreeMap::new();
    mark();
    let inserted = insert_all(&mut map, new, 0);
    mark();
    let replaced = insert_all(&mut map, again, inserted);
    mark();
    let found = get_all(&map, &asked, replaced);
    mark();
    let taken = remove_all(&mut map, &gone, found);
    mark();
    taken
}

// A map of one kind, with these keys.
struct Job<'a> {
    kind: u64,
    keys: &'a Keys,
}

impl Job<'_> {
    // What each phase is called, or nothing where other drivers measure it too, and of how many calls it is.
    fn rows(&self) -> Vec<(String, usize)> {
        let name = KINDS[self.kind as usize];
        let named = |call: &str| match (self.kind, call) {
            (NUMBERS, "insert" | "get" | "remove") => String::new(),
            _ => format!("{name}: {call}"),
        };
        let calls = |call| if call == "get" { self.keys.sought.len() } else { self.keys.inserted.len() };
        CALLS.iter().map(|call| (named(call), calls(*call))).collect()
    }
}

#[inline(never)]
fn run_ours(job: &Job) -> u64 {
    bench_kinds_run(&job.keys.inserted, &job.keys.sought, &job.keys.removed, job.kind)
}

#[inline(never)]
fn run_std(job: &Job) -> u64 {
    match job.kind {
        1 => run_map::<String, [u64; 1]>("", job.keys),
        2 => run_map::<String, [u64; 1]>(BEGINNING, job.keys),
        3 => run_map::<(u64, u64), [u64; 1]>("", job.keys),
        4 => run_map::<u64, [u64; 0]>("", job.keys),
        5 => run_map::<u64, [u64; 8]>("", job.keys),
        6 => run_map::<u64, [u64; 32]>("", job.keys),
        _ => run_map::<u64, [u64; 1]>("", job.keys),
    }
}

const ENTRIES: [&str; 3] = ["new keys by entries", "entries of keys that are there", "range(k..) of ten pairs"];

#[inline(never)]
fn enter_ours(keys: &Keys) -> u64 {
    bench_kinds_entries(&keys.inserted, &keys.removed, &keys.inserted)
}

#[inline(never)]
fn enter_std(keys: &Keys) -> u64 {
    let mut map = BTreeMap::new();
    mark();
    for key in &keys.inserted {
        if let Entry::Vacant(gap) = map.entry(*key) {
            gap.insert(*key);
        }
    }
    mark();
    for key in &keys.removed {
        let value: &mut u64 = map.entry(*key).or_insert(0);
        *value = value.wrapping_add(1);
    }
    mark();
    let mut checksum = map.len() as u64;
    for from in &keys.inserted {
        for (key, value) in map.range(from..).take(10) {
            checksum = mixed(checksum, Some(key ^ value));
        }
    }
    mark();
    checksum
}

const RUNS: [fn(&Job) -> u64; 2] = [run_ours, run_std];
const ENTRY_RUNS: Runs<Keys> = [enter_ours, enter_std];

fn print_kind(job: &Job, rounds: usize) {
    for (phase, (name, calls)) in compare(job, rounds, RUNS).iter().zip(job.rows()) {
        if !name.is_empty() {
            phase.print_median(&name, FORM, calls as f64);
        }
    }
}

fn print_kinds(keys: &Keys, rounds: usize) {
    (0..KINDS.len() as u64).for_each(|kind| print_kind(&Job { kind, keys }, rounds));
}

fn print_entries(keys: &Keys, rounds: usize) {
    for (phase, name) in compare(keys, rounds, ENTRY_RUNS).iter().zip(ENTRIES) {
        phase.print_median(name, FORM, keys.inserted.len() as f64);
    }
}

fn print_parts(parts: &[fn(&Keys, usize)]) {
    print_head("nanoseconds a call, best of so many runs: ours / std's BTreeMap (the median of ours as a multiple of std's)");
    for (pairs, rounds) in chosen(SIZES) {
        println!("{pairs} pairs, {rounds} runs");
        let keys = Keys::new(pairs);
        parts.iter().for_each(|print| print(&keys, rounds));
    }
}

// How deep the stack goes in the phases that insert and remove.
fn print_depths_of(job: &Job, value_bytes: usize) {
    let [ours, stds] = RUNS.map(|run| depths(|| _ = black_box(run(job))));
    for (call, phase) in [("insert", 0), ("remove", 3)] {
        let both = [ours[phase] as f64, stds[phase] as f64];
        let name = format!("stack of {call}, values of {value_bytes} bytes");
        print_row(&name, (FORM.0, FORM.1, 0), both, both[0] / both[1]);
    }
}

fn print_depths() {
    print_head("bytes of stack: ours / std's BTreeMap (ours as a multiple of std's)");
    for (pairs, _) in chosen(SIZES) {
        println!("{pairs} pairs");
        let keys = &Keys::new(pairs);
        print_depths_of(&Job { kind: NUMBERS, keys }, 8);
        print_depths_of(&Job { kind: VALUES_OF_256_BYTES, keys }, 256);
    }
}

// Each job once on one side.
fn count_on(who: usize) {
    let keys = &Keys::new(1_000);
    for kind in 0..KINDS.len() as u64 {
        let job = Job { kind, keys };
        let names = job.rows();
        let rows: Vec<(&str, usize)> = names.iter().map(|(name, calls)| (name.as_str(), *calls)).collect();
        tell(who, &rows, || _ = black_box(RUNS[who](&job)));
    }
    let rows = ENTRIES.map(|name| (name, keys.inserted.len()));
    tell(who, &rows, || _ = black_box(ENTRY_RUNS[who](keys)));
}

fn main() {
    let parts: [(&str, fn()); 4] = [
        ("kinds", || print_parts(&[print_kinds])),
        ("entries", || print_parts(&[print_entries])),
        ("depths", print_depths),
        ("count", || (0..2).for_each(count_on)),
    ];
    start(&parts, || print_parts(&[print_kinds, print_entries]));
}
