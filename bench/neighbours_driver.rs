//! Asks the library's ordered map and std's `BTreeMap` for the pairs next to random keys, half of which are not there, and compares the
//! answers. With the word `count` each call is made so at a thousand pairs and at a hundred thousand, for `bench/instructions.py`.
mod harness;
mod jobs;

use harness::phases::phases;
use harness::{Random, mark, mixed, start, tell};
use jobs::bench_map_neighbours;
use std::collections::BTreeMap;
use std::hint::black_box;
use std::ops::Bound::{Excluded, Unbounded};

const CALLS: u64 = 20_000;
// As `bench_map_neighbours` numbers them. The first makes no call.
const WAYS: [&str; 8] = [
    "no call",
    "first_at_or_after",
    "first_after",
    "last_at_or_before",
    "last_before",
    "range(k..).next()",
    "range(..=k).next_back()",
    "get, half of them there",
];
const SIZES: [u64; 6] = [0, 1, 7, 90, 1_000, 100_000];

#[inline(never)]
fn ask_ours(keys: &[u64], sought: &[u64], way: u64) -> u64 {
    bench_map_neighbours(keys, sought, way)
}

#[inline(never)]
fn ask_std(keys: &[u64], sought: &[u64], way: u64) -> u64 {
    let mut map = BTreeMap::new();
    let mut seen = 0;
    for key in keys {
        seen = mixed(seen, map.insert(*key, *key));
    }
    mark();
    for key in sought {
        let answer = match way {
            1 | 5 => map.range(*key..).next().map(|pair| *pair.1),
            2 => map.range((Excluded(*key), Unbounded)).next().map(|pair| *pair.1),
            3 | 6 => map.range(..=*key).next_back().map(|pair| *pair.1),
            4 => map.range(..*key).next_back().map(|pair| *pair.1),
            7 => map.get(key).copied(),
            _ => None,
        };
        seen = mixed(seen, answer);
    }
    mark();
    seen
}

// The even numbers below twice `pairs`, and random ones among them and between them.
fn keys(pairs: u64) -> (Vec<u64>, Vec<u64>) {
    let mut random = Random(pairs + 1);
    let keys = random.shuffled((0..pairs).map(|number| number * 2).collect());
    let sought = (0..CALLS).map(|_| random.below(2 * pairs + 1)).collect();
    (keys, sought)
}

const ASKS: [fn(&[u64], &[u64], u64) -> u64; 2] = [ask_ours, ask_std];

// Asks one side, between two marks of its own.
fn asked(who: usize, keys: &[u64], sought: &[u64], way: usize) -> u64 {
    let mut seen = 0;
    phases(|| seen = ASKS[who](keys, sought, way as u64));
    seen
}

fn compare_answers() {
    for pairs in SIZES {
        let (keys, sought) = keys(pairs);
        for way in 0..WAYS.len() {
            assert_eq!(
                asked(0, &keys, &sought, way),
                asked(1, &keys, &sought, way),
                "way {way}, {pairs} pairs"
            );
        }
    }
    println!("the pairs next to {CALLS} keys were answered alike, at each of {SIZES:?} pairs");
}

fn count() {
    for (pairs, title) in [(1_000, ""), (100_000, ", 100000 pairs")] {
        let (keys, sought) = keys(pairs);
        for (way, name) in WAYS.iter().enumerate() {
            let name = format!("{name}{title}");
            for who in 0..2 {
                tell(who, &[(&name, sought.len())], || {
                    black_box(ASKS[who](black_box(&keys), black_box(&sought), way as u64));
                });
            }
        }
    }
}

fn main() {
    start(&[("count", count)], compare_answers);
}
