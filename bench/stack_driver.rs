//! The most stack that calls on the ordered map take, by the kind of call and the number of pairs.
//!
//! `harness/phases.rs` tells how they are found.
mod harness;
mod jobs;

use harness::phases::depths;
use jobs::{bench_map_put, bench_map_run, bench_map_walk, bench_map_whole};
use std::hint::black_box;

// The depth of each phase of a job.
fn depths_of<T>(job: impl FnOnce() -> T) -> Vec<usize> {
    depths(|| _ = black_box(job()))
}

fn run(keys: &[u64], way: u64) -> Vec<usize> {
    // What is dropped at the end is the whole map in one job, and nothing in the other.
    let gone = if way == 9 { keys } else { &[] };
    depths_of(|| bench_map_run(keys, keys, gone, way))
}

fn put(keys: &[u64], is_ready: bool) -> usize {
    depths_of(|| bench_map_put(keys, is_ready))[0]
}

fn whole(keys: &[u64], others: &[u64], way: u64) -> usize {
    let at = keys[keys.len() / 2];
    depths_of(|| bench_map_whole(keys, others, at, way))[0]
}

fn walk(keys: &[u64], way: u64) -> usize {
    let starts = [keys[keys.len() / 3]];
    depths_of(|| bench_map_walk(keys, &starts, way, 1))[0]
}

// The depth of each kind of call on a map of so many pairs, the most of those where they came in ascending order and in another one.
fn all(pairs: u64) -> Vec<(&'static str, usize)> {
    let ascending: Vec<u64> = (0..pairs).map(|key| 2 * key).collect();
    let jumping: Vec<u64> = (0..pairs).map(|key| key * 1_000_003 % pairs * 2).collect();
    let between: Vec<u64> = ascending.iter().map(|key| key + 1).collect();
    let beyond: Vec<u64> = ascending.iter().map(|key| key + 2 * pairs).collect();
    let most = |depth: &dyn Fn(&[u64]) -> usize| depth(&ascending).max(depth(&jumping));
    vec![
        ("`try_insert`", most(&|keys| run(keys, 0)[0])),
        (
            "`try_entry` with its insertions",
            most(&|keys| put(keys, false).max(put(keys, true))),
        ),
        ("`get`", most(&|keys| run(keys, 0)[1])),
        ("`remove`", most(&|keys| run(keys, 9)[2])),
        ("`pop_first`", most(&|keys| whole(keys, &[], 3))),
        (
            "`iter`, `keys`",
            most(&|keys| walk(keys, 0).max(walk(keys, 1)).max(walk(keys, 4))),
        ),
        ("`range`", most(&|keys| walk(keys, 2))),
        ("`values_mut`", most(&|keys| walk(keys, 3))),
        ("`for_each`", most(&|keys| walk(keys, 5))),
        ("`into_iter`", most(&|keys| run(keys, 2)[3])),
        (
            "`append`",
            most(&|keys| {
                whole(keys, &between, 0)
                    .max(whole(keys, &beyond, 0))
                    .max(whole(&beyond, keys, 0))
            }),
        ),
        ("`split_off`", most(&|keys| whole(keys, &[], 1))),
        ("`try_clone`", most(&|keys| whole(keys, &[], 2))),
        (
            "drop, `clear`",
            most(&|keys| run(keys, 0)[3].max(run(keys, 1)[3])),
        ),
    ]
}

fn main() {
    let sizes = [10, 100, 1_000, 10_000, 100_000];
    let found: Vec<_> = sizes.iter().map(|pairs| all(*pairs)).collect();
    println!("| Call | 10 pairs | 100 | 1,000 | 10,000 | 100,000 |");
    println!("|---|---|---|---|---|---|");
    for (i, (call, _)) in found[0].iter().enumerate() {
        let depths: Vec<String> = found.iter().map(|it| it[i].1.to_string()).collect();
        println!("| {call} | {} |", depths.join(" | "));
    }
}
