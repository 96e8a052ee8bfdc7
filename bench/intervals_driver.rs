//! Times calls on the library's map of stretches beside one that a Rust programmer would write over std's `BTreeMap`, from starts to ends and values,
//! and compares what both answer and what is left.
//!
//! Stretches of five points, eight apart, are put in at random. Then random points are looked up, and ranges of twenty points are walked over, put and cut,
//! each over some three stretches. A time is the best of some runs, the two sides in turn. With the word `count` each job runs once at each size, for
//! `bench/instructions.py`.
mod harness;
mod jobs;

use harness::sizes::{self, count, print_times};
use harness::{Random, Runs, mark, mixed, start};
use jobs::bench_intervals_run;
use std::collections::BTreeMap;
use std::ops::Range;

const APART: u64 = 8;
const SHORT: u64 = 5;
const LONG: u64 = 20;
const NAMES: [&str; 5] = ["put where none is", "get", "overlapping of three", "put over three", "cut of three"];

struct Job {
    starts: Vec<u64>,
    points: Vec<u64>,
    ranges: Vec<u64>,
    puts: Vec<u64>,
    cuts: Vec<u64>,
}

impl sizes::Job for Job {
    const ITEMS: &'static str = "stretches";
    const SIZES: [(u64, usize); 2] = [(1_000, 200), (100_000, 10)];
    const RUNS: Runs<Job> = [run_ours, run_std];

    // So many stretches and look-ups, and a quarter as many ranges of each kind: so that there are stretches to the end.
    fn new(stretches: u64) -> Job {
        let mut random = Random(stretches);
        let mut points = |count: u64| -> Vec<u64> { (0..count).map(|_| random.below(APART * stretches)).collect() };
        let (all, quarter) = (stretches, stretches / 4);
        let (points, ranges, puts, cuts) = (points(all), points(quarter), points(quarter), points(quarter));
        let starts = random.shuffled((0..stretches).map(|number| APART * number).collect());
        Job {
            starts,
            points,
            ranges,
            puts,
            cuts,
        }
    }

    fn rows(&self) -> Vec<(&'static str, usize)> {
        let lists = [&self.starts, &self.points, &self.ranges, &self.puts, &self.cuts];
        NAMES.into_iter().zip(lists.map(Vec::len)).collect()
    }
}

#[inline(never)]
fn run_ours(job: &Job) -> u64 {
    bench_intervals_run(&job.starts, &job.points, &job.ranges, &job.puts, &job.cuts, SHORT, LONG)
}

// By its start, where a stretch ends and the value of its points.
type Stretches = BTreeMap<u64, (u64, u64)>;

fn cut(map: &mut Stretches, range: Range<u64>) {
    if let Some((_, (end, value))) = map.range_mut(..range.start).next_back() {
        if *end > range.start {
            let (behind, value) = (*end, *value);
            *end = range.start;
            if behind > range.end {
                map.insert(range.end, (behind, value));
            }
        }
    }
    while let Some((&start, &(end, value))) = map.range(range.clone()).next() {
        map.remove(&start);
        if end > range.end {
            map.insert(range.end, (end, value));
        }
    }
}

fn put(map: &mut Stretches, range: Range<u64>, value: u64) {
    cut(map, range.clone());
    map.insert(range.start, (range.end, value));
}

fn get(map: &Stretches, point: u64) -> Option<u64> {
    let (_, (end, value)) = map.range(..=point).next_back()?;
    (point < *end).then_some(*value)
}

fn overlapping(map: &Stretches, range: Range<u64>) -> impl Iterator<Item = (&u64, &(u64, u64))> {
    let ahead = map.range(..range.start).next_back();
    let from = ahead.filter(|(_, (end, _))| *end > range.start).map_or(range.start, |(start, _)| *start);
    map.range(from..range.end)
}

fn walk_over(map: &Stretches, range: Range<u64>, checksum: u64) -> u64 {
    overlapping(map, range).fold(checksum, |seen, (start, (end, value))| mixed(seen, Some(start ^ end ^ value)))
}

#[inline(never)]
fn run_std(job: &Job) -> u64 {
    let mut map = Stretches::new();
    let mut checksum = 0;
    mark();
    for start in &job.starts {
        put(&mut map, *start..start + SHORT, *start);
    }
    mark();
    for point in &job.points {
        checksum = mixed(checksum, get(&map, *point));
    }
    mark();
    for start in &job.ranges {
        checksum = walk_over(&map, *start..start + LONG, checksum);
    }
    mark();
    for start in &job.puts {
        put(&mut map, *start..start + LONG, *start);
    }
    mark();
    for start in &job.cuts {
        cut(&mut map, *start..start + LONG);
    }
    mark();
    walk_over(&map, 0..u64::MAX, checksum)
}

fn main() {
    start(&[("count", count::<Job>)], print_times::<Job>);
}
