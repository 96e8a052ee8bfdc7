//! Times calls on the library's queue of timers beside one that a Rust programmer would write over std's `BTreeMap`, by times and turns, and compares what both
//! answer.
//!
//! Timers are put in at random times. Then random ones get another time, half of them are cancelled, and all others come out. Another job puts one in at each step
//! and takes out what is due; a third is the same beside std's `BinaryHeap`. With the word `count` each job runs once at each size, for `bench/instructions.py`.
mod harness;
mod jobs;

use harness::sizes::{self, count, print_times};
use harness::{Random, Runs, mark, mixed, start};
use jobs::{bench_timers_run, bench_timers_steady};
use std::cmp::Reverse;
use std::collections::{BTreeMap, BinaryHeap};
use std::marker::PhantomData;

// Times are below so many a timer, so that some are equal.
const APART: u64 = 8;

struct Job {
    times: Vec<u64>,
    moved: Vec<usize>,
    later: Vec<u64>,
    cancelled: Vec<usize>,
    now: u64,
}

impl sizes::Job for Job {
    const ITEMS: &'static str = "timers";
    const SIZES: [(u64, usize); 2] = [(1_000, 200), (100_000, 10)];
    const RUNS: Runs<Job> = [run_ours, run_std];

    // So many insertions and reschedulings, and half as many timers that are cancelled.
    fn new(timers: u64) -> Job {
        let mut random = Random(timers);
        let now = APART * timers;
        let mut times = || -> Vec<u64> { (0..timers).map(|_| random.below(now)).collect() };
        let (times, later) = (times(), times());
        let moved = (0..timers).map(|_| random.below(timers) as usize).collect();
        let shuffled = random.shuffled((0..timers).collect());
        let cancelled = shuffled.iter().take(timers as usize / 2).map(|number| *number as usize).collect();
        Job {
            times,
            moved,
            later,
            cancelled,
            now,
        }
    }

    fn rows(&self) -> Vec<(&'static str, usize)> {
        let left = self.times.len() - self.cancelled.len();
        vec![("insert of a timer", self.times.len()), ("reschedule", self.moved.len()), ("cancel", self.cancelled.len()), ("pop_due", left)]
    }
}

#[inline(never)]
fn run_ours(job: &Job) -> u64 {
    bench_timers_run(&job.times, &job.moved, &job.later, &job.cancelled, job.now)
}

// What a timer is found by: its time, and how many came before it.
type Timer = (u64, u64);

#[derive(Default)]
struct Queue {
    timers: BTreeMap<Timer, u64>,
    turn: u64,
}

impl Queue {
    fn insert(&mut self, at: u64, value: u64) -> Timer {
        let timer = (at, self.turn);
        self.turn += 1;
        self.timers.insert(timer, value);
        timer
    }

    fn cancel(&mut self, timer: Timer) -> Option<(u64, u64)> {
        let value = self.timers.remove(&timer)?;
        Some((timer.0, value))
    }

    // The timer is then found by another handle.
    fn reschedule(&mut self, timer: Timer, at: u64) -> Option<Timer> {
        let value = self.timers.remove(&timer)?;
        Some(self.insert(at, value))
    }

    fn pop_due(&mut self, now: u64) -> Option<(u64, u64)> {
        let first = self.timers.first_entry()?;
        if first.key().0 > now {
            return None;
        }
        let ((at, _), value) = first.remove_entry();
        Some((at, value))
    }
}

#[inline(never)]
fn run_std(job: &Job) -> u64 {
    let mut timers: Vec<Timer> = Vec::with_capacity(job.times.len());
    let mut queue = Queue::default();
    let mut checksum = 0;
    mark();
    for at in &job.times {
        timers.push(queue.insert(*at, *at));
    }
    mark();
    for (number, at) in job.moved.iter().zip(&job.later) {
        let timer = &mut timers[*number];
        let was = queue.reschedule(*timer, *at).map(|now| std::mem::replace(timer, now).0);
        checksum = mixed(checksum, was);
    }
    mark();
    for number in &job.cancelled {
        checksum = mixed(checksum, queue.cancel(timers[*number]).map(|(at, value)| at ^ value));
    }
    mark();
    while let Some((at, value)) = queue.pop_due(job.now) {
        checksum = mixed(checksum, Some(at ^ value));
    }
    mark();
    checksum
}

/// What a Rust programmer would keep timers in, of which none is cancelled.
trait Timers: Default + 'static {
    const ROW: &'static str;

    fn put(&mut self, at: u64, value: u64);

    fn take_due(&mut self, now: u64) -> Option<(u64, u64)>;
}

impl Timers for Queue {
    const ROW: &'static str = "steady step";

    fn put(&mut self, at: u64, value: u64) {
        self.insert(at, value);
    }

    fn take_due(&mut self, now: u64) -> Option<(u64, u64)> {
        self.pop_due(now)
    }
}

// Timers by time and turn in a heap. Their values stand beside it by their turns, where one that is cancelled would leave none.
#[derive(Default)]
struct Heap {
    heap: BinaryHeap<Reverse<(u64, usize)>>,
    values: Vec<Option<u64>>,
}

impl Timers for Heap {
    const ROW: &'static str = "steady step beside a heap";

    fn put(&mut self, at: u64, value: u64) {
        self.heap.push(Reverse((at, self.values.len())));
        self.values.push(Some(value));
    }

    fn take_due(&mut self, now: u64) -> Option<(u64, u64)> {
        while let Some(Reverse((at, turn))) = self.heap.peek().copied() {
            if at > now {
                return None;
            }
            self.heap.pop();
            if let Some(value) = self.values[turn].take() {
                return Some((at, value));
            }
        }
        None
    }
}

// Steps over as many timers as there are steps: at each the time goes on, a timer is put in at a random later one, and all that are due come out.
struct Steady<T> {
    times: Vec<u64>,
    steps: Vec<u64>,
    later: Vec<u64>,
    beside: PhantomData<T>,
}

impl<T: Timers> sizes::Job for Steady<T> {
    const ITEMS: &'static str = "timers";
    const SIZES: [(u64, usize); 2] = [(1_000, 200), (100_000, 10)];
    const RUNS: Runs<Steady<T>> = [run_our_steps, run_std_steps];

    fn new(timers: u64) -> Steady<T> {
        let mut random = Random(timers);
        let span = APART * timers;
        let times = (0..timers).map(|_| random.below(span)).collect();
        let steps: Vec<u64> = (0..timers).map(|step| APART * step).collect();
        let later = steps.iter().map(|now| now + 1 + random.below(2 * span)).collect();
        Steady {
            times,
            steps,
            later,
            beside: PhantomData,
        }
    }

    fn rows(&self) -> Vec<(&'static str, usize)> {
        vec![("", self.times.len()), (T::ROW, self.steps.len())]
    }
}

#[inline(never)]
fn run_our_steps<T: Timers>(job: &Steady<T>) -> u64 {
    bench_timers_steady(&job.times, &job.steps, &job.later)
}

#[inline(never)]
fn run_std_steps<T: Timers>(job: &Steady<T>) -> u64 {
    let mut queue = T::default();
    let mut checksum = 0;
    mark();
    for at in &job.times {
        queue.put(*at, *at);
    }
    mark();
    for (now, at) in job.steps.iter().zip(&job.later) {
        queue.put(*at, *at);
        while let Some((at, value)) = queue.take_due(*now) {
            checksum = mixed(checksum, Some(at ^ value));
        }
    }
    mark();
    checksum
}

fn count_all() {
    count::<Job>();
    count::<Steady<Queue>>();
    count::<Steady<Heap>>();
}

fn print_all() {
    print_times::<Job>();
    print_times::<Steady<Queue>>();
    print_times::<Steady<Heap>>();
}

fn main() {
    start(&[("count", count_all)], print_all);
}
