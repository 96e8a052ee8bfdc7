//! A job of some phases that is made at several sizes.
use super::counted::tell;
use super::print_head;
use super::rounds::{Form, Runs, compare};
use std::hint::black_box;

const FORM: Form = (34, 7, 1);

pub trait Job: Sized + 'static {
    /// What is counted by the sizes.
    const ITEMS: &'static str;
    /// How many of these there are, and rounds of runs. The first size is that of rows that name none.
    const SIZES: [(u64, usize); 2];
    /// The job on both sides.
    const RUNS: Runs<Self>;

    fn new(size: u64) -> Self;

    /// The name of each phase, and how many calls it has. One with no name is not told.
    fn rows(&self) -> Vec<(&'static str, usize)>;
}

/// Prints the least nanoseconds a call of each phase.
pub fn print_times<J: Job>() {
    print_head("nanoseconds a call, best of so many runs: ours / std's (ours as a multiple)");
    for (size, rounds) in J::SIZES {
        println!("{size} {}, {rounds} runs", J::ITEMS);
        let job = J::new(size);
        for (phase, (name, calls)) in compare(&job, rounds, J::RUNS).iter().zip(job.rows()) {
            if !name.is_empty() {
                phase.print_least(name, FORM, calls);
            }
        }
    }
}

/// Makes the job of each size once on both sides, for `bench/instructions.py`.
pub fn count<J: Job>() {
    for (number, (size, _)) in J::SIZES.into_iter().enumerate() {
        let job = J::new(size);
        let named = |name: &str| match (name, number) {
            ("", _) | (_, 0) => name.to_string(),
            _ => format!("{name}, {size} {}", J::ITEMS),
        };
        let names: Vec<(String, usize)> = job.rows().iter().map(|(name, calls)| (named(name), *calls)).collect();
        let rows: Vec<(&str, usize)> = names.iter().map(|(name, calls)| (name.as_str(), *calls)).collect();
        let mut seen = [0; 2];
        for (who, run) in J::RUNS.into_iter().enumerate() {
            tell(who, &rows, || seen[who] = black_box(run(&job)));
        }
        assert_eq!(seen[0], seen[1], "what the two sides gave differs");
    }
}
