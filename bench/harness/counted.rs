//! Jobs that run once, for `bench/instructions.py`, which counts what happens between their marks.
use super::phases::phases;
use super::rounds::Runs;
use std::hint::black_box;

/// Runs a job of ours (0) or of std's (1), and prints a line for each of its marks in turn: of what the phase that ended there was,
/// and of how many calls. A phase with no name is none to count, nor is what was done before the first mark.
pub fn tell(who: usize, rows: &[(&str, usize)], job: impl FnOnce()) {
    let count = phases(job).len();
    assert_eq!(count, rows.len(), "each phase has a name");
    println!("-");
    for (name, calls) in rows {
        match *name {
            "" => println!("-"),
            name => println!("{}\t{calls}\t{name}", ["ours", "std"][who]),
        }
    }
}

/// The same on both sides, of a job of these phases.
pub fn count<J>(rows: &[(&str, usize)], job: &J, runs: Runs<J>) {
    for (who, run) in runs.into_iter().enumerate() {
        tell(who, rows, || _ = black_box(run(job)));
    }
}

/// The same of a job of so many phases, of which the first has the name. It runs once before it is counted, and keeps what it made: so that the allocator has
/// no blocks left over from other jobs, which would serve the one side and not the other.
pub fn tell_second_of(who: usize, name: &str, calls: usize, phases: usize, job: impl Fn() -> u64) {
    let mut rows = vec![("", 0); 2 * phases + 1];
    rows[phases + 1] = (name, calls);
    tell(who, &rows, || {
        black_box(job());
        black_box(job());
    });
}

/// The same of a job of one phase.
pub fn tell_second(who: usize, name: &str, calls: usize, job: impl Fn() -> u64) {
    tell_second_of(who, name, calls, 1, job);
}
