//! Calls on one key, of an ordered map beside std's `BTreeMap` on the same random keys, and the ends of both maps.
use super::{Form, Keys, compare, mark, mixed, tell};
use std::collections::BTreeMap;
use std::hint::black_box;
use std::mem::ManuallyDrop;

/// How rows of calls on one key are printed.
pub const FORM: Form = (18, 7, 1);

// What a job does with its map in the end.
pub const DROP: u64 = 0;
pub const CLEAR: u64 = 1;
pub const GIVE_OUT: u64 = 2;
pub const LET_GO: u64 = 3;

/// One job: what it inserts, looks up and takes out, and how its map ends. Each of these is a phase.
pub struct Job<'a> {
    pub keys: &'a [u64],
    pub sought: &'a [u64],
    pub removed: &'a [u64],
    pub way: u64,
}

pub type Run = fn(&Job) -> u64;

/// The name of a row, and the phase and the end of the job that it tells of.
pub type Row = (&'static str, usize, u64);

pub const INSERT: Row = ("insert", 0, DROP);
pub const GET: Row = ("get", 1, DROP);
pub const REMOVE: Row = ("remove", 2, LET_GO);
pub const DROPPED: Row = ("drop, a pair", 3, DROP);

#[inline(never)]
pub fn run_std(job: &Job) -> u64 {
    let mut map = BTreeMap::new();
    let mut checksum = 0;
    mark();
    for key in job.keys {
        checksum = mixed(checksum, map.insert(*key, *key));
    }
    mark();
    for key in job.sought {
        checksum = mixed(checksum, map.get(key).copied());
    }
    mark();
    for key in job.removed {
        checksum = mixed(checksum, map.remove(key));
    }
    mark();
    match job.way {
        DROP => drop(map),
        CLEAR => {
            map.clear();
            black_box(&map);
        }
        GIVE_OUT => {
            for (key, value) in map {
                checksum = mixed(checksum, Some(key ^ value));
            }
        }
        _ => {
            let _leaked = ManuallyDrop::new(map);
        }
    }
    mark();
    checksum
}

/// The job that ends so; only one that drops its map looks keys up, and only one that lets it go takes the pairs out before.
pub fn job(keys: &Keys, way: u64) -> Job<'_> {
    Job {
        keys: &keys.inserted,
        sought: if way == DROP { &keys.sought } else { &[] },
        removed: if way == LET_GO { &keys.removed } else { &[] },
        way,
    }
}

fn calls(keys: &Keys, phase: usize) -> usize {
    if phase == GET.1 { keys.sought.len() } else { keys.inserted.len() }
}

// The rows of each job in turn, by how it ends.
fn by_end(rows: &[Row]) -> Vec<(u64, Vec<Row>)> {
    let of = |end| rows.iter().copied().filter(|row| row.2 == end).collect::<Vec<Row>>();
    let ends = [DROP, LET_GO, CLEAR, GIVE_OUT];
    ends.into_iter().map(|end| (end, of(end))).filter(|(_, of)| !of.is_empty()).collect()
}

/// Prints the least nanoseconds a call or a pair, for each row: ours, std's, and ours as a multiple of std's.
pub fn print_times(rows: &[Row], keys: &Keys, rounds: usize, runs: [Run; 2]) {
    for (end, rows) in by_end(rows) {
        let phases = compare(&job(keys, end), rounds, runs);
        for (name, phase, _) in rows {
            phases[phase].print_least(name, FORM, calls(keys, phase));
        }
    }
}

/// Makes the job of each row once on one side, for `bench/instructions.py`.
pub fn count(rows: &[Row], keys: &Keys, who: usize, run: Run) {
    for (end, rows) in by_end(rows) {
        let mut names = [("", 0); 4];
        for (name, phase, _) in rows {
            names[phase] = (name, calls(keys, phase));
        }
        tell(who, &names, || {
            black_box(run(&job(keys, end)));
        });
    }
}
