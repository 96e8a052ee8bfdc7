//! Calls that take little time each, over one collection of so many pairs: what `bench/short.py` counts. This is Rattle, built by that tool and not proved, so
//! that its files have no name of a crate's. Each exported function makes one collection and its phases, in the order in which the tool names them.
#![tactic(auto)]

mod caches;
mod hashed;
mod maps;
mod operations;
mod reads;
mod rows;
mod sets;
mod stretches;
mod timers;
mod vectors;
mod wholes;

use std::alloc::Global;

// So many calls a phase, or as many as there are pairs.
const MOST_CALLS: u64 = 1_000;

// A prime that divides no number of pairs, so that its multiples come to each place once.
const JUMP: u64 = 611_953;

// A checksum of all answers so far, which depends on each of them and on their order.
fn mixed(checksum: u64, answer: Option<u64>) -> u64 {
    let word = match answer {
        Some(value) => value.wrapping_add(1),
        None => 0,
    };
    checksum.rotate_left(5) ^ word
}

// Ends a phase: the driver refuses a request of so many bytes, and callgrind notes what it counted.
fn mark(alloc: Global) -> bool {
    Vec::<u8>::with_capacity(alloc, 1 << 62).is_err()
}

fn calls(pairs: u64) -> u64 {
    pairs.min(MOST_CALLS)
}

// The place at a turn: far from that of the turn before.
fn place(turn: u64, pairs: u64) -> u64 {
    turn.wrapping_mul(JUMP) % pairs
}

// The key at a place. Those between are not there.
fn key_at(place: u64) -> u64 {
    place.wrapping_mul(2)
}
