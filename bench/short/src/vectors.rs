//! Calls on vectors.
use super::{calls, key_at, mark, mixed, place};
use fc_vec::TryVec;
use std::alloc::Global;

type Numbers = TryVec<u64>;

const WAYS: u64 = 9;

fn made(alloc: Global, pairs: u64) -> Option<Numbers> {
    let mut numbers = TryVec::with_capacity(alloc, pairs.wrapping_mul(2) as usize).ok()?;
    for place in 0..pairs {
        numbers.push(key_at(place)).ok()?;
    }
    Some(numbers)
}

fn place_of(found: Result<usize, usize>) -> Option<u64> {
    match found {
        Ok(place) => Some(place as u64),
        Err(place) => Some(!(place as u64)),
    }
}

fn ask(numbers: &mut Numbers, way: u64, key: u64) -> Option<u64> {
    match way {
        0 => place_of(numbers.binary_search(&key)),
        1 => place_of(numbers.binary_search_by(|number| number.cmp(&key))),
        2 => place_of(numbers.binary_search_by_key(&key, |number| *number)),
        3 => Some(numbers.partition_point(|number| *number < key) as u64),
        4 => numbers.get((key / 2) as usize).copied(),
        5 => Some(numbers.first().copied()? ^ numbers.last().copied()?),
        6 => Some(numbers.len() as u64),
        7 => Some(u64::from(numbers.push(key).is_ok())),
        _ => numbers.pop(),
    }
}

fn ask_all(numbers: &mut Numbers, way: u64, pairs: u64, start: u64) -> u64 {
    let mut seen = start;
    for turn in 0..calls(pairs) {
        seen = mixed(seen, ask(numbers, way, key_at(place(turn, pairs))));
    }
    seen
}

/// A phase for each call on a vector that ascends.
#[unsafe(no_mangle)]
pub extern "C" fn short_vectors(alloc: Global, pairs: u64, checksum: &mut u64) -> bool {
    let Some(mut numbers) = made(alloc, pairs) else {
        return false;
    };
    let mut seen = 0;
    let mut is_marked = mark(alloc);
    for way in 0..WAYS {
        seen = ask_all(&mut numbers, way, pairs, seen);
        is_marked = is_marked && mark(alloc);
    }
    *checksum = seen;
    is_marked
}
