//! Calls on the hashed map.
use super::{calls, key_at, mark, mixed, place};
use fc_hash::TryHashMap;
use std::alloc::Global;

type Hashed = TryHashMap<u64, u64>;

const WAYS: u64 = 8;

fn put(map: &mut Hashed, key: u64) -> Option<u64> {
    match map.insert(key, key) {
        Ok(old) => old,
        Err(_) => None,
    }
}

fn made(alloc: Global, pairs: u64) -> Option<Hashed> {
    let mut map = TryHashMap::with_capacity(alloc, pairs.wrapping_mul(2) as usize).ok()?;
    for place in 0..pairs {
        put(&mut map, key_at(place));
    }
    Some(map)
}

fn ask(map: &mut Hashed, way: u64, key: u64) -> Option<u64> {
    match way {
        0 => map.get(&key).copied(),
        1 => map.get(&key.wrapping_add(1)).copied(),
        2 => Some(u64::from(map.contains_key(&key))),
        3 => put(map, key),
        4 => put(map, key.wrapping_add(1)),
        5 => map.remove(&key.wrapping_add(1)),
        6 => match map.get_mut(&key) {
            Some(value) => {
                *value = value.wrapping_add(1);
                Some(*value)
            }
            None => None,
        },
        _ => Some(map.len() as u64),
    }
}

fn ask_all(map: &mut Hashed, way: u64, pairs: u64, start: u64) -> u64 {
    let mut seen = start;
    for turn in 0..calls(pairs) {
        seen = mixed(seen, ask(map, way, key_at(place(turn, pairs))));
    }
    seen
}

/// A phase for each call on one key, and one for a `clear`.
#[unsafe(no_mangle)]
pub extern "C" fn short_hashed(alloc: Global, pairs: u64, checksum: &mut u64) -> bool {
    let Some(mut map) = made(alloc, pairs) else {
        return false;
    };
    let mut seen = 0;
    let mut is_marked = mark(alloc);
    for way in 0..WAYS {
        seen = ask_all(&mut map, way, pairs, seen);
        is_marked = is_marked && mark(alloc);
    }
    map.clear();
    *checksum = mixed(seen, Some(map.len() as u64));
    is_marked && mark(alloc)
}
