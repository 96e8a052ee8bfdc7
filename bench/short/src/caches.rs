//! Calls on the cache.
use super::{calls, key_at, mark, mixed, place};
use fc_cache::Cache;
use std::alloc::Global;

type Numbers = Cache<u64, u64>;

const WAYS: u64 = 7;

fn made(alloc: Global, pairs: u64) -> Option<Numbers> {
    let mut cache = Cache::new(alloc, pairs as usize);
    for place in 0..pairs {
        let key = key_at(place);
        if cache.try_put(key, place, 1).is_err() {
            return None;
        }
    }
    Some(cache)
}

fn ask(cache: &mut Numbers, way: u64, key: u64) -> Option<u64> {
    match way {
        0 => cache.get(&key).copied(),
        1 => cache.get(&key.wrapping_add(1)).copied(),
        2 => cache.peek(&key).copied(),
        3 => Some((cache.len() ^ cache.used()) as u64),
        4 => Some(u64::from(cache.try_put(key.wrapping_add(1), key, 1).is_ok())),
        5 => cache.remove(&key.wrapping_add(1)),
        _ => match cache.pop_oldest() {
            Some((key, value)) => Some(key ^ value),
            None => None,
        },
    }
}

fn ask_all(cache: &mut Numbers, way: u64, pairs: u64, start: u64) -> u64 {
    let mut seen = start;
    for turn in 0..calls(pairs) / 3 {
        seen = mixed(seen, ask(cache, way, key_at(place(turn, pairs))));
    }
    seen
}

/// A phase for each call on a full cache: the new ones take the places of old ones, and are then taken out.
#[unsafe(no_mangle)]
pub extern "C" fn short_cache(alloc: Global, pairs: u64, checksum: &mut u64) -> bool {
    let Some(mut cache) = made(alloc, pairs) else {
        return false;
    };
    let mut seen = 0;
    let mut is_marked = mark(alloc);
    for way in 0..WAYS {
        seen = ask_all(&mut cache, way, pairs, seen);
        is_marked = is_marked && mark(alloc);
    }
    *checksum = seen;
    is_marked
}
