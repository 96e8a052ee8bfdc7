//! Calls that read a map.
use super::{calls, key_at, mark, mixed, place};
use fc_map::map::BTreeMap;
use fc_vec::TryFromIterator;
use std::alloc::Global;
use std::ops::Bound;

pub(crate) type Map = BTreeMap<u64, u64>;

const WAYS: u64 = 17;

/// A map of so many keys, each with its place. Its leaves are full.
pub(crate) fn made(alloc: Global, pairs: u64) -> Option<Map> {
    BTreeMap::try_from_iterator(alloc, (0..pairs).map(|place| (key_at(place), place))).ok()
}

/// The same of keys in no order, each once.
pub(crate) fn shuffled(alloc: Global, pairs: u64) -> Option<Map> {
    let items = (0..pairs).map(|turn| (key_at(place(turn, pairs)), turn));
    BTreeMap::try_from_iterator(alloc, items).ok()
}

pub(crate) fn value(found: Option<(&u64, &u64)>) -> Option<u64> {
    match found {
        Some((_key, value)) => Some(*value),
        None => None,
    }
}

// The first and the last of the ten pairs from a key on.
fn both_ends(map: &Map, key: &u64) -> Option<u64> {
    let end = key.wrapping_add(20);
    let mut walk = map.range((Bound::Included(key), Bound::Excluded(&end)));
    let first = value(walk.next());
    Some(first.unwrap_or(0) ^ value(walk.next_back()).unwrap_or(0))
}

fn ask_beside(map: &Map, way: u64, key: &u64) -> Option<u64> {
    match way {
        4 => value(map.first_at_or_after(key)),
        5 => value(map.first_after(key)),
        6 => value(map.last_at_or_before(key)),
        7 => value(map.last_before(key)),
        8 => value(map.range((Bound::Included(key), Bound::Unbounded)).next()),
        9 => value(
            map.range((Bound::Unbounded, Bound::Excluded(key)))
                .next_back(),
        ),
        _ => both_ends(map, key),
    }
}

fn ask_end(map: &Map, way: u64) -> Option<u64> {
    match way {
        11 => value(map.first_key_value()),
        12 => value(map.last_key_value()),
        13 => value(map.iter().next()),
        14 => value(map.iter().next_back()),
        15 => Some(map.iter().len() as u64),
        _ => Some((map.len() as u64) ^ u64::from(map.is_empty())),
    }
}

fn ask(map: &Map, way: u64, key: &u64) -> Option<u64> {
    match way {
        0 => map.get(key).copied(),
        1 => map.get(&key.wrapping_add(1)).copied(),
        2 => value(map.get_key_value(key)),
        3 => Some(u64::from(map.contains_key(key))),
        4..=10 => ask_beside(map, way, key),
        _ => ask_end(map, way),
    }
}

fn ask_all(map: &Map, way: u64, pairs: u64, start: u64) -> u64 {
    let mut seen = start;
    for turn in 0..calls(pairs) {
        seen = mixed(seen, ask(map, way, &key_at(place(turn, pairs))));
    }
    seen
}

/// A phase for each way to read a map.
#[unsafe(no_mangle)]
pub extern "C" fn short_reads(alloc: Global, pairs: u64, checksum: &mut u64) -> bool {
    let Some(map) = made(alloc, pairs) else {
        return false;
    };
    let mut seen = 0;
    let mut is_marked = mark(alloc);
    for way in 0..WAYS {
        seen = ask_all(&map, way, pairs, seen);
        is_marked = is_marked && mark(alloc);
    }
    *checksum = seen;
    is_marked
}
