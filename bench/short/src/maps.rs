//! Calls on one key that write a map.
use super::reads::{Map, made, value};
use super::{calls, key_at, mark, mixed, place};
use fc_map::map::Entry;
use std::alloc::Global;
use std::ops::Bound;

const WAYS: u64 = 20;

fn inserted(map: &mut Map, key: u64) -> Option<u64> {
    match map.try_insert(key, key) {
        Ok(old) => old,
        Err(_) => None,
    }
}

fn write(map: &mut Map, key: u64) -> Option<u64> {
    let place = map.get_mut(&key)?;
    *place = place.wrapping_add(1);
    Some(*place)
}

// One more at the key, by its entry.
fn count_by_entry(map: &mut Map, key: u64) -> Option<u64> {
    match map.try_entry(key) {
        Ok(entry) => match entry.or_try_insert(0) {
            Ok(count) => {
                *count = count.wrapping_add(1);
                Some(*count)
            }
            Err(_) => None,
        },
        Err(_) => None,
    }
}

// Takes the key out, by its entry.
fn take_by_entry(map: &mut Map, key: u64) -> Option<u64> {
    match map.try_entry(key) {
        Ok(Entry::Occupied(entry)) => Some(entry.remove()),
        _ => None,
    }
}

fn beside(map: &mut Map, way: u64, key: &u64) -> Option<u64> {
    let entry = match way {
        7 => map.first_entry_at_or_after(key),
        8 => map.first_entry_after(key),
        9 => map.last_entry_at_or_before(key),
        10 => map.last_entry_before(key),
        11 => map.first_entry(),
        _ => map.last_entry(),
    };
    match entry {
        Some(entry) => Some(*entry.get()),
        None => None,
    }
}

fn write_range(map: &mut Map, key: &u64) -> Option<u64> {
    let end = key.wrapping_add(20);
    let mut walk = map.range_mut((Bound::Included(key), Bound::Excluded(&end)));
    let first = walk.next().map(|value| *value);
    Some(first.unwrap_or(0) ^ value(walk.peek_back()).unwrap_or(0))
}

fn write_all(map: &mut Map) -> Option<u64> {
    let mut walk = map.iter_mut();
    let place = walk.next()?;
    *place = place.wrapping_add(1);
    Some(walk.len() as u64)
}

// Two that stay, in the middle of a range.
fn retain_in(map: &mut Map, key: &u64) -> Option<u64> {
    let end = key.wrapping_add(4);
    map.retain_range(
        (Bound::Included(key), Bound::Excluded(&end)),
        |_key, value| {
            *value = value.wrapping_add(1);
            true
        },
    );
    None
}

// One that goes.
fn remove_in(map: &mut Map, key: &u64) -> Option<u64> {
    Some(map.remove_range((Bound::Included(key), Bound::Included(key))) as u64)
}

fn change_end(map: &mut Map, way: u64, key: &u64) -> Option<u64> {
    match way {
        13 => write_range(map, key),
        14 => write_all(map),
        15 => retain_in(map, key),
        16 => remove_in(map, key),
        17 => match map.pop_first() {
            Some((key, value)) => Some(key ^ value),
            None => None,
        },
        18 => match map.pop_last() {
            Some((key, value)) => Some(key ^ value),
            None => None,
        },
        _ => match map.try_reserve_nodes(1) {
            Ok(reservation) => Some(reservation.places() as u64),
            Err(_) => None,
        },
    }
}

// The odd keys are put in, which splits leaves, and taken out.
fn change(map: &mut Map, way: u64, key: u64) -> Option<u64> {
    match way {
        0 => write(map, key),
        1 => inserted(map, key),
        2 => inserted(map, key.wrapping_add(1)),
        3 => map.remove(&key.wrapping_add(1)),
        4 => count_by_entry(map, key),
        5 => count_by_entry(map, key.wrapping_add(1)),
        6 => take_by_entry(map, key.wrapping_add(1)),
        7..=12 => beside(map, way, &key),
        _ => change_end(map, way, &key),
    }
}

fn change_all(map: &mut Map, way: u64, pairs: u64, start: u64) -> u64 {
    // What takes pairs out leaves most of them.
    let turns = match way {
        16..=18 => calls(pairs) / 10,
        _ => calls(pairs),
    };
    let mut seen = start;
    for turn in 0..turns {
        seen = mixed(seen, change(map, way, key_at(place(turn, pairs))));
    }
    seen
}

/// A phase for each way to write a map at one key, or at an end.
#[unsafe(no_mangle)]
pub extern "C" fn short_writes(alloc: Global, pairs: u64, checksum: &mut u64) -> bool {
    let Some(mut map) = made(alloc, pairs) else {
        return false;
    };
    let mut seen = 0;
    let mut is_marked = mark(alloc);
    for way in 0..WAYS {
        seen = change_all(&mut map, way, pairs, seen);
        is_marked = is_marked && mark(alloc);
    }
    *checksum = seen;
    is_marked
}
