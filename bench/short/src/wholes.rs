//! Calls on a whole map.
use super::reads::{Map, made, shuffled};
use super::{key_at, mark, mixed, place};
use fc_base::{TryClone, TryReserveError};
use std::alloc::Global;
use std::mem::ManuallyDrop;

const WAYS: u64 = 16;

// So many pairs are cut off.
const FEW: u64 = 10;

fn walk(map: &Map) -> u64 {
    let mut seen = 0;
    for (key, value) in map {
        seen = mixed(seen, Some(key ^ value));
    }
    seen
}

fn walk_from_both_ends(map: &Map) -> u64 {
    let mut seen = 0;
    let mut walk = map.iter();
    for _ in 0..map.len() / 2 {
        let ends = (walk.next(), walk.next_back());
        if let (Some((first, _)), Some((last, _))) = ends {
            seen = mixed(seen, Some(first ^ last));
        }
    }
    seen
}

fn walk_over_range(map: &Map) -> u64 {
    let mut seen = 0;
    let mut walk = map.range(0..u64::MAX);
    for _ in 0..map.len() {
        if let Some((key, value)) = walk.next() {
            seen = mixed(seen, Some(key ^ value));
        }
    }
    seen
}

// Lets a map go without a drop, so that its phase is not the longer for it.
fn leak(map: Map) -> u64 {
    let len = map.len() as u64;
    let _leaked = ManuallyDrop::new(map);
    len
}

fn leaked(made: Option<Map>) -> u64 {
    match made {
        Some(map) => leak(map),
        None => 0,
    }
}

fn copy(map: &Map) -> Result<u64, TryReserveError> {
    Ok(leak(map.try_clone()?))
}

fn extended(alloc: Global, pairs: u64) -> Result<u64, TryReserveError> {
    let mut map = Map::new(alloc);
    map.try_extend((0..pairs).map(|place| (key_at(place), place)))?;
    Ok(leak(map))
}

// Items in no order, of a vector that is made first.
fn extended_from_vec(alloc: Global, pairs: u64) -> Option<u64> {
    let mut items = Vec::with_capacity(alloc, pairs as usize).ok()?;
    for turn in 0..pairs {
        items.push((key_at(place(turn, pairs)), turn)).ok()?;
    }
    let mut map = Map::new(alloc);
    map.try_extend_from_vec(items).ok()?;
    Some(leak(map))
}

// What is from the key on goes into the other map.
fn cut(map: &mut Map, other: &mut Map, key: u64) -> bool {
    match map.split_off(&key) {
        Ok(rest) => {
            *other = rest;
            true
        }
        Err(_) => false,
    }
}

fn change(map: &mut Map, other: &mut Map, way: u64, pairs: u64) -> u64 {
    match way {
        3 => {
            map.values_mut().for_each(|_key, value| {
                *value = value.wrapping_add(1);
            });
            0
        }
        4 => {
            map.retain(|key, _value| *key > 0);
            0
        }
        5 => u64::from(cut(map, other, key_at(pairs.wrapping_sub(FEW)))),
        7 => u64::from(cut(map, other, key_at(FEW))),
        _ => u64::from(map.append(other).is_ok()),
    }
}

fn run(alloc: Global, map: &mut Map, other: &mut Map, way: u64, pairs: u64) -> u64 {
    match way {
        0 => walk(map),
        1 => walk_from_both_ends(map),
        2 => walk_over_range(map),
        9 => copy(map).unwrap_or(0),
        10 => u64::from(*map == *map),
        11 => leaked(made(alloc, pairs)),
        12 => extended(alloc, pairs).unwrap_or(0),
        13 => leaked(shuffled(alloc, pairs)),
        14 => extended_from_vec(alloc, pairs).unwrap_or(0),
        15 => {
            map.clear();
            0
        }
        _ => change(map, other, way, pairs),
    }
}

/// A phase for each call on a whole map.
#[unsafe(no_mangle)]
pub extern "C" fn short_wholes(alloc: Global, pairs: u64, checksum: &mut u64) -> bool {
    let Some(mut map) = made(alloc, pairs) else {
        return false;
    };
    let mut other = Map::new(alloc);
    let mut seen = 0;
    let mut is_marked = mark(alloc);
    for way in 0..WAYS {
        seen = mixed(seen, Some(run(alloc, &mut map, &mut other, way, pairs)));
        is_marked = is_marked && mark(alloc);
    }
    *checksum = seen;
    is_marked
}
