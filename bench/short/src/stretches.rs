//! Calls on the map of stretches.
use super::{calls, mark, mixed, place};
use fc_intervals::IntervalMap;
use std::alloc::Global;
use std::ops::Range;

type Stretches = IntervalMap<u64, u64>;

const WAYS: u64 = 14;

// Stretches of five points, eight apart.
const APART: u64 = 8;

fn points_from(start: u64, length: u64) -> Range<u64> {
    start..start.wrapping_add(length)
}

fn put(map: &mut Stretches, start: u64, length: u64) -> Option<u64> {
    Some(u64::from(map.try_put(points_from(start, length), start).is_ok()))
}

fn made(alloc: Global, pairs: u64) -> Stretches {
    let mut map = IntervalMap::new(alloc);
    for place in 0..pairs {
        put(&mut map, place.wrapping_mul(APART), 5);
    }
    map
}

fn told(stretch: Option<(Range<u64>, &u64)>) -> Option<u64> {
    match stretch {
        Some((points, value)) => Some(points.start ^ points.end ^ *value),
        None => None,
    }
}

fn first_gap(map: &Stretches, start: u64) -> Option<u64> {
    let gap = map.gaps(points_from(start, 20)).next()?;
    Some(gap.start ^ gap.end)
}

fn ask(map: &Stretches, way: u64, at: u64) -> Option<u64> {
    match way {
        0 => map.get(at).copied(),
        1 => map.get(at.wrapping_add(6)).copied(),
        2 => told(map.get_key_value(at.wrapping_add(4))),
        3 => told(map.first()),
        4 => told(map.last()),
        5 => map.overlapping(points_from(at, 20)).next().map(|it| *it.0),
        6 => map
            .overlapping(points_from(at, 20))
            .next_back()
            .map(|it| *it.0),
        7 => first_gap(map, at),
        _ => Some(map.len() as u64),
    }
}

// Each change leaves as many stretches, but for those that one of them takes.
fn change(map: &mut Stretches, way: u64, at: u64) -> Option<u64> {
    match way {
        9 => Some(u64::from(map.try_split_at(at.wrapping_add(2)).is_ok())),
        10 => Some(u64::from(map.join_at(at.wrapping_add(2)))),
        11 => put(map, at, 5),
        12 => Some(u64::from(map.try_cut(points_from(at, 3)).is_ok())),
        13 => put(map, at, 20),
        _ => ask(map, way, at),
    }
}

fn change_all(map: &mut Stretches, way: u64, pairs: u64, start: u64) -> u64 {
    let mut seen = start;
    for turn in 0..calls(pairs) / 2 {
        let at = place(turn, pairs).wrapping_mul(APART);
        seen = mixed(seen, change(map, way, at));
    }
    seen
}

/// A phase for each call at a point, or at a range of twenty.
#[unsafe(no_mangle)]
pub extern "C" fn short_stretches(alloc: Global, pairs: u64, checksum: &mut u64) -> bool {
    let mut map = made(alloc, pairs);
    let mut seen = 0;
    let mut is_marked = mark(alloc);
    for way in 0..WAYS {
        seen = change_all(&mut map, way, pairs, seen);
        is_marked = is_marked && mark(alloc);
    }
    *checksum = seen;
    is_marked
}
