//! Operations of two sets.
use super::sets::{Items, made};
use super::{mark, mixed};
use std::alloc::Global;

const WAYS: u64 = 6;

fn walk_union(set: &Items, other: &Items) -> u64 {
    let mut seen = 0;
    for item in set.union(other) {
        seen = mixed(seen, Some(*item));
    }
    seen
}

fn walk_intersection(set: &Items, other: &Items) -> u64 {
    let mut seen = 0;
    for item in set.intersection(other) {
        seen = mixed(seen, Some(*item));
    }
    seen
}

fn walk_difference(set: &Items, other: &Items) -> u64 {
    let mut seen = 0;
    for item in set.difference(other) {
        seen = mixed(seen, Some(*item));
    }
    seen
}

fn walk_symmetric_difference(set: &Items, other: &Items) -> u64 {
    let mut seen = 0;
    for item in set.symmetric_difference(other) {
        seen = mixed(seen, Some(*item));
    }
    seen
}

fn operate(set: &Items, other: &Items, way: u64) -> u64 {
    match way {
        0 => walk_union(set, other),
        1 => walk_intersection(set, other),
        2 => walk_difference(set, other),
        3 => walk_symmetric_difference(set, other),
        4 => u64::from(set.is_subset(set)),
        _ => u64::from(set.is_disjoint(other)),
    }
}

/// A phase for each operation of two sets of so many items, of which none is in both; a set is a subset of itself.
#[unsafe(no_mangle)]
pub extern "C" fn short_operations(alloc: Global, pairs: u64, checksum: &mut u64) -> bool {
    let (Some(set), Some(other)) = (made(alloc, 0, pairs), made(alloc, 1, pairs)) else {
        return false;
    };
    let mut seen = 0;
    let mut is_marked = mark(alloc);
    for way in 0..WAYS {
        seen = mixed(seen, Some(operate(&set, &other, way)));
        is_marked = is_marked && mark(alloc);
    }
    *checksum = seen;
    is_marked
}
