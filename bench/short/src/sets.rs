//! Calls on sets.
use super::{calls, key_at, mark, mixed, place};
use fc_set::set::BTreeSet;
use fc_vec::TryFromIterator;
use std::alloc::Global;

pub(crate) type Items = BTreeSet<u64>;

const WAYS: u64 = 13;

/// A set of so many items, each exclusive-or the start.
pub(crate) fn made(alloc: Global, start: u64, items: u64) -> Option<Items> {
    BTreeSet::try_from_iterator(alloc, (0..items).map(|place| key_at(place) ^ start)).ok()
}

fn ask_beside(set: &Items, way: u64, item: &u64) -> Option<u64> {
    match way {
        2 => set.first_at_or_after(item).copied(),
        3 => set.first_after(item).copied(),
        4 => set.last_at_or_before(item).copied(),
        5 => set.last_before(item).copied(),
        6 => set.first().copied(),
        7 => set.last().copied(),
        8 => set.range(item.wrapping_add(1)..).next().copied(),
        _ => Some(set.len() as u64),
    }
}

fn ask(set: &mut Items, way: u64, item: u64) -> Option<u64> {
    match way {
        0 => Some(u64::from(set.contains(&item))),
        1 => set.get(&item).copied(),
        10 => match set.try_insert(item.wrapping_add(1)) {
            Ok(is_new) => Some(u64::from(is_new)),
            Err(_) => None,
        },
        11 => match set.replace(item) {
            Ok(old) => old,
            Err(_) => None,
        },
        12 => set.take(&item.wrapping_add(1)),
        _ => ask_beside(set, way, &item),
    }
}

fn ask_all(set: &mut Items, way: u64, items: u64, start: u64) -> u64 {
    let mut seen = start;
    for turn in 0..calls(items) {
        seen = mixed(seen, ask(set, way, key_at(place(turn, items))));
    }
    seen
}

/// A phase for each call on one item.
#[unsafe(no_mangle)]
pub extern "C" fn short_sets(alloc: Global, pairs: u64, checksum: &mut u64) -> bool {
    let Some(mut set) = made(alloc, 0, pairs) else {
        return false;
    };
    let mut seen = 0;
    let mut is_marked = mark(alloc);
    for way in 0..WAYS {
        seen = ask_all(&mut set, way, pairs, seen);
        is_marked = is_marked && mark(alloc);
    }
    *checksum = seen;
    is_marked
}
