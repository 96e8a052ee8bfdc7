//! Calls on the table of rows.
use super::{calls, key_at, mark, mixed, place};
use fc_index::{Keyed, Table};
use std::alloc::Global;
use std::ops::Bound;

type Rows = Table<u64, u64, u64, u64>;

const WAYS: u64 = 9;

fn put(table: &mut Rows, id: u64, value: u64) -> Option<u64> {
    match table.try_insert(id, id.wrapping_mul(3), value, value) {
        Ok(old) => checked(old),
        Err(_) => None,
    }
}

fn checked(row: Option<Keyed<u64, u64, u64>>) -> Option<u64> {
    let row = row?;
    Some(row.first ^ row.second ^ row.value)
}

fn made(alloc: Global, pairs: u64) -> Rows {
    let mut table = Table::new(alloc);
    for place in 0..pairs {
        put(&mut table, key_at(place), place);
    }
    table
}

fn ask(table: &mut Rows, way: u64, id: u64) -> Option<u64> {
    match way {
        0 => table.get(id).map(|row| row.value),
        1 => table.get(id.wrapping_add(1)).map(|row| row.value),
        2 => Some(u64::from(table.contains(id))),
        3 => table.set_value(id, id).ok(),
        4 => {
            let first = Bound::Included(id.wrapping_mul(3));
            table
                .by_first((first, Bound::Unbounded))
                .next()
                .map(|row| row.1)
        }
        5 => Some(table.len() as u64),
        6 => put(table, id, id.wrapping_add(1)),
        7 => put(table, id.wrapping_add(1), id),
        _ => checked(table.remove(id.wrapping_add(1))),
    }
}

fn ask_all(table: &mut Rows, way: u64, pairs: u64, start: u64) -> u64 {
    let mut seen = start;
    for turn in 0..calls(pairs) {
        seen = mixed(seen, ask(table, way, key_at(place(turn, pairs))));
    }
    seen
}

/// A phase for each call on one row.
#[unsafe(no_mangle)]
pub extern "C" fn short_rows(alloc: Global, pairs: u64, checksum: &mut u64) -> bool {
    let mut table = made(alloc, pairs);
    let mut seen = 0;
    let mut is_marked = mark(alloc);
    for way in 0..WAYS {
        seen = ask_all(&mut table, way, pairs, seen);
        is_marked = is_marked && mark(alloc);
    }
    *checksum = seen;
    is_marked
}
