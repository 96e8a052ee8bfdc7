//! One map, several threads: four look keys up in it at once, two walk it at once, and another is put together of what four threads made.
#![tactic(auto)]

use fc_base::TryReserveError;
use fc_map::map::BTreeMap;
use std::alloc::{AllocError, Global};
use std::thread::Threads;
use std::{io, thread};

type Numbers = BTreeMap<u64, u64>;

const THREADS: usize = 4;

/// The numbers from `first` on below `end`, each with twice itself.
fn doubled(alloc: Global, first: u64, end: u64) -> Result<Numbers, TryReserveError> {
    let mut map = BTreeMap::new(alloc);
    for number in first..end {
        map.try_insert(number, number.wrapping_mul(2))?;
    }
    Ok(map)
}

/// The sum of the values at each fourth number below `end`, the first of which is `first`.
fn looked_up(map: &Numbers, first: u64, end: u64) -> u64 {
    let mut sum = 0u64;
    for number in first..end {
        if number % 4 == first % 4 {
            if let Some(value) = map.get(&number) {
                sum = sum.wrapping_add(*value);
            }
        }
    }
    sum
}

/// What each thread found, in order: a `&` to the map goes to each.
fn looked_up_by_four<R: Threads + Sync>(
    rt: &R,
    alloc: Global,
    map: &Numbers,
    end: u64,
) -> Result<Vec<u64>, AllocError> {
    thread::map_indices(rt, alloc, THREADS, &|i| looked_up(map, i as u64, end))
}

/// The sums of the keys and of the values, each by a thread.
fn walked_by_two<R: Threads + Sync>(rt: &R, map: &Numbers) -> (u64, u64) {
    thread::join(
        rt,
        || map.keys().fold(0u64, |sum, key| sum.wrapping_add(*key)),
        || map
            .values()
            .fold(0u64, |sum, value| sum.wrapping_add(*value)),
    )
}

/// A map of four times as many numbers: each thread makes a part and hands it over, and one after the other they are appended.
fn made_by_four<R: Threads + Sync>(
    rt: &R,
    alloc: Global,
    each: u64,
) -> Result<Numbers, TryReserveError> {
    let parts = thread::map_indices(
        rt,
        alloc,
        THREADS,
        &|i| {
            let first = (i as u64).wrapping_mul(each);
            doubled(alloc, first, first.wrapping_add(each))
        },
    )?;
    let mut whole = BTreeMap::new(alloc);
    for part in parts {
        whole.append(&mut part?)?;
    }
    Ok(whole)
}

fn main(rt: HostRuntime) -> io::Result<()> {
    let Ok(map) = made_by_four(&rt, rt.alloc(), 5000) else {
        return println!(rt; "no memory");
    };
    println!(rt;
        "{} pairs, from {:?} to {:?}",
        map.len(),
        map.first_key_value(),
        map.last_key_value()
    )?;
    for sum in &looked_up_by_four(&rt, rt.alloc(), &map, 20_000)? {
        println!(rt; "looked up: {sum}")?;
    }
    let (keys, values) = walked_by_two(&rt, &map);
    println!(rt; "keys {keys}, values {values}")
}
