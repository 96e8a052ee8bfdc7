//! Calls on the queue of timers.
use super::{calls, mark, mixed, place};
use fc_timers::{Timer, TimerQueue};
use std::alloc::Global;

type Queue = TimerQueue<u64, u64>;

const WAYS: u64 = 8;

fn made(alloc: Global, pairs: u64) -> Option<(Queue, Vec<Timer>)> {
    let mut queue = TimerQueue::new(alloc);
    let mut timers = Vec::with_capacity(alloc, pairs as usize).ok()?;
    for turn in 0..pairs {
        let timer = queue.try_insert(place(turn, pairs), turn).ok()?;
        timers.push(timer).ok()?;
    }
    Some((queue, timers))
}

fn rescheduled(queue: &mut Queue, timer: Timer) -> Option<u64> {
    let at = *queue.get(timer)?.0;
    queue.reschedule(timer, at.wrapping_add(10)).ok()
}

fn ask(queue: &mut Queue, way: u64, timer: Timer, turn: u64) -> Option<u64> {
    match way {
        0 => queue.get(timer).map(|(at, _value)| *at),
        1 => queue.next_deadline().copied(),
        2 => Some((queue.len() ^ queue.capacity()) as u64),
        3 => rescheduled(queue, timer),
        4 => queue.cancel(timer).map(|(at, value)| at ^ value),
        5 => Some(u64::from(queue.try_insert(turn, turn).is_ok())),
        6 => queue.pop_due(&u64::MAX).map(|(_timer, at, value)| at ^ value),
        _ => queue.pop_due(&0).map(|(_timer, at, value)| at ^ value),
    }
}

fn ask_all(queue: &mut Queue, way: u64, timers: &[Timer], start: u64) -> u64 {
    let pairs = timers.len() as u64;
    let mut seen = start;
    for turn in 0..calls(pairs) / 3 {
        if let Some(timer) = timers.get(place(turn, pairs) as usize) {
            seen = mixed(seen, ask(queue, way, *timer, turn));
        }
    }
    seen
}

/// A phase for each call on one timer. A third of them is taken out, and as many put in.
#[unsafe(no_mangle)]
pub extern "C" fn short_timers(alloc: Global, pairs: u64, checksum: &mut u64) -> bool {
    let Some((mut queue, timers)) = made(alloc, pairs) else {
        return false;
    };
    let mut seen = 0;
    let mut is_marked = mark(alloc);
    for way in 0..WAYS {
        seen = ask_all(&mut queue, way, timers.as_slice(), seen);
        is_marked = is_marked && mark(alloc);
    }
    *checksum = seen;
    is_marked
}
