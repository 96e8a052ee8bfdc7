//! The phases of a job: when each ended, how much memory the allocator then held, and how much of the stack it took.
//!
//! A job runs inside the library and can read no clock. So it asks for `MARK` bytes between two phases: this program's `malloc`
//! answers none, and takes the time. All requests of both maps go through that `malloc`, so neither is the slower for it.
use super::stack::{here, lowest, paint};
use crate::jobs::MARK;
use std::ffi::{c_int, c_long, c_void};
use std::ptr;
use std::{env, fs};

const MOST: usize = 8;
// Not the clock of processor time: a guest's kernel takes the time that another guest stole off that one, at times in a later phase
// than it was stolen in, so that a phase may show less than it took, or nothing. Of this clock's times the least is never too low.
const MONOTONIC: c_int = 1;

#[repr(C)]
struct Time {
    seconds: i64,
    nanoseconds: c_long,
}

// What glibc tells of its heap: the eighth number is the bytes in blocks that are in use.
#[repr(C)]
struct Heap([usize; 10]);

unsafe extern "C" {
    fn __real_malloc(size: usize) -> *mut c_void;
    fn clock_gettime(clock: c_int, time: *mut Time) -> c_int;
    fn mallinfo2() -> Heap;
}

#[derive(Clone, Copy)]
struct Mark {
    // The time when the phase ended, and when the next began.
    ended: f64,
    begun: f64,
    // What the allocator held, and how deep the stack went, where that is asked for.
    bytes: usize,
    depth: usize,
}

const NONE: Mark = Mark {
    ended: 0.0,
    begun: 0.0,
    bytes: 0,
    depth: 0,
};
static mut MARKS: [Mark; MOST] = [NONE; MOST];
static mut COUNT: usize = 0;
static mut WEIGHED: bool = false;
// Where the stack of a job begins whose depth is asked for, or 0.
static mut TOP: usize = 0;

/// The linker puts this in the place of `malloc` (`--wrap=malloc`).
#[unsafe(no_mangle)]
pub unsafe extern "C" fn __wrap_malloc(size: usize) -> *mut c_void {
    if size == MARK {
        mark();
        return ptr::null_mut();
    }
    unsafe { __real_malloc(size) }
}

fn now() -> f64 {
    let mut time = Time {
        seconds: 0,
        nanoseconds: 0,
    };
    unsafe { clock_gettime(MONOTONIC, &mut time) };
    time.seconds as f64 * 1e9 + time.nanoseconds as f64
}

/// Ends a phase. `bench/instructions.py` looks for calls of it.
#[inline(never)]
pub fn mark() {
    let top = unsafe { TOP };
    let depth = if top > 0 { top - lowest() } else { 0 };
    let ended = now();
    unsafe {
        let bytes = if WEIGHED { mallinfo2().0[7] } else { 0 };
        MARKS[COUNT] = Mark {
            ended,
            begun: now(),
            bytes,
            depth,
        };
        COUNT += 1;
    }
    if top > 0 {
        paint();
    }
}

/// Nanoseconds that each phase of the job took: what lies between two marks.
pub fn phases(job: impl FnOnce()) -> Vec<f64> {
    unsafe { COUNT = 0 };
    job();
    let marks = unsafe { MARKS };
    let count = unsafe { COUNT };
    (1..count)
        .map(|i| marks[i].ended - marks[i - 1].begun)
        .collect()
}

/// Bytes that the allocator held at the end of each phase more than when the first began, its own heads of blocks among them.
pub fn weights(job: impl FnOnce()) -> Vec<usize> {
    unsafe { WEIGHED = true };
    let count = phases(job).len();
    unsafe { WEIGHED = false };
    let marks = unsafe { MARKS };
    (1..=count).map(|i| marks[i].bytes - marks[0].bytes).collect()
}

/// The bytes of stack that each phase of the job took, from its caller on, so that its own frames and those of the allocator count too: what it tells is too
/// much rather than too little.
#[inline(never)]
pub fn depths(job: impl FnOnce()) -> Vec<usize> {
    unsafe { TOP = here() };
    let count = phases(job).len();
    unsafe { TOP = 0 };
    let marks = unsafe { MARKS };
    (1..=count).map(|i| marks[i].depth).collect()
}

/// The machine, and what else it does, after the commit that `bench/run` measures.
pub fn machine() -> String {
    let commit = env::var("COMMIT").map_or(String::new(), |commit| format!("at {commit}: "));
    let text = |file| fs::read_to_string(file).unwrap_or_default();
    let info = text("/proc/cpuinfo");
    let models: Vec<&str> = info
        .lines()
        .filter_map(|line| line.strip_prefix("model name\t: "))
        .collect();
    let load = text("/proc/loadavg");
    format!(
        "{commit}{} cores ({}), load {}",
        models.len(),
        models.first().unwrap_or(&"unknown"),
        load.split(' ').next().unwrap_or("unknown")
    )
}
