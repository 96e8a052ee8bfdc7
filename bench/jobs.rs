//! The jobs of the crates `bench_jobs`, `bench_kinds`, `bench_budget`, `bench_uses` and `bench_own`, of which each driver calls some.
#![allow(dead_code)]

/// What a job asks for where a phase begins or ends, as `mark` of these crates does.
pub const MARK: usize = 1 << 62;

/// A call on the map, and what it answered.
#[repr(C)]
#[derive(Clone, Copy, Debug, PartialEq)]
pub struct Step {
    pub call: u64,
    pub key: u64,
    pub value: u64,
    pub found: bool,
    pub answer: u64,
    pub len: usize,
}

// A function for each job, of lists, of what else it takes, and of what it tells. A list goes to the job as its place and its length.
macro_rules! jobs {
    ($($name:ident([$($list:ident: $item:ty),*] $(, $more:ident: $kind:ty)*) -> $told:ty;)*) => {$(
        #[inline(always)]
        pub fn $name($($list: &[$item],)* $($more: $kind),*) -> $told {
            unsafe extern "C" {
                fn $name($($list: *const $item, _: usize,)* $($more: $kind,)* told: *mut $told) -> bool;
            }
            let mut told = 0;
            let done = unsafe { $name($($list.as_ptr(), $list.len(),)* $($more,)* &mut told) };
            assert!(done, "memory was refused");
            told
        }
    )*};
}

jobs! {
    bench_map_run([keys: u64, sought: u64, removed: u64], way: u64) -> u64;
    bench_map_count([keys: u64], by_entry: bool) -> usize;
    bench_map_put([keys: u64], is_made_ready: bool) -> usize;
    bench_map_neighbours([keys: u64, sought: u64], way: u64) -> u64;
    bench_map_walk([keys: u64, starts: u64], way: u64, times: u64) -> u64;
    bench_map_whole([keys: u64, others: u64], at: u64, way: u64) -> u64;
    bench_map_collect([keys: u64]) -> usize;
    bench_set_run([items: u64, sought: u64, taken: u64, removed: u64]) -> u64;
    bench_set_walk([items: u64, others: u64], way: u64, times: u64) -> u64;
    bench_map_hash([keys: u64, sought: u64]) -> u64;
    bench_map_read([bytes: u8], limit: u64, times: u64) -> u64;
    bench_map_copy_bytes([bytes: u8], way: u64, times: u64) -> u64;
    bench_map_push_numbers([], count: u64, times: u64) -> u64;
    bench_kinds_run([numbers: u64, sought: u64, removed: u64], kind: u64) -> u64;
    bench_kinds_entries([keys: u64, there: u64, starts: u64]) -> u64;
    bench_kinds_load([keys: u64], times: u64) -> u64;
    bench_kinds_append([keys: u64, others: u64]) -> u64;
    bench_budget_run([keys: u64, sought: u64, removed: u64], way: u64, is_in_budget: bool) -> u64;
    bench_budget_walk([keys: u64], times: u64, is_in_budget: bool) -> u64;
    bench_budget_whole([keys: u64, others: u64], way: u64, is_in_budget: bool) -> u64;
    bench_intervals_run([starts: u64, points: u64, ranges: u64, puts: u64, cuts: u64], short: u64, long: u64) -> u64;
    bench_timers_run([times: u64, moved: usize, later: u64, cancelled: usize], now: u64) -> u64;
    bench_timers_steady([times: u64, steps: u64, later: u64]) -> u64;
    bench_tables_run([ids: u64, firsts: u64, seconds: u64, sought: u64, keys: u64, removed: u64]) -> u64;
    bench_caches_run([keys: u64, others: u64, sought: u64, missing: u64], budget: usize) -> u64;
    bench_lru_run([keys: u64, others: u64, sought: u64, missing: u64], most: usize) -> u64;
    bench_own_run([keys: u64, sought: u64, removed: u64]) -> u64;
}

/// Makes the calls of the steps, and notes what they answered.
pub fn bench_map_follow(steps: &mut [Step]) {
    unsafe extern "C" {
        fn bench_map_follow(steps: *mut Step, step_count: usize) -> bool;
    }
    assert!(unsafe { bench_map_follow(steps.as_mut_ptr(), steps.len()) }, "memory was refused");
}
