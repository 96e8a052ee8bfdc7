//! The allocator of a driver whose jobs make and drop long vectors.
use std::ffi::c_int;

const TRIM_THRESHOLD: c_int = -1;
const MMAP_THRESHOLD: c_int = -3;
const NEVER: c_int = 1 << 30;

unsafe extern "C" {
    fn mallopt(parameter: c_int, value: c_int) -> c_int;
}

/// What a vector gives back stays with the allocator from now on, so that no run waits for pages of the kernel's.
pub fn keep_all() {
    unsafe {
        mallopt(TRIM_THRESHOLD, NEVER);
        mallopt(MMAP_THRESHOLD, NEVER);
    }
}
