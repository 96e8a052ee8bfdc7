//! How deep the stack goes: what lies below is written full of one byte, and later the lowest byte is looked for that is another one.
use std::hint::black_box;
use std::ptr;

const PAINTED: usize = 1 << 18;
const BYTE: u8 = 0xa5;
// The frames of what paints.
const OWN: usize = 512;

#[inline(never)]
pub fn here() -> usize {
    let local = 0u8;
    black_box(&raw const local) as usize
}

/// Fills the stack below with the byte.
#[inline(never)]
pub fn paint() {
    let end = here() - OWN;
    for at in end - PAINTED..end {
        unsafe { ptr::write_volatile(at as *mut u8, BYTE) };
    }
}

/// The lowest address of those painted that was written to since.
#[inline(never)]
pub fn lowest() -> usize {
    let end = here() - OWN;
    (end - PAINTED..end)
        .find(|at| unsafe { ptr::read_volatile(*at as *const u8) } != BYTE)
        .unwrap_or(end)
}
