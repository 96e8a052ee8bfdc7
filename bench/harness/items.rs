//! Keys and values that are made of numbers, as `crates/bench_kinds` makes them.

/// How a text begins where all have a long beginning in common.
pub const BEGINNING: &str = "customers/north/orders/by-date/";

/// A type of keys; a text begins with `beginning`.
pub trait Key: Ord {
    fn of(beginning: &str, number: u64) -> Self;
    fn number(&self) -> u64;
}

impl Key for u64 {
    fn of(_: &str, number: u64) -> u64 {
        number
    }

    fn number(&self) -> u64 {
        *self
    }
}

impl Key for (u64, u64) {
    fn of(_: &str, number: u64) -> (u64, u64) {
        (number % 16, number)
    }

    fn number(&self) -> u64 {
        self.1
    }
}

impl Key for String {
    fn of(beginning: &str, number: u64) -> String {
        let mut text = String::with_capacity(64);
        text.push_str(beginning);
        let mut left = number;
        for _ in 0..13 {
            text.push(char::from(b'a' + (left % 26) as u8));
            left /= 26;
        }
        text
    }

    fn number(&self) -> u64 {
        self.as_bytes().last().map_or(0, |letter| u64::from(*letter))
    }
}

/// A type of values: numbers in a row, of which there may be none.
pub trait Value {
    fn of(number: u64) -> Self;
    fn number(&self) -> u64;
}

impl<const N: usize> Value for [u64; N] {
    fn of(number: u64) -> [u64; N] {
        [number; N]
    }

    fn number(&self) -> u64 {
        self.last().copied().unwrap_or(0)
    }
}
