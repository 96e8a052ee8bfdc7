//! What the drivers share: the word they are given, random numbers and keys, the marks of a job, rounds of ours and of std's in turn, what both answer as one
//! number, and rows as they are printed.
#![allow(dead_code, unused_imports)] // Each driver uses a part of it.
pub mod counted;
pub mod folded;
pub mod heap;
pub mod items;
pub mod keys;
pub mod one_key;
pub mod phases;
pub mod random;
pub mod rounds;
pub mod sizes;
pub mod stack;

pub use counted::{count, tell, tell_second, tell_second_of};
pub use folded::Folded;
pub use keys::Keys;
pub use phases::{machine, mark};
pub use random::Random;
pub use rounds::{Form, Runs, compare, print_row};

/// Does what goes by the word of the command line, or what comes last where it is none of these.
pub fn start(words: &[(&str, fn())], otherwise: fn()) {
    let given = std::env::args().nth(1);
    let found = words.iter().find(|(word, _)| given.as_deref() == Some(*word));
    found.map_or(otherwise, |(_, run)| *run)();
}

/// Of the sizes, each with its rounds of runs, those that the command line names behind the word, or all where it names none.
pub fn chosen<const N: usize>(sizes: [(usize, usize); N]) -> Vec<(usize, usize)> {
    let named: Vec<String> = std::env::args().skip(2).collect();
    sizes.into_iter().filter(|(size, _)| named.is_empty() || named.contains(&size.to_string())).collect()
}

/// Prints what the rows of a driver tell, and the machine.
pub fn print_head(told: &str) {
    println!("{told}");
    println!("{}", machine());
}

/// A checksum of all answers so far, which depends on each of them and on their order, as the jobs make it.
pub fn mixed(checksum: u64, answer: Option<u64>) -> u64 {
    checksum.rotate_left(5) ^ answer.map_or(0, |value| value.wrapping_add(1))
}
