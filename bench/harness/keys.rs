//! Random keys, in the orders that jobs on one key take them.
use super::random::Random;

const LEAST_LOOKUPS: usize = 10_000;

/// The keys of a job in the order that they come in, the look-ups and the removals.
pub struct Keys {
    pub inserted: Vec<u64>,
    pub sought: Vec<u64>,
    pub removed: Vec<u64>,
}

impl Keys {
    pub fn new(pairs: usize) -> Keys {
        let mut random = Random(pairs as u64);
        let inserted: Vec<u64> = (0..pairs).map(|_| random.next()).collect();
        let removed = random.shuffled(inserted.clone());
        let mut sought = Vec::new();
        while sought.len() < LEAST_LOOKUPS.max(pairs) {
            sought.extend(random.shuffled(inserted.clone()));
        }
        Keys {
            inserted,
            sought,
            removed,
        }
    }
}
