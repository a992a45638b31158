//! Counters records.

use super::rng::Rng;
use crate::Counters;

/// Answers that are often given, and numbers that are never counted.
const OFTEN: [usize; 8] = [1, 10, 12, 21, 50, 51, 53, 54];
const NEVER: [usize; 6] = [0, 4, 19, 36, 57, 63];

/// Zero, far from the greatest value, near it or at it.
pub(super) fn counters(rng: &mut Rng, calls: usize) -> Counters {
    let mut counters = Counters::default();
    if rng.one_in(2) {
        counters.by_answer = std::array::from_fn(|_| rng.next() >> 2);
        counters.total = rng.next() >> 2;
    }
    let (slot, near) = (rng.below(64), u64::MAX - rng.below(calls + 1) as u64);
    match rng.below(8) {
        0 => counters.total = near,
        1 => counters.by_answer[rng.pick(&OFTEN)] = near,
        2 => counters.by_answer[rng.pick(&NEVER)] = near,
        3 => counters.by_answer[slot] = near,
        // Whatever is answered fills its counter, or fills it next time.
        4 => counters.by_answer = [u64::MAX - 1 - rng.below(2) as u64; 64],
        _ => {}
    }
    counters
}
