//! Handling with a counters record that is updated where it is.

use crate::handle::{handle, Answer};

/// Answer 4: a counter or the total is at its greatest value.
const FULL: u16 = 4;

/// One counter for each answer number, used or not, and a total.
#[repr(C)]
#[derive(Clone, Debug, PartialEq, Eq, Hash)]
pub struct Counters {
    /// Every answer number of a handling is under 64.
    pub by_answer: [u64; 64],
    pub total: u64,
}

impl Default for Counters {
    fn default() -> Self {
        Counters {
            by_answer: [0; 64],
            total: 0,
        }
    }
}

impl Counters {
    /// Whether any counter, also one that would not grow, is at its greatest
    /// value.
    fn full(&self) -> bool {
        self.by_answer.contains(&u64::MAX) || self.total == u64::MAX
    }
}

/// [`handle`] that is counted. Answer 4 comes before all others, is not counted
/// and changes nothing.
pub fn handle_counted(
    counters: &mut Counters,
    frame: &[u8],
    settings: &[u8],
    clock: &[u8],
    out: &mut [u8],
    beside: &mut [u8],
) -> Answer {
    if counters.full() {
        return Answer {
            number: FULL,
            ..Answer::default()
        };
    }
    let answer = handle(frame, settings, clock, out, beside);
    counters.by_answer[usize::from(answer.number)] += 1;
    counters.total += 1;
    answer
}
