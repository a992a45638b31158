//! Median times, the programs by turns.

use std::time::{Duration, Instant};

use crate::cases::{Case, Program};

/// Time of a batch: long beside reading the clock, short beside the slices of
/// time that other processes get.
const BATCH: Duration = Duration::from_micros(30);
const ROUNDS: usize = 400;

/// Nanoseconds of one call.
pub struct Times {
    pub proved: f64,
    pub second: f64,
    pub copy: f64,
}

/// Batches of one program and what each took.
struct Batches {
    program: Program,
    /// Calls in a batch.
    calls: u64,
    taken: Vec<Duration>,
}

impl Batches {
    fn new(case: &Case, program: Program) -> Self {
        Batches {
            program,
            calls: calls_in_a_batch(case, program),
            taken: Vec::with_capacity(ROUNDS),
        }
    }

    fn add(&mut self, case: &Case) {
        self.taken.push(time(case, self.program, self.calls));
    }

    fn median(mut self) -> f64 {
        self.taken.sort_unstable();
        self.taken[self.taken.len() / 2].as_nanos() as f64 / self.calls as f64
    }
}

/// The programs take turns, so that what else the machine does meets all of
/// them; every other round goes backwards, so that none always follows the
/// same one.
pub fn measure(case: &Case) -> Times {
    let programs = [Program::Proved, Program::Second, Program::Copy];
    let mut batches = programs.map(|program| Batches::new(case, program));
    for round in 0..ROUNDS {
        if round % 2 == 0 {
            batches.iter_mut().for_each(|batches| batches.add(case));
        } else {
            batches
                .iter_mut()
                .rev()
                .for_each(|batches| batches.add(case));
        }
    }
    let [proved, second, copy] = batches.map(Batches::median);
    Times {
        proved,
        second,
        copy,
    }
}

fn time(case: &Case, program: Program, calls: u64) -> Duration {
    let start = Instant::now();
    case.repeat(program, calls);
    start.elapsed()
}

/// Doubles the calls until they take a batch's time; warms up on the way.
fn calls_in_a_batch(case: &Case, program: Program) -> u64 {
    let mut calls = 1;
    while time(case, program, calls) < BATCH {
        calls *= 2;
    }
    calls
}
