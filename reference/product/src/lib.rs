//! The proved libraries, as a C driver links them, with answers in the second
//! program's types: for comparing and for timing the two.

#![forbid(unsafe_code)]

use reference::{Answer, Counters, Outcome, Way};

pub use staffripple::Counters as LentCounters;
pub use staffripple::Printed as TextAnswer;
pub use staffripple::{prepare, reader_burst, reader_start, text};
pub use staffripple::{TRILL_FRAME_MOST, TRILL_PREPARED_WORDS, TRILL_READER_WORDS};

fn answer(answer: staffripple::Answer) -> Answer {
    Answer {
        number: answer.number,
        written: answer.written,
        start: answer.start,
        length: answer.length,
        neighbour: answer.neighbour,
        beside: answer.beside,
        beside_neighbour: answer.beside_neighbour,
    }
}

fn way(way: staffripple::WayOut) -> Way {
    Way {
        number: way.number,
        length: way.length,
    }
}

/// One handling by the product.
#[inline]
pub fn handle(
    frame: &[u8],
    settings: &[u8],
    clock: &[u8],
    out: &mut [u8],
    beside: &mut [u8],
) -> Answer {
    answer(staffripple::handle(frame, settings, clock, out, beside))
}

/// One counted handling by the product.
pub fn handle_counted(
    counters: &mut Counters,
    frame: &[u8],
    settings: &[u8],
    clock: &[u8],
    out: &mut [u8],
    beside: &mut [u8],
) -> Answer {
    let mut lent = LentCounters {
        by_answer: counters.by_answer,
        total: counters.total,
    };
    let given = handle_counted_lent(&mut lent, frame, settings, clock, out, beside);
    counters.by_answer = lent.by_answer;
    counters.total = lent.total;
    given
}

/// The same with counters that are not copied.
#[inline]
pub fn handle_counted_lent(
    counters: &mut LentCounters,
    frame: &[u8],
    settings: &[u8],
    clock: &[u8],
    out: &mut [u8],
    beside: &mut [u8],
) -> Answer {
    answer(staffripple::handle_counted(
        counters, frame, settings, clock, out, beside,
    ))
}

/// One handling by the product with a store.
#[inline]
pub fn handle_prepared(
    frame: &[u8],
    store: &[u64],
    clock: &[u8],
    out: &mut [u8],
    beside: &mut [u8],
) -> Answer {
    answer(staffripple::handle_prepared(
        frame, store, clock, out, beside,
    ))
}

/// The end mark of a reader of the product.
#[inline]
pub fn reader_mark(
    reader: &mut [u64],
    gathered: &[u8],
    out: &mut [u8],
    beside: &mut [u8],
) -> Answer {
    answer(staffripple::reader_mark(reader, gathered, out, beside))
}

/// The way out to a destination by the product.
#[inline]
pub fn way_out(settings: &[u8], destination: u16, out: &mut [u8]) -> Way {
    way(staffripple::way_out(settings, destination, out))
}

/// The same with a store.
#[inline]
pub fn way_out_prepared(store: &[u64], destination: u16, out: &mut [u8]) -> Way {
    way(staffripple::way_out_prepared(store, destination, out))
}

/// One campus run by the product.
#[inline]
pub fn run(description: &[u8], trace: &mut [u8]) -> Outcome {
    let outcome = staffripple::run(description, trace);
    Outcome {
        code: outcome.code,
        count: outcome.count,
    }
}
