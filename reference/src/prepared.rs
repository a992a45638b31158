//! Settings read once and then used for many frames.

use crate::cause::Fault;
use crate::handle::{admitted, Answer};
use crate::settings::{NextHop, Own, Record, Station, Switch};

/// Places of the table; at most half of them are taken.
const PLACES: usize = 128;
const PLACE_BITS: u32 = PLACES.ilog2();

/// Good settings, with the ruling record of each destination found by a hash of
/// its nickname.
pub struct Prepared {
    own: Own,
    /// Each record where its destination hashes to or in the places after that;
    /// empty ones between, so that a search ends.
    records: [Record; PLACES],
}

impl Prepared {
    /// Reads settings octets; bad ones give their fault.
    pub fn new(settings: &[u8]) -> Result<Self, Fault> {
        let mut switch = Switch::EMPTY;
        switch.read(settings)?;
        let mut prepared = Prepared {
            own: *switch.own(),
            records: [Record::EMPTY; PLACES],
        };
        for record in switch.records() {
            let place = prepared.place(record.destination);
            let known = &mut prepared.records[place];
            if known.destination == 0 || known.serial < record.serial {
                *known = record;
            }
        }
        Ok(prepared)
    }

    /// Where the destination's record is, or the empty place where it would be.
    #[inline]
    fn place(&self, destination: u16) -> usize {
        let mut place = usize::from(destination.wrapping_mul(0x9E37) >> (16 - PLACE_BITS));
        while ![0, destination].contains(&self.records[place].destination) {
            place = (place + 1) % PLACES;
        }
        place
    }
}

impl Station for Prepared {
    #[inline]
    fn own(&self) -> &Own {
        &self.own
    }

    #[inline]
    fn next_hop(&self, destination: u16) -> Option<NextHop> {
        self.records[self.place(destination)].next_hop()
    }
}

/// [`handle`](crate::handle()) with settings that were read before.
pub fn handle_prepared(
    frame: &[u8],
    prepared: &Prepared,
    clock: &[u8],
    out: &mut [u8],
    beside: &mut [u8],
) -> Answer {
    admitted(prepared, frame, clock, out, beside).answer()
}
