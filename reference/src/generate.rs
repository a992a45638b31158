//! Seeded inputs for comparisons: a seed and an index give one input, always
//! the same. Most inputs are valid but for one chosen place, so that every
//! answer and every cause is met, near its boundary.

mod areas;
mod bursts;
mod campuses;
mod counts;
mod faults;
mod flags;
mod frames;
mod rng;
mod switches;

use campuses::Plan;
use frames::Site;
use rng::Rng;
use switches::Settings;

use crate::Counters;

/// An input of the handling call.
#[derive(Clone, Debug, PartialEq, Eq, Hash)]
pub struct HandleInput {
    pub frame: Vec<u8>,
    pub settings: Vec<u8>,
    pub clock: Vec<u8>,
    /// Octets of the lent output.
    pub room: usize,
    /// Octets of the second lent output.
    pub beside_room: usize,
}

/// Calls with one counters record, one after the other.
#[derive(Clone, Debug, PartialEq, Eq, Hash)]
pub struct CountedInput {
    /// Before the first call.
    pub counters: Counters,
    pub calls: Vec<HandleInput>,
}

/// A reader's start, and the calls after it.
#[derive(Clone, Debug, PartialEq, Eq, Hash)]
pub struct ReaderInput {
    pub settings: Vec<u8>,
    pub clock: Vec<u8>,
    /// Octets of both outputs, as the start is told.
    pub room: usize,
    pub beside_room: usize,
    pub calls: Vec<ReaderCall>,
}

/// A call of a reader that was started.
#[derive(Clone, Debug, PartialEq, Eq, Hash)]
pub enum ReaderCall {
    Burst(Vec<u8>),
    /// The end mark, and octets of both lent outputs.
    Mark {
        room: usize,
        beside_room: usize,
    },
}

/// An input of the call that hands back a part of a frame.
#[derive(Clone, Debug, PartialEq, Eq, Hash)]
pub struct PartInput {
    pub frame: Vec<u8>,
    pub start: u64,
    pub length: u64,
}

/// An input of the way-out call.
#[derive(Clone, Debug, PartialEq, Eq, Hash)]
pub struct WayInput {
    pub settings: Vec<u8>,
    pub destination: u16,
    /// Octets of the lent output.
    pub room: usize,
}

/// An input of the campus call.
#[derive(Clone, Debug, PartialEq, Eq, Hash)]
pub struct CampusInput {
    pub description: Vec<u8>,
    /// Octets of the lent trace.
    pub room: usize,
}

/// One handling: settings, a frame for them, clock and room.
pub fn handle_input(seed: u64, index: u64) -> HandleInput {
    let mut rng = Rng::new(seed, 1, index);
    let settings = Settings::new(&mut rng);
    let site = Site {
        mac: settings.mac,
        edition: settings.edition,
        egress: settings.nickname,
        live: settings.live.clone(),
        dead: settings.dead.clone(),
    };
    let octets = settings_octets(&mut rng, &settings);
    HandleInput {
        frame: frames::frame(&mut rng, &site),
        settings: octets,
        clock: clock(&mut rng),
        room: room(&mut rng, 2048),
        beside_room: room(&mut rng, 576),
    }
}

/// Counters, near their greatest value or not, and calls, some of them repeated.
pub fn counted_input(seed: u64, index: u64) -> CountedInput {
    let mut rng = Rng::new(seed, 5, index);
    let mut calls = Vec::new();
    for number in 0..1 + rng.below(4) as u64 {
        let call = handle_input(seed, index.wrapping_mul(4) + number);
        let times = if rng.one_in(3) { 2 } else { 1 };
        calls.extend(vec![call; times]);
    }
    CountedInput {
        counters: counts::counters(&mut rng, calls.len()),
        calls,
    }
}

/// A frame for settings, cut in any way, and calls after its end.
pub fn reader_input(seed: u64, index: u64) -> ReaderInput {
    let HandleInput {
        frame,
        settings,
        clock,
        room,
        beside_room,
    } = handle_input(seed, index);
    let mut rng = Rng::new(seed, 6, index);
    ReaderInput {
        settings,
        clock,
        room,
        beside_room,
        calls: bursts::calls(&mut rng, &frame),
    }
}

/// The fields of a switch, sometimes bad.
fn settings_octets(rng: &mut Rng, settings: &Settings) -> Vec<u8> {
    let mut fields = settings.fields(rng);
    if rng.one_in(10) {
        switches::spoil(rng, &mut fields);
    }
    let mut octets = fields.concat();
    if rng.one_in(100) {
        octets.pop();
    }
    octets
}

/// Mostly six octets.
fn clock(rng: &mut Rng) -> Vec<u8> {
    let length = if rng.one_in(50) {
        rng.pick(&[0, 1, 5, 7, 12])
    } else {
        6
    };
    rng.octets(length)
}

/// Mostly the room asked for or more.
fn room(rng: &mut Rng, asked: usize) -> usize {
    match rng.below(60) {
        0 => rng.pick(&[0, 1, 8, asked - 8]),
        1 => asked - 1,
        2..6 => asked + 1,
        6..9 => asked + 8,
        9 => 2 * asked + rng.below(asked),
        _ => asked,
    }
}

/// A range near the ends of a frame, or of the numbers.
pub fn part_input(seed: u64, index: u64) -> PartInput {
    let mut rng = Rng::new(seed, 2, index);
    let size = match rng.below(8) {
        0 => 0,
        1 => rng.pick(&[1, 2, 2047, 2048, 2049]),
        _ => rng.below(64),
    };
    let frame = rng.octets(size);
    let start = edge(&mut rng, size as u64);
    let length = match rng.below(4) {
        // start + length lies within the frame, but only modulo 2^64.
        0 => edge(&mut rng, size as u64).wrapping_sub(start),
        1 => (size as u64).saturating_sub(start) + rng.below(2) as u64,
        _ => edge(&mut rng, size as u64),
    };
    PartInput {
        frame,
        start,
        length,
    }
}

fn edge(rng: &mut Rng, size: u64) -> u64 {
    match rng.below(16) {
        0 => 0,
        1 => size,
        2 => size + 1,
        3 => size.saturating_sub(1),
        4 => u64::MAX - rng.below(4) as u64,
        5 => rng.pick(&[1 << 31, 1 << 32, 1 << 63, (1 << 32) - 1]),
        6 => rng.next(),
        _ => rng.below(size as usize + 1) as u64,
    }
}

/// Settings, a destination among theirs or not, and room near a link header's.
pub fn way_input(seed: u64, index: u64) -> WayInput {
    let mut rng = Rng::new(seed, 4, index);
    let mut settings = Settings::new(&mut rng);
    if rng.one_in(4) {
        settings.add_own(&mut rng);
    }
    WayInput {
        destination: settings.destination(&mut rng),
        settings: settings_octets(&mut rng, &settings),
        room: match rng.below(6) {
            0 => rng.pick(&[13, 14, 17, 18]),
            1 => rng.pick(&[100, 2048]),
            _ => rng.below(25),
        },
    }
}

/// A campus, valid or refused, and the room of its trace.
pub fn campus_input(seed: u64, index: u64) -> CampusInput {
    let mut rng = Rng::new(seed, 3, index);
    let plan = Plan::new(&mut rng);
    let description = match rng.below(100) {
        0 => {
            let size = rng.below(80);
            rng.octets(size)
        }
        1..31 => plan.spoiled(&mut rng),
        _ => plan.description(&mut rng),
    };
    let room = if plan.has_edition_2() && !rng.one_in(12) {
        rng.pick(&[32_767, 32_768, 32_768, 32_768, 32_768, 32_769, 32_776])
    } else {
        room(&mut rng, 640)
    };
    CampusInput { description, room }
}
