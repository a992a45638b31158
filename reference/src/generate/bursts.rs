//! Cuts of a frame into bursts, and calls after its end.

use super::rng::Rng;
use super::{room, ReaderCall};

/// The bursts of a frame, its end mark, and now and then more calls.
pub(super) fn calls(rng: &mut Rng, frame: &[u8]) -> Vec<ReaderCall> {
    let mut calls = cuts(rng, frame);
    if rng.one_in(12) {
        // An octet past the greatest frame, or many, in one burst or two.
        let over = 2049_usize.saturating_sub(frame.len()) + rng.pick(&[0, 0, 1, 3000]);
        let octets = rng.octets(over);
        let at = rng.pick(&[0, 1, over.saturating_sub(1), over]).min(over);
        calls.extend([&octets[..at], &octets[at..]].map(|part| ReaderCall::Burst(part.to_vec())));
    }
    for _ in 0..rng.below(3) {
        let place = rng.below(calls.len() + 1);
        calls.insert(place, ReaderCall::Burst(Vec::new()));
    }
    calls.push(mark(rng));
    if rng.one_in(3) {
        for _ in 0..1 + rng.below(3) {
            let more = if rng.one_in(2) { mark(rng) } else { burst(rng) };
            calls.push(more);
        }
    }
    if rng.one_in(16) {
        // A mark amid the bursts.
        let place = rng.below(calls.len());
        calls.insert(place, mark(rng));
    }
    calls
}

fn mark(rng: &mut Rng) -> ReaderCall {
    ReaderCall::Mark {
        room: room(rng, 2048),
        beside_room: room(rng, 576),
    }
}

/// A burst of any octets.
fn burst(rng: &mut Rng) -> ReaderCall {
    let size = rng.pick(&[0, 0, 1, 14, 60, 2048, 2049]);
    ReaderCall::Burst(rng.octets(size))
}

/// Whole, octet by octet, in two, at places of the headers or at any.
fn cuts(rng: &mut Rng, frame: &[u8]) -> Vec<ReaderCall> {
    let any = frame.len() + 1;
    let mut places: Vec<usize> = match rng.below(6) {
        0 => Vec::new(),
        1 => (1..frame.len().min(70)).collect(),
        2 => vec![rng.below(any)],
        3 => [6, 12, 14, 18, 20, 24, 38, 42].to_vec(),
        4 => vec![frame.len().saturating_sub(1)],
        _ => (0..1 + rng.below(8)).map(|_| rng.below(any)).collect(),
    };
    places.retain(|&place| place <= frame.len());
    places.extend([0, frame.len()]);
    places.sort_unstable();
    let bursts = places.windows(2).map(|pair| &frame[pair[0]..pair[1]]);
    bursts
        .map(|octets| ReaderCall::Burst(octets.to_vec()))
        .collect()
}
