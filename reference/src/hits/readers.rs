//! What the calls of a reader show.

use super::Feature;
use crate::generate::{ReaderCall, ReaderInput};
use crate::Reader;

/// An answer of one of a reader's three calls.
#[derive(Clone, Copy, Debug, PartialEq, Eq, PartialOrd, Ord)]
pub enum ReaderHit {
    Start(u16),
    Burst(u16),
    Mark(u16),
}

/// Answers in their order, and features.
pub(super) struct Shown {
    pub answers: Vec<ReaderHit>,
    pub features: Vec<(Feature, bool)>,
}

pub(super) fn run(input: &ReaderInput) -> Shown {
    let (room, beside_room) = (input.room, input.beside_room);
    let (mut reader, number) = Reader::start(&input.settings, &input.clock, room, beside_room);
    let mut answers = vec![ReaderHit::Start(number)];
    let mut features = Vec::new();
    for call in &input.calls {
        let before = *answers.last().expect("a start");
        let answer = match call {
            ReaderCall::Burst(octets) => {
                let full = reader.gathered().len() == 2048;
                let number = reader.burst(octets);
                let empty = octets.is_empty();
                features.push((Feature::EmptyBurst, empty && number == 0));
                features.push((Feature::EmptyBurstAfterAll, empty && full && number == 0));
                features.push((Feature::OctetTooMany, number == 3 && octets.len() == 1));
                ReaderHit::Burst(number)
            }
            &ReaderCall::Mark { room, beside_room } => {
                let (mut out, mut beside) = (vec![0; room], vec![0; beside_room]);
                let number = reader.mark(&mut out, &mut beside).number;
                let early = |number| matches!(before, ReaderHit::Burst(n) if n == number);
                let short = room < 2048;
                features.push((Feature::LongFrameAndShortOutput, number == 3 && short));
                features.push((Feature::AnewAtMark, number == 2 && early(0)));
                features.push((Feature::BesideAnewAtMark, number == 37 && early(0)));
                ReaderHit::Mark(number)
            }
        };
        let is_36 = matches!(answer, ReaderHit::Burst(36) | ReaderHit::Mark(36));
        let at_mark = |number| before == ReaderHit::Mark(number);
        features.push((Feature::EndedByEarly3, is_36 && at_mark(3)));
        features.push((Feature::EndedByShortOutput, is_36 && at_mark(2)));
        answers.push(answer);
    }
    Shown { answers, features }
}
