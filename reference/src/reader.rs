//! A frame that arrives in bursts.

use crate::cause::Cause;
use crate::handle::{admit_clock, admit_rooms, Answer};
use crate::prepared::{handle_prepared, Prepared};
use crate::settings::MAX_FRAME;

/// Answer 36: a burst or a mark after the end mark.
const AFTER_MARK: u16 = 36;

/// Gathers bursts and answers at the end mark as the whole-frame call does.
pub struct Reader {
    /// Settings and clock of the start, or the early answer.
    ready: Result<(Prepared, [u8; 6]), u16>,
    gathered: Vec<u8>,
    ended: bool,
}

impl Reader {
    /// Begins a frame; the rooms are those of the outputs that would be lent.
    /// Gives 0, or the early answer 1, 2 or 37.
    pub fn start(settings: &[u8], clock: &[u8], room: usize, beside_room: usize) -> (Self, u16) {
        let ready = admitted(settings, clock, room, beside_room).map_err(Cause::number);
        let number = ready.as_ref().err().copied().unwrap_or_default();
        let reader = Reader {
            ready,
            gathered: Vec::new(),
            ended: false,
        };
        (reader, number)
    }

    /// Takes more octets. Gives 0, an early answer, which is 3 with octet 2,049,
    /// or 36. An early answer gathers nothing.
    pub fn burst(&mut self, octets: &[u8]) -> u16 {
        if self.ended {
            return AFTER_MARK;
        }
        if let Err(early) = self.ready {
            return early;
        }
        if octets.len() > MAX_FRAME - self.gathered.len() {
            let early = Cause::FrameSize.number();
            self.ready = Err(early);
            return early;
        }
        self.gathered.extend(octets);
        0
    }

    /// The end mark: repeats an early answer, or handles the frame with outputs
    /// that are tested anew. Gives 36 after another mark.
    pub fn mark(&mut self, out: &mut [u8], beside: &mut [u8]) -> Answer {
        let bare = |number| Answer {
            number,
            ..Answer::default()
        };
        if self.ended {
            return bare(AFTER_MARK);
        }
        self.ended = true;
        match &self.ready {
            Err(early) => bare(*early),
            Ok((prepared, clock)) => handle_prepared(&self.gathered, prepared, clock, out, beside),
        }
    }

    /// The octets gathered so far.
    pub fn gathered(&self) -> &[u8] {
        &self.gathered
    }
}

/// Answers 1, 2 and 37 of a start.
fn admitted(
    settings: &[u8],
    clock: &[u8],
    room: usize,
    beside_room: usize,
) -> Result<(Prepared, [u8; 6]), Cause> {
    let prepared = Prepared::new(settings).map_err(Cause::Settings)?;
    let clock = admit_clock(clock)?;
    admit_rooms(room, beside_room)?;
    Ok((prepared, *clock))
}
