//! Campus description and its plain run.

use std::collections::VecDeque;

use crate::cause::{Edition, Fault};
use crate::handle::step;
use crate::header::Header;
use crate::settings::{Field, Seen, Station, Switch, MAX_FRAME, MAX_REPLY};

const MAX_FILE: usize = 32_768;
const MAX_SWITCHES: usize = 16;
/// Octets of an outer tag, by which a forwarded frame may be longer.
const TAG: usize = 4;
const ENTRY: usize = 8;
/// At most 64 + 16 entries.
const TRACE: usize = 80 * ENTRY;
/// At most 65 × 63 + 1 entries with a switch of edition 2.
pub(crate) const TRACE_OF_EDITION_2: usize = 4096 * ENTRY;

/// Code and number of trace entries of a campus call.
#[repr(C)]
#[derive(Clone, Copy, Debug, PartialEq, Eq, Default)]
pub struct Outcome {
    pub code: u32,
    pub count: u32,
}

/// Runs the description and writes its trace entries at the start of `trace`.
/// A refusal leaves the trace untouched.
pub fn run(description: &[u8], trace: &mut [u8]) -> Outcome {
    explain_run(description, trace).map_or_else(
        |fault| Outcome {
            code: fault.code(),
            count: 0,
        },
        |count| Outcome { code: 0, count },
    )
}

/// [`run`], with the count of an accepted description or the fault of a refused
/// one.
pub fn explain_run(description: &[u8], trace: &mut [u8]) -> Result<u32, Fault> {
    if trace.len() < TRACE {
        return Err(Fault::TraceRoom);
    }
    let campus = Campus::read(description)?;
    // The edition is known when the whole file is read.
    if campus.has_edition_2() && trace.len() < TRACE_OF_EDITION_2 {
        return Err(Fault::TraceRoomOfEdition2);
    }
    Ok(campus.run(trace))
}

/// An accepted description.
struct Campus<'a> {
    switches: Switches<'a>,
    clock: [u8; 6],
    /// Place of the entry switch.
    entry: usize,
    frame: &'a [u8],
}

impl<'a> Campus<'a> {
    /// Tests the size of the file, then each field in file order.
    fn read(description: &'a [u8]) -> Result<Self, Fault> {
        if description.len() > MAX_FILE {
            return Err(Fault::FileSize);
        }
        let mut reader = Reader::default();
        let mut rest = description;
        while !rest.is_empty() {
            let field = Field::take(&mut rest)?;
            reader.accept(field, rest)?;
        }
        let (entry, frame) = reader.entry.ok_or(Fault::NoFrame)?;
        Ok(Campus {
            switches: reader.switches,
            clock: reader.clock.unwrap_or_default(),
            entry,
            frame,
        })
    }

    fn has_edition_2(&self) -> bool {
        let mut switches = self.switches.all().iter();
        switches.any(|switch| switch.own().edition == Edition::Second)
    }

    /// Runs the campus. What is written is no longer than the frame put in with
    /// a tag or the longest reply, and small buffers are sooner zeroed.
    fn run(&self, trace: &mut [u8]) -> u32 {
        if self.frame.len() + TAG <= MAX_REPLY {
            self.run_within(&mut [0; MAX_REPLY], &mut [0; MAX_REPLY], trace)
        } else {
            self.run_within(&mut [0; MAX_FRAME], &mut [0; MAX_FRAME], trace)
        }
    }

    /// Handles the frame and what is forwarded of it until it stops or leaves
    /// the campus, then each reply likewise in the order in which they were
    /// made. Gives the number of entries.
    fn run_within<'b>(
        &self,
        mut received: &'b mut [u8],
        mut sent: &'b mut [u8],
        trace: &mut [u8],
    ) -> u32 {
        let mut at = self.entry;
        let mut reply = false;
        let mut written = None;
        let mut beside = [0; MAX_REPLY];
        // Replies, each with the place of the switch to which it goes.
        let mut waiting: VecDeque<(usize, Vec<u8>)> = VecDeque::new();
        for (count, entry) in (1..).zip(trace.chunks_exact_mut(ENTRY)) {
            let frame = written.map_or(self.frame, |length| &received[..length]);
            let switch = &self.switches.all()[at];
            let step = step(switch, frame, &self.clock, sent, &mut beside);
            let number = step.cause.number();
            write_entry(entry, switch.own().nickname, reply, number, frame);
            // A reply for no switch of the campus leaves it and does not wait.
            let waits = |neighbour, made: &[u8]| {
                let place = self.switches.place(neighbour);
                place.map(|place| (place, made.to_vec()))
            };
            let next = match number {
                50 => {
                    if step.beside > 0 {
                        let made = &beside[..step.beside.into()];
                        waiting.extend(waits(step.beside_neighbour, made));
                    }
                    self.switches.place(step.neighbour)
                }
                // Nothing was made before it, so that it need not wait.
                53 | 54 if waiting.is_empty() => {
                    reply = true;
                    self.switches.place(step.neighbour)
                }
                53 | 54 => {
                    waiting.extend(waits(step.neighbour, &sent[..step.written.into()]));
                    None
                }
                _ => None,
            };
            if let Some(place) = next {
                at = place;
                written = Some(usize::from(step.written));
                std::mem::swap(&mut received, &mut sent);
            } else {
                let Some((place, made)) = waiting.pop_front() else {
                    return count;
                };
                at = place;
                reply = true;
                written = Some(made.len());
                received[..made.len()].copy_from_slice(&made);
            }
        }
        unreachable!("no run has more entries than the trace has room for")
    }
}

/// Up to 16 switches with different nicknames.
struct Switches<'a> {
    count: usize,
    places: [Switch<'a>; MAX_SWITCHES],
}

impl<'a> Switches<'a> {
    fn all(&self) -> &[Switch<'a>] {
        &self.places[..self.count]
    }

    /// Place of the switch with this nickname, if there is one.
    fn place(&self, nickname: u16) -> Option<usize> {
        self.all()
            .iter()
            .position(|switch| switch.own().nickname == nickname)
    }
}

/// Switch 2, frame 1, answer 1, hop count received 1, zero 1, egress 2; the
/// last two are zero for a frame unreadable as TRILL.
fn write_entry(entry: &mut [u8], nickname: u16, reply: bool, number: u16, frame: &[u8]) {
    let (hop_count, egress) =
        Header::read(frame).map_or((0, 0), |header| (header.hop_count(), header.egress));
    let [n0, n1] = nickname.to_be_bytes();
    let [e0, e1] = egress.to_be_bytes();
    let octets = [n0, n1, u8::from(reply), number as u8, hop_count, 0, e0, e1];
    entry.copy_from_slice(&octets);
}

/// What the fields read so far say.
struct Reader<'a> {
    switches: Switches<'a>,
    /// Of the records of the latest switch.
    seen: Seen,
    clock: Option<[u8; 6]>,
    entry: Option<(usize, &'a [u8])>,
}

impl Default for Reader<'_> {
    fn default() -> Self {
        let switches = Switches {
            count: 0,
            places: [Switch::EMPTY; MAX_SWITCHES],
        };
        Reader {
            switches,
            seen: Seen::default(),
            clock: None,
            entry: None,
        }
    }
}

impl<'a> Reader<'a> {
    /// Refusals 43 to 48, in this order within each field; `rest` follows it.
    fn accept(&mut self, field: Field<'a>, rest: &'a [u8]) -> Result<(), Fault> {
        if self.entry.is_some() {
            return Err(Fault::AfterFrame);
        }
        match field {
            Field::Switch(value) => self.add_switch(value, rest),
            Field::Record(record) => {
                let (switch, seen) = self.latest()?;
                switch.add_record(record, seen)
            }
            Field::Strip(flag) => self.latest()?.0.set_strip(flag),
            Field::Edition(edition) => self.latest()?.0.set_edition(edition),
            Field::Clock(clock) => match self.clock.replace(*clock) {
                Some(_) => Err(Fault::SecondClock),
                None => Ok(()),
            },
            Field::Frame(entry, frame) => {
                let place = self.switches.place(entry).ok_or(Fault::EntryUnknown)?;
                self.entry = Some((place, frame));
                Ok(())
            }
        }
    }

    /// The switch to which records, strip flags and editions belong.
    fn latest(&mut self) -> Result<(&mut Switch<'a>, &mut Seen), Fault> {
        let switches = &mut self.switches;
        let latest = switches.places[..switches.count].last_mut();
        Ok((latest.ok_or(Fault::BeforeSwitch)?, &mut self.seen))
    }

    fn add_switch(&mut self, value: &[u8; 8], rest: &'a [u8]) -> Result<(), Fault> {
        let mut switch = Switch::EMPTY;
        switch.begin(value, rest)?;
        let switches = &mut self.switches;
        if switches.place(switch.own().nickname).is_some() {
            return Err(Fault::NicknameMet);
        }
        let place = switches.places.get_mut(switches.count);
        *place.ok_or(Fault::Switches)? = switch;
        switches.count += 1;
        self.seen = Seen::default();
        Ok(())
    }
}
