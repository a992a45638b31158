//! Frames in bursts. What a reader's words hold is the product's own affair, so
//! they are compared by what they do, and must stay where nothing may change.

use product::{TRILL_FRAME_MOST, TRILL_READER_WORDS};
use reference::generate::{reader_input, ReaderCall, ReaderInput};
use reference::{Answer, Reader};

use crate::buffers::Buffers;
use crate::call::{digest, Call, Lent};
use crate::handling::Handling;
use crate::hex;
use crate::tally::Hit;
use crate::words::Words;

const AFTER_MARK: &str = "36 to a burst";
const EARLY: &str = "an early answer repeated by a burst";
const EARLY_AT_MARK: &str = "an early answer repeated by the mark";
const SHORT_AT_MARK: &str = "an output too short at the mark alone";
const EMPTY: &str = "an empty burst";

pub struct Bursts;

/// What one call of a reader answers, and what it leaves.
pub struct Left {
    /// Of a start and of a burst the number alone.
    answer: Answer,
    /// Of the gathered octets and of both outputs.
    octets: u64,
    /// Words that changed where none may, and what changed outside of what was
    /// lent.
    changed: u64,
}

fn bare(number: u32) -> Answer {
    Answer {
        number: number as u16,
        ..Answer::default()
    }
}

/// The buffer in which octets are gathered, equal for both programs.
fn gathering(input: &ReaderInput) -> Buffers {
    let mut gathered = Buffers::default();
    gathered.fill(TRILL_FRAME_MOST + input.calls.len() % 3, digest(input));
    gathered
}

impl Call for Bursts {
    type Input = ReaderInput;
    type Answer = Vec<Left>;
    type Why = ();

    const REPLAY: &'static str = "--replay-bursts";
    /// A sequence costs as much as many handlings, so that there are fewer.
    const ENOUGH: u64 = 50;

    fn inputs(seed: u64, count: u64) -> impl Iterator<Item = ReaderInput> {
        (0..count).map(move |index| reader_input(seed, index))
    }

    /// Every answer of a handling, 36, and where in a sequence some come.
    fn expected() -> impl Iterator<Item = Hit> {
        let answers = Handling::expected().filter(|hit| matches!(hit, Hit::Answer(_)));
        let features = [AFTER_MARK, EARLY, EARLY_AT_MARK, SHORT_AT_MARK, EMPTY];
        let features = features.map(Hit::Feature);
        answers.chain([0, 36].map(Hit::Answer)).chain(features)
    }

    /// A burst is its octets; a mark is both rooms with a comma between.
    fn words(input: &ReaderInput) -> Vec<String> {
        let mut words = vec![
            hex::write(&input.settings),
            hex::write(&input.clock),
            hex::write_number(input.room),
            hex::write_number(input.beside_room),
        ];
        words.extend(input.calls.iter().map(|call| match call {
            ReaderCall::Burst(octets) => hex::write(octets),
            ReaderCall::Mark { room, beside_room } => format!("{room:x},{beside_room:x}"),
        }));
        words
    }

    fn read(words: &[String]) -> Result<ReaderInput, String> {
        let [settings, clock, room, beside_room, calls @ ..] = words else {
            return Err("a replay of bursts takes four words and the calls".into());
        };
        let call = |word: &String| {
            Ok(match word.split_once(',') {
                None => ReaderCall::Burst(hex::read(word)?),
                Some((room, beside_room)) => ReaderCall::Mark {
                    room: hex::read_number(room)?,
                    beside_room: hex::read_number(beside_room)?,
                },
            })
        };
        Ok(ReaderInput {
            settings: hex::read(settings)?,
            clock: hex::read(clock)?,
            room: hex::read_number(room)?,
            beside_room: hex::read_number(beside_room)?,
            calls: calls.iter().map(call).collect::<Result<_, String>>()?,
        })
    }

    /// The greatest of all marks.
    fn rooms(input: &ReaderInput) -> [usize; 2] {
        let rooms = input.calls.iter().map(|call| match call {
            ReaderCall::Burst(_) => [0; 2],
            &ReaderCall::Mark { room, beside_room } => [room, beside_room],
        });
        rooms.fold([0; 2], |[a, b], [c, d]| [a.max(c), b.max(d)])
    }

    fn product(input: &ReaderInput, [out, beside]: Lent) -> Vec<Left> {
        let mut reader = Words::new(TRILL_READER_WORDS);
        let mut gathered = gathering(input);
        let (settings, clock) = (&input.settings, &input.clock);
        let (room, beside_room) = (input.room, input.beside_room);
        let number = product::reader_start(reader.lent(), settings, clock, room, beside_room);
        let mut left = vec![Left {
            answer: bare(number),
            octets: digest((gathered.product(), &*out, &*beside)),
            changed: reader.around(),
        }];
        let mut early = number != 0;
        for call in &input.calls {
            reader.keep();
            let (answer, may_change) = match call {
                ReaderCall::Burst(octets) => {
                    let number = product::reader_burst(reader.lent(), gathered.product(), octets);
                    let may_change = !early;
                    early |= number != 0;
                    (bare(number), may_change)
                }
                &ReaderCall::Mark { room, beside_room } => {
                    let lent = (&mut out[..room], &mut beside[..beside_room]);
                    let gathered = gathered.product();
                    let answer = product::reader_mark(reader.lent(), gathered, lent.0, lent.1);
                    (answer, answer.number != 36)
                }
            };
            let changed = if may_change && answer.number != 36 {
                0
            } else {
                reader.changed()
            };
            left.push(Left {
                answer,
                octets: digest((gathered.product(), &*out, &*beside)),
                changed: changed + reader.around() + gathered.around(),
            });
        }
        left
    }

    fn reference(input: &ReaderInput, [out, beside]: Lent) -> (Vec<Left>, ()) {
        let mut gathered = gathering(input);
        let (room, beside_room) = (input.room, input.beside_room);
        let (mut reader, number) = Reader::start(&input.settings, &input.clock, room, beside_room);
        let mut left = vec![Left {
            answer: bare(number.into()),
            octets: digest((gathered.product(), &*out, &*beside)),
            changed: 0,
        }];
        for call in &input.calls {
            let answer = match call {
                ReaderCall::Burst(octets) => bare(reader.burst(octets).into()),
                &ReaderCall::Mark { room, beside_room } => {
                    reader.mark(&mut out[..room], &mut beside[..beside_room])
                }
            };
            let octets = reader.gathered();
            gathered.product()[..octets.len()].copy_from_slice(octets);
            left.push(Left {
                answer,
                octets: digest((gathered.product(), &*out, &*beside)),
                changed: 0,
            });
        }
        (left, ())
    }

    fn fields(calls: &Vec<Left>) -> Vec<(&'static str, u64)> {
        let mut fields = Vec::new();
        for (place, left) in (0..).zip(calls) {
            fields.push(("call", place));
            fields.extend(Handling::fields(&left.answer));
            fields.push(("digest of the gathered octets and outputs", left.octets));
            fields.push(("words that may not change and did", left.changed));
        }
        fields
    }

    fn written(_: &Vec<Left>, _: Lent) -> String {
        String::new()
    }

    fn hits(input: &ReaderInput, calls: &Vec<Left>, (): (), _: &[u8]) -> Vec<Hit> {
        let numbers: Vec<u32> = calls.iter().map(|left| left.answer.number.into()).collect();
        let mut hits: Vec<Hit> = numbers.iter().copied().map(Hit::Answer).collect();
        for ((call, before), &number) in input.calls.iter().zip(&numbers).zip(&numbers[1..]) {
            let repeated = number == *before && number != 0 && number != 36;
            let feature = match call {
                ReaderCall::Burst(_) if number == 36 => AFTER_MARK,
                ReaderCall::Burst(_) if repeated => EARLY,
                ReaderCall::Mark { .. } if repeated => EARLY_AT_MARK,
                ReaderCall::Mark { .. } if matches!(number, 2 | 37) => SHORT_AT_MARK,
                ReaderCall::Burst(octets) if octets.is_empty() => EMPTY,
                _ => continue,
            };
            hits.push(Hit::Feature(feature));
        }
        hits
    }
}
