//! Readers with any words, any number of them and any room to gather in. What
//! they answer is the product's own affair; they must end, answer the same again
//! and leave alone what they were not lent.

use product::{TRILL_FRAME_MOST, TRILL_READER_WORDS};
use reference::generate::{reader_input, ReaderCall, ReaderInput};

use crate::buffers::Buffers;
use crate::call::{digest, Call, Lent};
use crate::hex;
use crate::reader::Bursts;
use crate::tally::Hit;
use crate::words::Words;

const SIZES: [usize; 6] = [
    TRILL_READER_WORDS,
    TRILL_READER_WORDS,
    TRILL_READER_WORDS + 1,
    TRILL_READER_WORDS - 1,
    1,
    0,
];
const GATHERING: [usize; 5] = [
    TRILL_FRAME_MOST,
    TRILL_FRAME_MOST,
    TRILL_FRAME_MOST - 1,
    100,
    0,
];
const VALUES: [u64; 8] = [0, 1, 2, 2047, 2048, 2049, 1 << 63, u64::MAX];
const STARTED: &str = "a started reader with some words forged";
const NEVER_STARTED: &str = "words that no start wrote";

pub struct Forged;

/// A reader's calls, and a number from which all that is forged follows.
#[derive(Clone, PartialEq, Hash)]
pub struct ForgedInput {
    reader: ReaderInput,
    forgery: usize,
}

impl ForgedInput {
    fn is_started(&self) -> bool {
        self.forgery.is_multiple_of(2)
    }

    /// Puts words of the forgery's choice into a reader.
    fn forge(&self, words: &mut [u64]) {
        let count = words.len().max(1);
        for turn in 0..1 + self.forgery / 2 % 5 {
            let place = (self.forgery / 10).wrapping_mul(turn + 7) % count;
            if let Some(word) = words.get_mut(place) {
                *word = VALUES[(self.forgery / 3 + turn) % VALUES.len()];
            }
        }
    }
}

/// What must be 0 after a forgery.
#[derive(Default)]
pub struct Harm {
    /// Words and octets around those lent that changed.
    around: u64,
    /// Answers with more octets than were lent.
    too_long: u64,
}

/// All calls once: what they did wrong, and a digest of all that they did.
fn calls(input: &ForgedInput) -> (Harm, u64) {
    let ForgedInput { reader, forgery } = input;
    let mut words = Words::new(SIZES[forgery / 11 % SIZES.len()]);
    let mut gathered = Buffers::default();
    gathered.fill(GATHERING[forgery / 7 % GATHERING.len()], 1);
    if input.is_started() {
        let (settings, clock) = (&reader.settings, &reader.clock);
        let (room, beside_room) = (reader.room, reader.beside_room);
        product::reader_start(words.lent(), settings, clock, room, beside_room);
    }
    let (mut harm, mut done) = (Harm::default(), 0);
    for call in &reader.calls {
        input.forge(words.lent());
        done = match call {
            ReaderCall::Burst(octets) => {
                let number = product::reader_burst(words.lent(), gathered.product(), octets);
                digest((done, number))
            }
            &ReaderCall::Mark { room, beside_room } => {
                let [mut out, mut beside] = [room, beside_room].map(|room| {
                    let mut buffers = Buffers::default();
                    buffers.fill(room, 2);
                    buffers
                });
                let lent = (out.product(), beside.product());
                let answer = product::reader_mark(words.lent(), gathered.product(), lent.0, lent.1);
                let too_long =
                    usize::from(answer.written) > room || usize::from(answer.beside) > beside_room;
                harm.too_long += u64::from(too_long);
                harm.around += out.around() + beside.around();
                let octets = digest((out.product(), beside.product()));
                digest((done, octets, answer.number, answer.written, answer.beside))
            }
        };
    }
    harm.around += words.around() + gathered.around();
    let left = digest((words.lent(), gathered.product()));
    (harm, digest((done, left)))
}

impl Call for Forged {
    type Input = ForgedInput;
    /// What was harmed, and whether a second time differs.
    type Answer = (Harm, bool);
    type Why = ();

    const REPLAY: &'static str = "--replay-forged";
    const ENOUGH: u64 = 100;

    fn inputs(seed: u64, count: u64) -> impl Iterator<Item = ForgedInput> {
        (0..count).map(move |index| ForgedInput {
            reader: reader_input(seed, index),
            forgery: digest((seed, index)) as usize,
        })
    }

    fn expected() -> impl Iterator<Item = Hit> {
        [STARTED, NEVER_STARTED].into_iter().map(Hit::Feature)
    }

    fn words(input: &ForgedInput) -> Vec<String> {
        let mut words = vec![hex::write_number(input.forgery)];
        words.extend(Bursts::words(&input.reader));
        words
    }

    fn read(words: &[String]) -> Result<ForgedInput, String> {
        let (forgery, reader) = words.split_first().ok_or("no forgery")?;
        Ok(ForgedInput {
            forgery: hex::read_number(forgery)?,
            reader: Bursts::read(reader)?,
        })
    }

    /// What is lent is made anew for each call.
    fn rooms(_: &ForgedInput) -> [usize; 2] {
        [0; 2]
    }

    fn product(input: &ForgedInput, _: Lent) -> (Harm, bool) {
        let (harm, done) = calls(input);
        (harm, calls(input).1 != done)
    }

    fn reference(_: &ForgedInput, _: Lent) -> ((Harm, bool), ()) {
        (<(Harm, bool)>::default(), ())
    }

    fn fields((harm, differs): &(Harm, bool)) -> Vec<(&'static str, u64)> {
        vec![
            ("changes outside of what was lent", harm.around),
            ("answers longer than what was lent", harm.too_long),
            ("another outcome of the same calls", u64::from(*differs)),
        ]
    }

    fn written(_: &(Harm, bool), _: Lent) -> String {
        String::new()
    }

    fn hits(input: &ForgedInput, _: &(Harm, bool), (): (), _: &[u8]) -> Vec<Hit> {
        let kind = if input.is_started() {
            STARTED
        } else {
            NEVER_STARTED
        };
        vec![Hit::Feature(kind)]
    }
}
