//! The two calls of prepared settings. What a store holds is the product's own
//! affair, so stores are compared by what they do, and refused ones by staying
//! as they were.

use product::TRILL_PREPARED_WORDS;
use reference::generate::{handle_input, HandleInput};
use reference::{Answer, Prepared};

use crate::call::{Call, Lent};
use crate::handling::Handling;
use crate::hex;
use crate::tally::Hit;
use crate::words::Words;

/// Sizes of stores, too small, exact and greater.
const SIZES: [usize; 7] = [
    0,
    1,
    TRILL_PREPARED_WORDS - 1,
    TRILL_PREPARED_WORDS,
    TRILL_PREPARED_WORDS,
    TRILL_PREPARED_WORDS + 1,
    2 * TRILL_PREPARED_WORDS,
];

pub struct Prepare;

/// Settings, and the words lent for them.
#[derive(Clone, PartialEq, Hash)]
pub struct PrepareInput {
    settings: Vec<u8>,
    words: usize,
}

/// The number, and how many words a refusal or anything around the store
/// changed.
pub struct PrepareAnswer {
    number: u32,
    changed: u64,
    around: u64,
}

impl Call for Prepare {
    type Input = PrepareInput;
    type Answer = PrepareAnswer;
    type Why = ();

    const REPLAY: &'static str = "--replay-prepare";
    const ENOUGH: u64 = 100;

    fn inputs(seed: u64, count: u64) -> impl Iterator<Item = PrepareInput> {
        let generated = (0..count).map(move |index| PrepareInput {
            settings: handle_input(seed, index).settings,
            words: SIZES[index as usize % SIZES.len()],
        });
        let empty = SIZES.map(|words| PrepareInput {
            settings: Vec::new(),
            words,
        });
        generated.chain(empty)
    }

    fn expected() -> impl Iterator<Item = Hit> {
        (0..=2).map(Hit::Answer)
    }

    fn words(input: &PrepareInput) -> Vec<String> {
        vec![hex::write(&input.settings), hex::write_number(input.words)]
    }

    fn read(words: &[String]) -> Result<PrepareInput, String> {
        let [settings, words] = words else {
            return Err("a replay of a preparation takes two words".into());
        };
        Ok(PrepareInput {
            settings: hex::read(settings)?,
            words: hex::read_number(words)?,
        })
    }

    /// The store is not of octets.
    fn rooms(_: &PrepareInput) -> [usize; 2] {
        [0; 2]
    }

    fn product(input: &PrepareInput, _: Lent) -> PrepareAnswer {
        let mut store = Words::new(input.words);
        let number = product::prepare(&input.settings, store.lent());
        PrepareAnswer {
            number,
            changed: if number == 0 { 0 } else { store.changed() },
            around: store.around(),
        }
    }

    /// Bad settings come before too few words.
    fn reference(input: &PrepareInput, _: Lent) -> (PrepareAnswer, ()) {
        let number = match Prepared::new(&input.settings) {
            Err(_) => 1,
            Ok(_) if input.words < TRILL_PREPARED_WORDS => 2,
            Ok(_) => 0,
        };
        let answer = PrepareAnswer {
            number,
            changed: 0,
            around: 0,
        };
        (answer, ())
    }

    fn fields(answer: &PrepareAnswer) -> Vec<(&'static str, u64)> {
        vec![
            ("number", answer.number.into()),
            ("words changed by a refusal", answer.changed),
            ("words changed around the store", answer.around),
        ]
    }

    fn written(_: &PrepareAnswer, _: Lent) -> String {
        String::new()
    }

    fn hits(_: &PrepareInput, answer: &PrepareAnswer, (): (), _: &[u8]) -> Vec<Hit> {
        vec![Hit::Answer(answer.number)]
    }
}

pub struct HandlePrepared;

/// The answer of the preparation, that of the handling after it, and how many
/// words of the store the handling changed.
pub struct PreparedAnswer {
    prepared: u32,
    answer: Answer,
    changed: u64,
}

impl Call for HandlePrepared {
    type Input = HandleInput;
    type Answer = PreparedAnswer;
    type Why = ();

    const REPLAY: &'static str = "--replay-prepared";
    const ENOUGH: u64 = 100;

    fn inputs(seed: u64, count: u64) -> impl Iterator<Item = HandleInput> {
        Handling::inputs(seed, count)
    }

    /// Every answer, and settings that are refused before.
    fn expected() -> impl Iterator<Item = Hit> {
        let answers = Handling::expected().filter(|hit| matches!(hit, Hit::Answer(_)));
        answers.chain([REFUSED].map(Hit::Feature))
    }

    fn words(input: &HandleInput) -> Vec<String> {
        Handling::words(input)
    }

    fn read(words: &[String]) -> Result<HandleInput, String> {
        Handling::read(words)
    }

    fn rooms(input: &HandleInput) -> [usize; 2] {
        Handling::rooms(input)
    }

    fn product(input: &HandleInput, [out, beside]: Lent) -> PreparedAnswer {
        let mut store = Words::new(TRILL_PREPARED_WORDS);
        let prepared = product::prepare(&input.settings, store.lent());
        if prepared != 0 {
            return refused(prepared);
        }
        store.keep();
        let (frame, clock) = (&input.frame, &input.clock);
        PreparedAnswer {
            prepared,
            answer: product::handle_prepared(frame, store.lent(), clock, out, beside),
            changed: store.changed(),
        }
    }

    /// The plain call with the same settings; bad ones are not prepared.
    fn reference(input: &HandleInput, lent: Lent) -> (PreparedAnswer, ()) {
        let answer = match Prepared::new(&input.settings) {
            Err(_) => refused(1),
            Ok(_) => PreparedAnswer {
                prepared: 0,
                answer: Handling::reference(input, lent).0,
                changed: 0,
            },
        };
        (answer, ())
    }

    fn fields(answer: &PreparedAnswer) -> Vec<(&'static str, u64)> {
        let mut fields = vec![("prepared", answer.prepared.into())];
        fields.extend(Handling::fields(&answer.answer));
        fields.push(("words of the store changed", answer.changed));
        fields
    }

    fn written(answer: &PreparedAnswer, lent: Lent) -> String {
        Handling::written(&answer.answer, lent)
    }

    fn hits(_: &HandleInput, answer: &PreparedAnswer, (): (), _: &[u8]) -> Vec<Hit> {
        match answer.prepared {
            0 => vec![Hit::Answer(answer.answer.number.into())],
            _ => vec![Hit::Feature(REFUSED)],
        }
    }
}

const REFUSED: &str = "settings that are not prepared";

fn refused(prepared: u32) -> PreparedAnswer {
    PreparedAnswer {
        prepared,
        answer: Answer::default(),
        changed: 0,
    }
}
