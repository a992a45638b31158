//! Counted handlings, one after the other with one counters record.

use reference::generate::{counted_input, CountedInput, HandleInput};
use reference::{Answer, Counters};

use crate::call::{digest, Call, Lent};
use crate::handling::Handling;
use crate::hex;
use crate::tally::Hit;

const REFUSED_FIRST: &str = "4 at the first call";
const REFUSED_LATER: &str = "4 after calls that were counted";
const NEVER_REFUSED: &str = "all calls counted";

pub struct Counted;

/// What one call answers, and what it leaves.
pub struct Left {
    answer: Answer,
    /// Of both outputs.
    octets: u64,
    counters: Counters,
}

/// A counted handling by either program.
type Handle = fn(&mut Counters, &[u8], &[u8], &[u8], &mut [u8], &mut [u8]) -> Answer;

/// All calls by one program. Each is lent the start of both outputs, which
/// keep what the calls before have written.
fn by(handle: Handle, input: &CountedInput, [out, beside]: Lent) -> Vec<Left> {
    let mut counters = input.counters.clone();
    let call = |call: &HandleInput| {
        let [room, beside_room] = Handling::rooms(call);
        let (frame, settings, clock) = (&call.frame, &call.settings, &call.clock);
        let (lent, lent_beside) = (&mut out[..room], &mut beside[..beside_room]);
        Left {
            answer: handle(&mut counters, frame, settings, clock, lent, lent_beside),
            octets: digest((&*out, &*beside)),
            counters: counters.clone(),
        }
    };
    input.calls.iter().map(call).collect()
}

impl Call for Counted {
    type Input = CountedInput;
    type Answer = Vec<Left>;
    type Why = ();

    const REPLAY: &'static str = "--replay-counted";
    const ENOUGH: u64 = 100;

    fn inputs(seed: u64, count: u64) -> impl Iterator<Item = CountedInput> {
        (0..count).map(move |index| counted_input(seed, index))
    }

    /// Every answer of a handling, 4, and where in a sequence it comes.
    fn expected() -> impl Iterator<Item = Hit> {
        let answers = Handling::expected().filter(|hit| matches!(hit, Hit::Answer(_)));
        let places = [REFUSED_FIRST, REFUSED_LATER, NEVER_REFUSED].map(Hit::Feature);
        answers.chain([Hit::Answer(4)]).chain(places)
    }

    fn words(input: &CountedInput) -> Vec<String> {
        let counters = input.counters.by_answer.iter();
        let counters = counters.chain([&input.counters.total]);
        let octets: Vec<u8> = counters.flat_map(|value| value.to_be_bytes()).collect();
        let calls = input.calls.iter().flat_map(Handling::words);
        [hex::write(&octets)].into_iter().chain(calls).collect()
    }

    fn read(words: &[String]) -> Result<CountedInput, String> {
        let (counters, calls) = words.split_first().ok_or("no counters")?;
        let octets = hex::read(counters)?;
        let values = octets.chunks_exact(8).map(|value| {
            let value = value.try_into().expect("eight octets");
            u64::from_be_bytes(value)
        });
        let values: Vec<u64> = values.collect();
        let (total, by_answer) = values.split_last().ok_or("no counters")?;
        let by_answer = by_answer.try_into().map_err(|_| "not 65 counters")?;
        Ok(CountedInput {
            counters: Counters {
                by_answer,
                total: *total,
            },
            calls: calls
                .chunks(5)
                .map(Handling::read)
                .collect::<Result<_, _>>()?,
        })
    }

    /// The greatest of all calls.
    fn rooms(input: &CountedInput) -> [usize; 2] {
        let rooms = input.calls.iter().map(Handling::rooms);
        rooms.fold([0; 2], |[a, b], [c, d]| [a.max(c), b.max(d)])
    }

    fn product(input: &CountedInput, lent: Lent) -> Vec<Left> {
        by(product::handle_counted, input, lent)
    }

    fn reference(input: &CountedInput, lent: Lent) -> (Vec<Left>, ()) {
        (by(reference::handle_counted, input, lent), ())
    }

    fn fields(calls: &Vec<Left>) -> Vec<(&'static str, u64)> {
        let mut fields = Vec::new();
        for (place, left) in (1..).zip(calls) {
            fields.push(("call", place));
            fields.extend(Handling::fields(&left.answer));
            fields.push(("digest of the outputs", left.octets));
            fields.extend(left.counters.by_answer.map(|value| ("counter", value)));
            fields.push(("total", left.counters.total));
        }
        fields
    }

    fn written(_: &Vec<Left>, _: Lent) -> String {
        String::new()
    }

    fn hits(_: &CountedInput, calls: &Vec<Left>, (): (), _: &[u8]) -> Vec<Hit> {
        let numbers = || calls.iter().map(|left| u32::from(left.answer.number));
        let place = match numbers().position(|number| number == 4) {
            Some(0) => REFUSED_FIRST,
            Some(_) => REFUSED_LATER,
            None => NEVER_REFUSED,
        };
        numbers()
            .map(Hit::Answer)
            .chain([Hit::Feature(place)])
            .collect()
    }
}
