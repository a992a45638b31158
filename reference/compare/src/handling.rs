//! The handling call.

use reference::generate::{handle_input, HandleInput};
use reference::{Alerted, Answer, Cause, Role};

use crate::call::{start, with_emptied, Call, Lent};
use crate::hex;
use crate::tally::Hit;

const BESIDE: &str = "a reply beside a forwarded frame";
const PASSED_OVER: &str = "a fault or ERR passed over in transit";

/// Answers that are met in transit and at the egress.
const AT_ROLE: [u32; 10] = [25, 26, 30, 31, 32, 33, 34, 35, 38, 53];

pub struct Handling;

impl Call for Handling {
    type Input = HandleInput;
    type Answer = Answer;
    type Why = Cause;

    const REPLAY: &'static str = "--replay";
    const ENOUGH: u64 = 100;

    /// Some with each choice of slices emptied.
    fn inputs(seed: u64, count: u64) -> impl Iterator<Item = HandleInput> {
        let input = move |index| handle_input(seed, index);
        with_emptied(count, 5, input, |input, part| match part {
            0 => input.frame.clear(),
            1 => input.settings.clear(),
            2 => input.clock.clear(),
            3 => input.room = 0,
            _ => input.beside_room = 0,
        })
    }

    /// Every answer; each fault of an options area, and the answers to a channel
    /// fault, in both roles; what an alert leads to beside these.
    fn expected() -> impl Iterator<Item = Hit> {
        let refusals = (1..=3).chain(10..=18).chain(20..=35).chain(37..=38);
        let answers = refusals.chain(50..=56).map(Hit::Answer);
        let at = |role| AT_ROLE.map(move |number| Hit::AtRole(number, role));
        let at = [Role::Transit, Role::Egress].into_iter().flat_map(at);
        answers
            .chain(at)
            .chain([BESIDE, PASSED_OVER].map(Hit::Feature))
    }

    fn words(input: &HandleInput) -> Vec<String> {
        vec![
            hex::write(&input.settings),
            hex::write(&input.clock),
            hex::write_number(input.room),
            hex::write_number(input.beside_room),
            hex::write(&input.frame),
        ]
    }

    fn read(words: &[String]) -> Result<HandleInput, String> {
        let [settings, clock, room, beside_room, frame] = words else {
            return Err("a replay takes five words".into());
        };
        Ok(HandleInput {
            frame: hex::read(frame)?,
            settings: hex::read(settings)?,
            clock: hex::read(clock)?,
            room: hex::read_number(room)?,
            beside_room: hex::read_number(beside_room)?,
        })
    }

    fn rooms(input: &HandleInput) -> [usize; 2] {
        [input.room, input.beside_room]
    }

    fn product(input: &HandleInput, [out, beside]: Lent) -> Answer {
        product::handle(&input.frame, &input.settings, &input.clock, out, beside)
    }

    fn reference(input: &HandleInput, [out, beside]: Lent) -> (Answer, Cause) {
        reference::explain(&input.frame, &input.settings, &input.clock, out, beside)
    }

    fn fields(answer: &Answer) -> Vec<(&'static str, u64)> {
        let fields = [
            ("number", answer.number),
            ("written", answer.written),
            ("start", answer.start),
            ("length", answer.length),
            ("neighbour", answer.neighbour),
            ("beside", answer.beside),
            ("beside_neighbour", answer.beside_neighbour),
        ];
        fields.map(|(name, value)| (name, value.into())).to_vec()
    }

    fn written(answer: &Answer, [out, beside]: Lent) -> String {
        let [out, beside] = [(out, answer.written), (beside, answer.beside)]
            .map(|(octets, written)| hex::write(start(octets, written.into())));
        format!("octets {out} beside {beside}")
    }

    fn hits(_: &HandleInput, answer: &Answer, cause: Cause, _: &[u8]) -> Vec<Hit> {
        let number = answer.number.into();
        let mut hits = vec![Hit::Answer(number)];
        match cause {
            Cause::IllFormed(_, role)
            | Cause::Flags(_, role)
            | Cause::ErrorReply(_, role)
            | Cause::ErrorUnsent(.., role)
            | Cause::ErrorField(role) => hits.push(Hit::AtRole(number, role)),
            Cause::ForwardedAlerted(_, Alerted::Answered) => hits.push(Hit::Feature(BESIDE)),
            Cause::ForwardedAlerted(
                _,
                Alerted::FaultPassedOver | Alerted::ErrorFieldPassedOver,
            ) => hits.push(Hit::Feature(PASSED_OVER)),
            _ => {}
        }
        hits
    }
}
