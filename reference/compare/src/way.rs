//! The way-out call.

use reference::generate::{way_input, WayInput};
use reference::Way;

use crate::call::{start, with_emptied, Call, Lent};
use crate::hex;
use crate::tally::Hit;

pub struct WayOut;

impl Call for WayOut {
    type Input = WayInput;
    type Answer = Way;
    type Why = ();

    const REPLAY: &'static str = "--replay-way";
    const ENOUGH: u64 = 100;

    /// Some without settings, without output and without both.
    fn inputs(seed: u64, count: u64) -> impl Iterator<Item = WayInput> {
        let input = move |index| way_input(seed, index);
        with_emptied(count, 2, input, |input, part| match part {
            0 => input.settings.clear(),
            _ => input.room = 0,
        })
    }

    fn expected() -> impl Iterator<Item = Hit> {
        [0, 1, 2, 21].into_iter().map(Hit::Answer)
    }

    fn words(input: &WayInput) -> Vec<String> {
        vec![
            hex::write(&input.settings),
            hex::write_number(input.destination.into()),
            hex::write_number(input.room),
        ]
    }

    fn read(words: &[String]) -> Result<WayInput, String> {
        let [settings, destination, room] = words else {
            return Err("a replay of a way out takes three words".into());
        };
        let too_great = |_| format!("{destination} is no nickname");
        Ok(WayInput {
            settings: hex::read(settings)?,
            destination: hex::read_number(destination)?
                .try_into()
                .map_err(too_great)?,
            room: hex::read_number(room)?,
        })
    }

    fn rooms(input: &WayInput) -> [usize; 2] {
        [input.room, 0]
    }

    fn product(input: &WayInput, [out, _]: Lent) -> Way {
        product::way_out(&input.settings, input.destination, out)
    }

    fn reference(input: &WayInput, [out, _]: Lent) -> (Way, ()) {
        (
            reference::way_out(&input.settings, input.destination, out),
            (),
        )
    }

    fn fields(way: &Way) -> Vec<(&'static str, u64)> {
        vec![("number", way.number.into()), ("length", way.length.into())]
    }

    fn written(way: &Way, [out, _]: Lent) -> String {
        format!("octets {}", hex::write(start(out, way.length)))
    }

    fn hits(_: &WayInput, way: &Way, (): (), _: &[u8]) -> Vec<Hit> {
        vec![Hit::Answer(way.number)]
    }
}
