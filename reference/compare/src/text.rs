//! The text call.

use product::TextAnswer;
use reference::generate::campus_input;

use crate::call::{start, Call, Lent};
use crate::hex;
use crate::tally::Hit;

const NO_ROOM: &str = "no room";
const ONE_SHORT: &str = "room one octet short";
const EXACT: &str = "room as needed";
const MORE: &str = "more room than needed";

pub struct Text;

/// A description and the octets lent for its text.
#[derive(Clone, PartialEq, Hash)]
pub struct TextInput {
    description: Vec<u8>,
    room: usize,
}

impl Call for Text {
    type Input = TextInput;
    type Answer = TextAnswer;
    type Why = u32;

    const REPLAY: &'static str = "--replay-text";
    /// Of each code and each kind of room.
    const ENOUGH: u64 = 50;

    /// Each description with four rooms, and last the empty description.
    fn inputs(seed: u64, count: u64) -> impl Iterator<Item = TextInput> {
        let descriptions = (0..count).map(move |index| campus_input(seed, index).description);
        let all = descriptions.chain([Vec::new()]).enumerate();
        all.flat_map(|(index, description)| {
            let needed = reference::text(&description).len();
            let rooms = [0, needed - 1, needed, needed + 1 + index % 100];
            rooms.map(|room| TextInput {
                description: description.clone(),
                room,
            })
        })
    }

    /// Every kind of room, and every code but 49: the call lends a trace itself.
    fn expected() -> impl Iterator<Item = Hit> {
        let codes = [0].into_iter().chain(40..=48).map(Hit::Code);
        codes.chain([NO_ROOM, ONE_SHORT, EXACT, MORE].map(Hit::Feature))
    }

    fn words(input: &TextInput) -> Vec<String> {
        vec![
            hex::write_number(input.room),
            hex::write(&input.description),
        ]
    }

    fn read(words: &[String]) -> Result<TextInput, String> {
        let [room, description] = words else {
            return Err("a replay of a text takes two words".into());
        };
        Ok(TextInput {
            description: hex::read(description)?,
            room: hex::read_number(room)?,
        })
    }

    fn rooms(input: &TextInput) -> [usize; 2] {
        [input.room, 0]
    }

    fn product(input: &TextInput, [room, _]: Lent) -> TextAnswer {
        product::text(&input.description, room)
    }

    /// The answer, and the code that the text tells.
    fn reference(input: &TextInput, [room, _]: Lent) -> (TextAnswer, u32) {
        let text = reference::text(&input.description);
        (put(&text, room), code(&text))
    }

    fn fields(answer: &TextAnswer) -> Vec<(&'static str, u64)> {
        vec![
            ("written", answer.written.into()),
            ("needed", answer.needed.into()),
        ]
    }

    fn written(answer: &TextAnswer, [room, _]: Lent) -> String {
        let text = String::from_utf8_lossy(start(room, answer.written));
        format!("text {text:?}")
    }

    fn hits(input: &TextInput, answer: &TextAnswer, code: u32, _: &[u8]) -> Vec<Hit> {
        let needed = answer.needed as usize;
        let kind = match input.room {
            0 => NO_ROOM,
            room if room < needed => ONE_SHORT,
            room if room == needed => EXACT,
            _ => MORE,
        };
        vec![Hit::Code(code), Hit::Feature(kind)]
    }
}

/// The code that a text tells: 0 unless it is a refusal.
pub fn code(text: &[u8]) -> u32 {
    let text = std::str::from_utf8(text).expect("a text is ASCII");
    let refused = text.strip_prefix("refused ");
    refused.map_or(0, |code| {
        code.trim_end().parse().expect("a code is a number")
    })
}

/// Writes the text if it fits whole, and otherwise nothing.
fn put(text: &[u8], room: &mut [u8]) -> TextAnswer {
    let needed = text.len() as u32;
    let Some(start) = room.get_mut(..text.len()) else {
        return TextAnswer { written: 0, needed };
    };
    start.copy_from_slice(text);
    TextAnswer {
        written: needed,
        needed,
    }
}
