//! Octets in hex, a switch to ask, and checks that hold for every answer.

use reference::{handle, run, text, Answer, Outcome};

/// Outer DA of the switch asked, SA, TRILL Ethertype.
pub const LINK: &str = "020000000002 020000000001 22F3";
/// The same with a tag of VLAN 4,095.
pub const TAGGED: &str = "020000000002 020000000001 8100 FFFF 22F3";
/// An ordinary inner frame.
pub const PLAIN: &str = "020000000099 020000000098 8100 0001 0800 AABBCC";
/// Inner header of a channel message, up to its Ethertype.
pub const CHANNEL: &str = "0180C2000042 020000000001 8100 0001 8946";
/// An echo request that asks for a reply.
pub const ECHO: &str = "0FF8 4000 30000001 02 00 000001000002 000000000000";
/// The switch asked: 0x0002 with next hops for 0x0001 and 0x0003.
pub const SWITCH: &str = "01 0008 0002 020000000002
    02 000E 0003 0003 020000000003 00000001
    02 000E 0001 0001 020000000001 00000001";
pub const STRIP: &str = "03 0001 01";
pub const CLOCK: [u8; 6] = [0, 0, 1, 0, 0, 9];

const SENTINEL: u8 = 0xA5;

pub fn hex(text: &str) -> Vec<u8> {
    let digits: Vec<u8> = text.bytes().filter(|c| !c.is_ascii_whitespace()).collect();
    assert!(
        digits.len().is_multiple_of(2),
        "odd number of digits: {text}"
    );
    let octet = |pair: &[u8]| {
        let pair = std::str::from_utf8(pair).unwrap();
        u8::from_str_radix(pair, 16).unwrap()
    };
    digits.chunks(2).map(octet).collect()
}

/// A frame at the switch asked, its area from `area`, hop count 5.
pub fn optioned(egress: &str, area: &str) -> Vec<u8> {
    let word = (hex(area).len() / 4) << 6 | 5;
    hex(&format!("{LINK} {word:04X} {egress} 0001 {area} {PLAIN}"))
}

/// Number and start of the answer to a frame with this area, which are the same
/// in transit, at the egress and without a next hop.
pub fn fault(area: &str) -> (u16, u16) {
    let [transit, egress, unreachable] = ["0003", "0002", "0009"].map(|egress| {
        let frame = optioned(egress, area);
        let answer = ask(&frame, &hex(SWITCH), &CLOCK, 2048).0;
        (answer.number, answer.start)
    });
    assert_eq!(transit, egress, "{area}");
    assert_eq!(transit, unreachable, "{area}");
    transit
}

/// A frame of hop count 5 from 0x0001 to the switch asked.
pub fn to_us(inner: &str) -> Vec<u8> {
    hex(&format!("{LINK} 0005 0002 0001 {inner}"))
}

/// The answer and what is written, with room for a reply beside it.
pub fn ask(frame: &[u8], settings: &[u8], clock: &[u8], room: usize) -> (Answer, Vec<u8>) {
    let (answer, [written, _]) = ask_both(frame, settings, clock, [room, 576]);
    (answer, written)
}

/// The answer and what is written to both outputs. Octets after that stay, only
/// 50, 53 and 54 write, a reply is made beside 50 alone, each frame written has
/// its neighbour, a length is given by 51 and 52 alone, and a start by them
/// and, for the option at fault, by 30 to 33.
pub fn ask_both(
    frame: &[u8],
    settings: &[u8],
    clock: &[u8],
    rooms: [usize; 2],
) -> (Answer, [Vec<u8>; 2]) {
    let [mut out, mut beside] = rooms.map(|room| vec![SENTINEL; room]);
    let answer = handle(frame, settings, clock, &mut out, &mut beside);
    let number = answer.number;
    assert_eq!(answer.written > 0, matches!(number, 50 | 53 | 54));
    assert_eq!(answer.neighbour > 0, answer.written > 0);
    assert!(answer.beside == 0 || number == 50);
    assert_eq!(answer.beside_neighbour > 0, answer.beside > 0);
    assert_eq!(answer.length > 0, matches!(number, 51 | 52));
    assert_eq!(answer.start > 0, matches!(number, 30..=33 | 51 | 52));
    for (octets, written) in [(&mut out, answer.written), (&mut beside, answer.beside)] {
        let after = octets.split_off(written.into());
        assert!(after.iter().all(|&octet| octet == SENTINEL));
    }
    (answer, [out, beside])
}

/// The answer's number at the switch asked.
pub fn number(frame: &[u8]) -> u16 {
    number_at(frame, SWITCH)
}

pub fn number_at(frame: &[u8], settings: &str) -> u16 {
    ask(frame, &hex(settings), &CLOCK, 2048).0.number
}

/// Number and written octets at the switch asked.
pub fn sent(frame: &[u8]) -> (u16, Vec<u8>) {
    sent_at(frame, SWITCH)
}

pub fn sent_at(frame: &[u8], settings: &str) -> (u16, Vec<u8>) {
    let (answer, written) = ask(frame, &hex(settings), &CLOCK, 2048);
    (answer.number, written)
}

/// The campus call with a trace for every campus; octets after the entries stay.
pub fn campus(description: &[u8]) -> (Outcome, Vec<u8>) {
    let mut trace = vec![SENTINEL; 33_000];
    let outcome = run(description, &mut trace);
    let written = 8 * outcome.count as usize;
    assert!(trace[written..].iter().all(|&octet| octet == SENTINEL));
    trace.truncate(written);
    (outcome, trace)
}

/// The code with which a description is answered; a refusal has no entries and
/// prints its code.
pub fn code(description: &[u8]) -> u32 {
    let (outcome, trace) = campus(description);
    if outcome.code != 0 {
        assert_eq!(trace, []);
        let line = format!("refused {}\n", outcome.code);
        assert_eq!(text(description), line.as_bytes());
    }
    outcome.code
}

/// The printed run.
pub fn printed(description: &[u8]) -> String {
    String::from_utf8(text(description)).unwrap()
}

/// One field with its length.
pub fn field(tag: u8, value: &[u8]) -> Vec<u8> {
    let length = (value.len() as u16).to_be_bytes();
    [&[tag], &length[..], value].concat()
}
