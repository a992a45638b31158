//! Exact octets of forwarded frames and of both replies.

use crate::support::*;

/// Headers of a reply from the switch asked to 0x0001.
const REPLY: &str = "020000000001 020000000002 22F3 003F 0001 0002
    0180C2000042 020000000002 8100 0001 8946";

#[test]
fn forwarded_frame() {
    let frame = hex(&format!("{LINK} 3005 0003 0001 {PLAIN}"));
    let expected = format!("020000000003 020000000002 22F3 3004 0003 0001 {PLAIN}");
    assert_eq!(sent(&frame), (50, hex(&expected)));
}

#[test]
fn forwarded_frame_of_2048_octets() {
    let mut frame = hex(&format!("{LINK} 003F 0003 0001 {PLAIN}"));
    frame.extend((0..2048).map(|place| place as u8));
    frame.truncate(2048);
    let (number, written) = sent(&frame);
    assert_eq!((number, written.len()), (50, 2048));
    assert_eq!(written[..16], hex("020000000003 020000000002 22F3 003E"));
    assert_eq!(written[16..], frame[16..]);
    frame.push(0);
    assert_eq!(sent(&frame).0, 3);
}

#[test]
fn area_of_31_words_is_copied() {
    let frame = hex(&format!(
        "{LINK} 07C5 0003 0001 0000000F 41F6 {} {PLAIN}",
        "5A".repeat(118)
    ));
    let (number, written) = sent(&frame);
    assert_eq!(number, 50);
    assert_eq!(written[14..16], hex("07C4"));
    assert_eq!(written[16..], frame[16..]);
}

#[test]
fn echo_reply() {
    let frame = to_us(&format!(
        "{CHANNEL} 0FF8 4000 3ABCDEF1 02 77 000001000002 666666666666 C0FFEE"
    ));
    let expected = format!("{REPLY} 0FF8 C000 4ABCDEF1 02 77 000001000002 000001000009 C0FFEE");
    assert_eq!(sent(&frame), (54, hex(&expected)));
}

#[test]
fn longest_echo_reply() {
    let rest = "5A".repeat(512);
    let frame = to_us(&format!("{CHANNEL} {ECHO} {rest}"));
    let (number, written) = sent(&frame);
    assert_eq!((number, written.len()), (54, 572));
    let expected = format!("{REPLY} 0FF8 C000 40000001 02 00 000001000002 000001000009 {rest}");
    assert_eq!(written, hex(&expected));
    let longer = to_us(&format!("{CHANNEL} {ECHO} {rest} 5A"));
    assert_eq!(sent(&longer).0, 27);
}

#[test]
fn echo_body_sizes() {
    let echo = hex(&format!("{CHANNEL} {ECHO}"));
    let of_size = |size: usize| {
        let mut frame = to_us("");
        frame.extend(&echo);
        frame.resize(20 + 22 + size, 0);
        frame
    };
    for (size, answer) in [(0, 27), (17, 27), (18, 54), (19, 54), (530, 54), (531, 27)] {
        assert_eq!(number(&of_size(size)), answer, "body of {size}");
    }
}

#[test]
fn each_error_reply() {
    for (code, inner) in [
        (1, CHANNEL.to_string()),
        (1, format!("{CHANNEL} 0FF840")),
        (2, CHANNEL.replace("8946", "8947")),
        (3, format!("{CHANNEL} 1FF8 0000")),
        (3, format!("{CHANNEL} FFF8 2000")),
        (4, format!("{CHANNEL} 0FF8 2000")),
        (5, format!("{CHANNEL} 0004 0000")),
        (5, format!("{CHANNEL} 0FF9 5FF0")),
    ] {
        let frame = to_us(&inner);
        let expected = format!("{REPLY} 0001 C00{code} 22F3 0005 0002 0001 {inner}");
        assert_eq!(sent(&frame), (53, hex(&expected)), "code {code}");
    }
}

/// A frame with an unknown protocol and this many octets from its TRILL
/// Ethertype on.
fn unknown_protocol(link: &str, octets: usize) -> Vec<u8> {
    let mut frame = hex(&format!("{link} 0005 0002 0001 {CHANNEL} 0004 0000"));
    let before = hex(link).len() - 2;
    frame.extend((0..200).map(|place| place as u8));
    frame.truncate(before + octets);
    frame
}

#[test]
fn longest_error_reply() {
    for (octets, written) in [(127, 169), (128, 170), (129, 170), (200, 170)] {
        for link in [LINK, TAGGED] {
            let frame = unknown_protocol(link, octets);
            let from = hex(link).len() - 2;
            let (number, reply) = sent(&frame);
            assert_eq!((number, reply.len()), (53, written));
            assert_eq!(reply[..42], hex(&format!("{REPLY} 0001 C005")));
            assert_eq!(reply[42..], frame[from..from + written - 42]);
        }
    }
}

#[test]
fn reply_goes_by_the_newest_record() {
    let settings = format!(
        "{SWITCH}
        02 000E 0001 0005 0A0000000005 00000003
        02 000E 0001 0004 0A0000000004 00000002"
    );
    let (number, written) = sent_at(&to_us(&format!("{CHANNEL} {ECHO}")), &settings);
    assert_eq!(number, 54);
    assert_eq!(written[..6], hex("0A0000000005"));
    // The egress is the old ingress, not the neighbour.
    assert_eq!(written[16..18], hex("0001"));
}

#[test]
fn reply_to_any_rbridge_has_our_nickname() {
    let frame = hex(&format!("{LINK} 0005 FFC0 0001 {CHANNEL} {ECHO}"));
    let (number, written) = sent(&frame);
    assert_eq!(number, 54);
    assert_eq!(written[16..20], hex("0001 0002"));
}
