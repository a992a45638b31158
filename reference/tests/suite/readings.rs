//! The readings of document 01 that concern one handling, each with an input
//! on which another reading would answer differently.

use crate::support::*;
use reference::{part, Answer};

#[test]
fn short_frames() {
    let tagged = hex("020000000002 020000000001 8100 0001");
    for size in 0..14 {
        assert_eq!(number(&tagged[..size]), 10, "{size} octets");
        assert_eq!(number(&vec![0; size]), 10, "{size} octets");
    }
    for size in 14..17 {
        assert_eq!(number(&tagged[..size]), 10, "{size} octets");
    }
    let tagged_17 = [&tagged[..], &[0x22]].concat();
    assert_eq!(number(&tagged_17), 10);
    // The TRILL header is tested after the Ethertype.
    assert_eq!(number(&hex("020000000002 020000000001 0800")), 11);
    assert_eq!(number(&hex("020000000002 020000000001 8100 0001 0800")), 11);
}

#[test]
fn cut_trill_header_before_outer_destination() {
    for link in [LINK, TAGGED] {
        let whole = hex(&format!("{link} 0005 0002 0001"));
        let header = hex(link).len();
        let mut foreign = whole.clone();
        foreign[5] = 0x77;
        for size in header..header + 6 {
            assert_eq!(number(&whole[..size]), 10, "{size} octets");
            assert_eq!(number(&foreign[..size]), 10, "{size} octets");
        }
        assert_eq!(number(&whole), 22);
        assert_eq!(number(&foreign), 12);
    }
}

#[test]
fn one_tag_of_type_8100() {
    let with = |tags: &str| {
        hex(&format!(
            "020000000002 020000000001 {tags} 22F3 0005 0002 0001 {PLAIN}"
        ))
    };
    assert_eq!(number(&with("")), 51);
    assert_eq!(number(&with("8100 0001")), 51);
    assert_eq!(number(&with("8100 0001 8100 0001")), 11);
    assert_eq!(number(&with("88A8 0001")), 11);
    assert_eq!(number(&with("88A8 0001 8100 0001")), 11);
}

#[test]
fn outer_tag_is_not_read_and_not_sent() {
    let untagged = sent(&hex(&format!("{LINK} 0005 0003 0001 {PLAIN}")));
    assert_eq!(untagged.0, 50);
    for tag in ["0000", "0FFF", "FFFF", "1001"] {
        let frame = format!("020000000002 020000000001 8100 {tag} 22F3 0005 0003 0001 {PLAIN}");
        assert_eq!(sent(&hex(&frame)), untagged, "tag {tag}");
    }
}

#[test]
fn area_that_ends_with_the_frame() {
    let area = "00000000 41820007";
    for (egress, answer) in [("0003", 50), ("0002", 22)] {
        let frame = hex(&format!("{LINK} 0085 {egress} 0001 {area}"));
        assert_eq!(number(&frame), answer);
        for size in 20..28 {
            assert_eq!(number(&frame[..size]), 18, "{size} octets");
        }
    }
    let written = sent(&hex(&format!("{LINK} 0085 0003 0001 {area}"))).1;
    assert_eq!(
        written,
        hex(&format!(
            "020000000003 020000000002 22F3 0084 0003 0001 {area}"
        ))
    );
}

#[test]
fn order_of_12_to_18() {
    // Each row mends the first fault that is left.
    for (frame, answer) in [
        ("020000000003 020000000001 22F3 4800 0000 0000", 12),
        ("020000000002 020000000001 22F3 4FC0 0000 0000", 13),
        ("020000000002 020000000001 22F3 CFC0 0000 0000", 13),
        ("020000000002 020000000001 22F3 0FC0 0000 0000", 14),
        ("020000000002 020000000001 22F3 07C0 0000 0000", 15),
        ("020000000002 020000000001 22F3 07C0 0000 0001", 16),
        ("020000000002 020000000001 22F3 07C0 0003 0001", 17),
        ("020000000002 020000000001 22F3 07C1 0003 0001", 18),
        ("020000000002 020000000001 22F3 0001 0003 0001", 50),
    ] {
        assert_eq!(number(&hex(frame)), answer, "{frame}");
    }
}

#[test]
fn ingress_egress_hop_count() {
    let with = |hops: &str, egress: &str, ingress: &str| {
        number(&hex(&format!("{LINK} 00{hops} {egress} {ingress} {PLAIN}")))
    };
    for (nickname, ingress, egress) in [
        ("0000", 15, 16),
        ("0001", 21, 21),
        ("FFBF", 21, 21),
        ("FFC0", 15, 24),
        ("FFC1", 15, 16),
        ("FFFF", 15, 16),
    ] {
        assert_eq!(
            with("00", "0000", nickname),
            if ingress == 15 { 15 } else { 16 }
        );
        assert_eq!(with("05", "0009", nickname), ingress, "ingress {nickname}");
        let expected = if nickname == "0001" { 50 } else { egress };
        assert_eq!(with("05", nickname, "0001"), expected, "egress {nickname}");
        assert_eq!(
            with("00", nickname, "0001"),
            if egress == 16 { 16 } else { 17 }
        );
    }
}

#[test]
fn own_nickname_as_ingress() {
    assert_eq!(number(&hex(&format!("{LINK} 0005 0003 0002 {PLAIN}"))), 50);
    assert_eq!(number(&hex(&format!("{LINK} 0005 0002 0002 {PLAIN}"))), 51);
}

#[test]
fn fields_nobody_tests() {
    for source in [
        "FFFFFFFFFFFF",
        "000000000000",
        "020000000002",
        "010000000000",
    ] {
        let frame = format!("020000000002 {source} 22F3 0005 0002 0001");
        assert_eq!(number(&hex(&format!("{frame} {PLAIN}"))), 51);
        let group = PLAIN.replace("020000000099", "FFFFFFFFFFFF");
        let inner = group.replace("020000000098", source);
        assert_eq!(number(&hex(&format!("{frame} {inner}"))), 51);
    }
}

/// The answers in transit and at the egress for an area.
fn area(area: &str) -> (u16, u16) {
    (
        number(&optioned("0003", area)),
        number(&optioned("0002", area)),
    )
}

#[test]
fn summary_bit_without_an_option() {
    assert_eq!(area("80000000"), (20, 20));
    assert_eq!(area("40000000"), (50, 20));
    assert_eq!(area("C0000000"), (20, 20));
    assert_eq!(area("40000000 41820007"), (50, 20));
}

#[test]
fn bit_options_are_carried() {
    assert_eq!(area("20000000"), (50, 51));
    assert_eq!(area("0000FF00"), (50, 51));
    assert_eq!(area("3FFFFFFF"), (50, 51));
}

#[test]
fn summary_bits_of_critical_options() {
    // IE 0, NC 0.
    assert_eq!(area("00000000 05020000"), (34, 34));
    assert_eq!(area("40000000 05020000"), (34, 34));
    assert_eq!(area("80000000 05020000"), (20, 20));
    // IE 1, NC 0.
    assert_eq!(area("00000000 85020000"), (35, 35));
    assert_eq!(area("80000000 85020000"), (35, 35));
    assert_eq!(area("40000000 85020000"), (50, 20));
    // Not critical.
    assert_eq!(area("00000000 45020000 C5020000"), (50, 51));
}

/// What is left of an area under the strip flag.
fn stripped(area: &str) -> Vec<u8> {
    let (number, written) = sent_at(&optioned("0003", area), &format!("{SWITCH} {STRIP}"));
    assert_eq!(number, 50, "{area}");
    let inner = hex(PLAIN);
    let end = written.len() - inner.len();
    assert_eq!(written[end..], inner);
    let op_length = (usize::from(written[14]) << 8 | usize::from(written[15])) >> 6 & 0x1F;
    assert_eq!(op_length * 4, end - 20);
    assert_eq!(written[15] & 0x3F, 4);
    written[20..end].to_vec()
}

/// Whether an option stays under the strip flag.
fn stays(option: &str) -> bool {
    let whole = format!("00000000 {option}");
    let left = stripped(&whole);
    assert!(left == hex(&whole) || left == hex("00000000"), "{option}");
    left == hex(&whole)
}

/// Octets of an area of one word and one option under the strip flag.
fn left_of(option: &str) -> (usize, usize) {
    let whole = format!("00000000 {option}");
    (hex(&whole).len(), stripped(&whole).len())
}

#[test]
fn flow_id_of_another_length_goes() {
    assert_eq!(left_of("41800000"), (8, 4));
    assert_eq!(left_of("41810000"), (8, 4));
    assert_eq!(left_of("41820007"), (8, 8));
    assert_eq!(left_of("41830102 03000000"), (12, 4));
    assert_eq!(left_of("41850102 03040500"), (12, 4));
    // Other flags with the same Type, and pad, stay with any Length.
    assert_eq!(left_of("41020007"), (8, 8));
    assert_eq!(left_of("C1820007"), (8, 8));
    assert_eq!(left_of("41050102 03040500"), (12, 12));
    assert_eq!(left_of("C1850102 03040500"), (12, 12));
    assert_eq!(left_of("60850102 03040500"), (12, 12));
}

#[test]
fn flow_id_of_each_length() {
    for length in 0..=118_usize {
        let octets = (length + 2).next_multiple_of(4);
        let option = format!("41{:02X} {}", 0x80 | length, "5A".repeat(octets - 2));
        let left = if length == 2 { octets } else { 0 };
        assert_eq!(left_of(&option), (4 + octets, 4 + left), "Length {length}");
    }
}

#[test]
fn flow_id_of_another_length_is_copied_without_the_flag() {
    let rest = format!("0003 0001 00000000 41850102 03040500 {PLAIN}");
    let expected = format!("020000000003 020000000002 22F3 00C4 {rest}");
    let frame = hex(&format!("{LINK} 00C5 {rest}"));
    assert_eq!(sent(&frame), (50, hex(&expected)));
    let stripped = format!("020000000003 020000000002 22F3 0044 0003 0001 00000000 {PLAIN}");
    let settings = format!("{SWITCH} {STRIP}");
    assert_eq!(sent_at(&frame, &settings), (50, hex(&stripped)));
}

#[test]
fn pad() {
    for pad in [
        "60020000",
        "60820000",
        "E0020000",
        "E0820000",
        "60830000 00000000",
    ] {
        assert!(stays(pad), "{pad}");
    }
    // With NC 0 it is an unknown critical option.
    assert_eq!(area("00000000 20000000"), (34, 34));
    assert_eq!(area("80000000 20000000"), (20, 20));
    assert_eq!(area("00000000 A0000000"), (35, 35));
    assert_eq!(area("40000000 A0000000"), (50, 20));
}

#[test]
fn flags_and_reserved_types() {
    // Type 0x01 with MT 0, or with IE 1, is no Flow ID; neither may go.
    assert!(stays("41020007"));
    assert!(stays("C1820007"));
    assert!(stays("C1020007"));
    assert_eq!(area("80000000 01820007"), (20, 20));
    // Types 0x00 and 0x3F are like any other.
    assert!(!stays("40820000"));
    assert!(!stays("7F820000"));
    assert!(stays("40020000"));
    assert!(stays("7F020000"));
}

#[test]
fn only_mutable_hop_by_hop_options_go() {
    assert!(!stays("45820000"));
    assert!(stays("45020000"));
    assert!(stays("C5820000"));
    assert!(stays("C5020000"));
    // Neighbours of the implemented Types.
    assert!(!stays("42820000"));
    assert!(!stays("5F820000"));
    assert!(!stays("61820000"));
}

#[test]
fn critical_to_egress_options_are_carried_under_the_strip_flag() {
    let whole = "40000000 85820000";
    assert_eq!(stripped(whole), hex(whole));
}

#[test]
fn first_word_stays() {
    assert_eq!(stripped("00000000 45820000 46820000"), hex("00000000"));
    assert_eq!(stripped("12345678 45820000"), hex("12345678"));
    assert_eq!(stripped("00000000"), hex("00000000"));
    assert_eq!(stripped(""), hex(""));
}

#[test]
fn order_octets_and_padding_stay() {
    let left = stripped(
        "0000000A 41030102 03DEADBE 44820000 4585AABB CCDDEEFF 46030405 06BADBAD C7820809",
    );
    let expected = "0000000A 41030102 03DEADBE 46030405 06BADBAD C7820809";
    assert_eq!(left, hex(expected));
}

#[test]
fn order_of_30_to_35_20_and_21() {
    assert_eq!(area("80000000 41820007 41820007"), (33, 33));
    assert_eq!(area("80000000 85020000"), (35, 35));
    assert_eq!(number(&optioned("0009", "80000000")), 20);
    assert_eq!(number(&optioned("0009", "40000000")), 21);
    assert_eq!(number(&optioned("0009", "00000000 45020000 45020000")), 33);
}

#[test]
fn serials_are_plain_numbers() {
    let frame = hex(&format!("{LINK} 0005 0009 0001 {PLAIN}"));
    let record = |neighbour: u16, serial: &str| {
        format!("02 000E 0009 {neighbour:04X} 0200000000{neighbour:02X} {serial}")
    };
    for (low, high) in [
        ("00000000", "FFFFFFFF"),
        ("00000000", "00000001"),
        ("7FFFFFFF", "80000000"),
        ("00000001", "80000001"),
    ] {
        let (old, new) = (record(3, low), record(4, high));
        for settings in [
            format!("{SWITCH} {old} {new}"),
            format!("{SWITCH} {new} {old}"),
        ] {
            let (number, written) = sent_at(&frame, &settings);
            assert_eq!(number, 50);
            assert_eq!(written[..6], hex("020000000004"), "{settings}");
        }
    }
}

#[test]
fn record_for_our_own_nickname() {
    let settings = format!("{SWITCH} 02 000E 0002 0003 020000000003 00000009");
    let to_us = |inner: &str| hex(&format!("{LINK} 0005 0002 0002 {inner}"));
    let echo = format!("{CHANNEL} {ECHO}");
    assert_eq!(number_at(&to_us(PLAIN), &settings), 51);
    assert_eq!(number_at(&to_us(&echo), &settings), 28);
    assert_eq!(number_at(&to_us(CHANNEL), &settings), 25);
}

/// The answer for a frame to the switch asked.
fn answer(frame: &[u8]) -> Answer {
    ask(frame, &hex(SWITCH), &CLOCK, 2048).0
}

#[test]
fn start_and_length() {
    let handed_up = "0180C2000042 020000000001 8100 0001 22F4 010203";
    for (inner, number) in [(PLAIN, 51), (handed_up, 52)] {
        for (link, start) in [(LINK, 20), (TAGGED, 24)] {
            for (word, area, words) in [("0005", "", 0), ("0085", "00000000 41820007", 2)] {
                let frame = hex(&format!("{link} {word} 0002 0001 {area} {inner} 000000"));
                let start = start + 4 * words;
                let expected = Answer {
                    number,
                    start,
                    length: frame.len() as u16 - start,
                    ..Answer::default()
                };
                let answer = answer(&frame);
                assert_eq!(answer, expected);
                let delivered = part(&frame, start.into(), answer.length.into());
                assert_eq!(delivered, hex(&format!("{inner} 000000")));
            }
        }
    }
}

#[test]
fn any_rbridge() {
    let any = |inner: &str| number(&hex(&format!("{LINK} 0005 FFC0 0001 {inner}")));
    assert_eq!(any(PLAIN), 24);
    assert_eq!(any("0180C2000042 020000000001 8100 0001 22F4"), 52);
    assert_eq!(any(&format!("{CHANNEL} {ECHO}")), 54);
    // 22 and 23 come first.
    assert_eq!(any("020000000099 020000000098 8100 0001 08"), 22);
    assert_eq!(any("020000000099 020000000098 8101 0001 0800"), 23);
    assert_eq!(any("020000000099 020000000098 8100 0000 0800"), 23);
    assert_eq!(number(&optioned("FFC0", "40000000")), 20);
}

#[test]
fn inner_frames_of_17_and_18_octets() {
    let inner = "020000000099 020000000098 8100 0001 08";
    assert_eq!(number(&to_us(inner)), 22);
    assert_eq!(number(&to_us(&format!("{inner}00"))), 51);
    assert_eq!(number(&to_us("")), 22);
    assert_eq!(
        number(&to_us(&format!("{inner}00").replace("8100", "88A8"))),
        23
    );
}

#[test]
fn second_call() {
    let frame = [1, 2, 3, 4];
    assert_eq!(part(&frame, 0, 4), frame);
    assert_eq!(part(&frame, 1, 2), [2, 3]);
    assert_eq!(part(&frame, 3, 1), [4]);
    assert_eq!(part(&frame, 3, 2), []);
    assert_eq!(part(&frame, 4, 0), []);
    assert_eq!(part(&frame, 4, 1), []);
    assert_eq!(part(&frame, 5, 0), []);
    assert_eq!(part(&frame, usize::MAX, 2), []);
    assert_eq!(part(&frame, 2, usize::MAX), []);
    assert_eq!(part(&frame, usize::MAX, usize::MAX), []);
    assert_eq!(part(&[], 0, 0), []);
    let large = vec![7; 70_000];
    assert_eq!(part(&large, 69_000, 1000), &large[69_000..]);
}

/// The answer to a channel message, and the code of its error reply.
fn channel(rest: &str) -> (u16, u16) {
    let (number, written) = sent(&to_us(&format!("{CHANNEL} {rest}")));
    let code = if number == 53 {
        u16::from_be_bytes([written[40], written[41]]) - 0xC000
    } else {
        0
    };
    (number, code)
}

#[test]
fn channel_header_of_four_octets() {
    for rest in ["", "0F", "0FF8", "0FF800"] {
        assert_eq!(channel(rest), (53, 1), "{rest}");
    }
    assert_eq!(channel("0FF80000"), (27, 0));
    assert_eq!(channel("00010000"), (55, 0));
}

#[test]
fn codes_1_to_3_are_answered_whatever_the_flags_say() {
    assert_eq!(channel("1FF8 8000"), (53, 3));
    assert_eq!(channel("1001 0005"), (53, 3));
    assert_eq!(channel("F001 FFFF"), (53, 3));
    let unknown = CHANNEL.replace("8946", "0800");
    // No channel header follows an unknown Ethertype.
    for rest in ["", "0001 8005", "0FF8 FFFF"] {
        let (number, written) = sent(&to_us(&format!("{unknown} {rest}")));
        assert_eq!(number, 53);
        assert_eq!(written[38..42], hex("0001 C002"));
    }
}

#[test]
fn first_fault_counts() {
    assert_eq!(channel("0004 2000"), (53, 4));
    assert_eq!(channel("0001 2000"), (25, 0));
    assert_eq!(channel("1004 2000"), (53, 3));
}

#[test]
fn codes_4_and_5_are_silent_for_errors_and_on_demand() {
    for flags in ["A000", "2001", "200F", "A001"] {
        assert_eq!(channel(&format!("0FF8 {flags}")), (25, 0), "{flags}");
    }
    for flags in ["8000", "0001", "000F", "8001"] {
        assert_eq!(channel(&format!("0004 {flags}")), (25, 0), "{flags}");
    }
    assert_eq!(channel("0004 5FF0"), (53, 5));
    assert_eq!(channel("0FF8 7FF0"), (53, 4));
}

#[test]
fn no_error_reply_without_a_return_path() {
    for inner in [
        CHANNEL.to_string(),
        CHANNEL.replace("8946", "0800"),
        format!("{CHANNEL} 1FF8 0000"),
        format!("{CHANNEL} 0FF8 2000"),
        format!("{CHANNEL} 0004 0000"),
    ] {
        for (ingress, answer) in [("0001", 53), ("0002", 25), ("0009", 25)] {
            let frame = hex(&format!("{LINK} 0005 0002 {ingress} {inner}"));
            assert_eq!(number(&frame), answer, "{ingress} {inner}");
        }
        let withdrawn = format!("{SWITCH} 02 000E 0001 0000 020000000001 00000002");
        assert_eq!(number_at(&to_us(&inner), &withdrawn), 25);
    }
}

#[test]
fn error_body_is_the_frame_as_received() {
    let rest = format!("0105 0002 0001 00000000 41820007 4583AABB CC000000 {CHANNEL} 0004 0000");
    let settings = format!("{SWITCH} {STRIP}");
    for link in [LINK, TAGGED] {
        let (number, written) = sent_at(&hex(&format!("{link} {rest}")), &settings);
        assert_eq!(number, 53);
        assert_eq!(written[42..], hex(&format!("22F3 {rest}")));
    }
}

#[test]
fn error_field() {
    assert_eq!(channel("0001 0000"), (55, 0));
    assert_eq!(channel("0001 800F"), (55, 0));
    // Before the body is looked at.
    assert_eq!(channel("0FF8 0001"), (26, 0));
    assert_eq!(channel("0FF8 800F 40000000"), (26, 0));
}

#[test]
fn flags_of_an_echo() {
    for flags in ["0000", "8000", "4000", "DFF0"] {
        let echo = ECHO.replace("4000", flags);
        let (number, written) = sent(&to_us(&format!("{CHANNEL} {echo}")));
        assert_eq!(number, 54, "flags {flags}");
        assert_eq!(written[38..42], hex("0FF8 C000"));
    }
}

#[test]
fn padding_belongs_to_the_echo_body() {
    let (number, written) = sent(&to_us(&format!("{CHANNEL} {ECHO} 0000000000")));
    assert_eq!((number, written.len()), (54, 42 + 18 + 5));
}

#[test]
fn kinds_and_reply_modes() {
    let echo = |ingress: &str, spid: &str, mode: &str| {
        let body = format!("{spid}0000001 {mode} 00 000001000002 000000000000");
        number(&hex(&format!(
            "{LINK} 0005 0002 {ingress} {CHANNEL} 0FF8 4000 {body}"
        )))
    };
    for spid in ["0", "1", "2", "5", "7", "B", "C", "F"] {
        assert_eq!(echo("0001", spid, "02"), 27, "SPID {spid}");
    }
    for mode in ["00", "01", "03", "04", "82", "FF"] {
        assert_eq!(echo("0001", "3", mode), 28, "mode {mode}");
        assert_eq!(echo("0001", "4", mode), 56, "mode {mode}");
    }
    for (ingress, answer) in [("0001", 54), ("0002", 28), ("0009", 28)] {
        assert_eq!(echo(ingress, "3", "02"), answer);
        assert_eq!(echo(ingress, "4", "02"), 56);
    }
    let withdrawn = format!("{SWITCH} 02 000E 0001 0000 020000000001 00000002");
    assert_eq!(
        number_at(&to_us(&format!("{CHANNEL} {ECHO}")), &withdrawn),
        28
    );
}
