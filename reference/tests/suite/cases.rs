//! C1 to C12, completed to whole frames, on both sides of each boundary.

use crate::support::*;

const C1: &str = "01 0008 0001 020000000001
    02 000E 0003 0002 020000000002 00000001
    01 0008 0002 020000000002
    02 000E 0003 0003 020000000003 00000001
    02 000E 0001 0001 020000000001 00000001
    01 0008 0003 020000000003
    02 000E 0001 0002 020000000002 00000001
    04 0006 000001000009
    05 003E 0002 020000000002 020000000001 22F3
    0005 0003 0001 0180C2000042 020000000001
    8100 0001 8946 0FF8 4000 30000001 02 00
    000001000002 000000000000";

#[test]
fn c1_whole_output() {
    let expected = "0002 O 50 05 0003\n0003 O 54 04 0003\n\
                    0002 R 50 3F 0001\n0001 R 56 3E 0001\nhandled 4\n";
    assert_eq!(printed(&hex(C1)), expected);
}

#[test]
fn c1_trace() {
    let (outcome, trace) = campus(&hex(C1));
    assert_eq!((outcome.code, outcome.count), (0, 4));
    let expected = "0002 00 32 05 00 0003  0003 00 36 04 00 0003
        0002 01 32 3F 00 0001  0001 01 38 3E 00 0001";
    assert_eq!(trace, hex(expected));
}

#[test]
fn c2_c3_hop_count_at_the_egress() {
    let at_hop = |hop| hex(&format!("{LINK} 00{hop} 0002 0001 {PLAIN}"));
    assert_eq!(number(&at_hop("00")), 17);
    assert_eq!(number(&at_hop("01")), 51);
    assert_eq!(number(&at_hop("3F")), 51);
}

#[test]
fn c2_c3_hop_count_in_transit() {
    let at_hop = |hop| hex(&format!("{LINK} 00{hop} 0003 0001 {PLAIN}"));
    assert_eq!(number(&at_hop("00")), 17);
    let (number, written) = sent(&at_hop("01"));
    assert_eq!(number, 50);
    assert_eq!(written[14..16], [0x00, 0x00]);
}

/// An area of one option of this Length over 30 words.
fn filling_option(length: u8) -> String {
    format!("00000000 41{:02X} {}", 0x80 | length, "5A".repeat(118))
}

#[test]
fn c4_c5_greatest_length() {
    assert_eq!(number(&optioned("0003", &filling_option(118))), 50);
    assert_eq!(fault(&filling_option(119)), (30, 4));
    assert_eq!(fault(&filling_option(127)), (30, 4));
    // 115 to 118 fill 30 words; 114 leaves a word over, which holds no option.
    assert_eq!(number(&optioned("0003", &filling_option(115))), 50);
    assert_eq!(fault(&filling_option(114)), (31, 120));
}

/// An area of one option with this Length and this many octets.
fn sized(length: u8, octets: usize) -> String {
    let data = "00".repeat(octets - 2);
    format!("00000000 41{:02X} {data}", 0x80 | length)
}

#[test]
fn c6_data_lengths_take_whole_words() {
    for (length, octets) in [(2, 4), (3, 8), (6, 8), (7, 12), (0, 4), (1, 4)] {
        let fits = optioned("0003", &sized(length, octets));
        assert_eq!(number(&fits), 50, "Length {length}");
        // A word more is an option with key 0.
        let next = 4 + octets as u16;
        assert_eq!(fault(&sized(length, octets + 4)), (32, next));
        if octets > 4 {
            assert_eq!(fault(&sized(length, octets - 4)), (31, 4));
        }
    }
}

#[test]
fn c7_stripped_frame() {
    let frame = format!("{LINK} 0105 0003 0001 00000000 41820007 4583AABB CC000000 {PLAIN}");
    let expected =
        format!("020000000003 020000000002 22F3 0084 0003 0001 00000000 41820007 {PLAIN}");
    let settings = format!("{SWITCH} {STRIP}");
    assert_eq!(sent_at(&hex(&frame), &settings), (50, hex(&expected)));
}

#[test]
fn c7_without_the_strip_flag() {
    let area = "00000000 41820007 4583AABB CC000000";
    let frame = format!("{LINK} 0105 0003 0001 {area} {PLAIN}");
    let expected = format!("020000000003 020000000002 22F3 0104 0003 0001 {area} {PLAIN}");
    assert_eq!(sent(&hex(&frame)), (50, hex(&expected)));
    let cleared = format!("{SWITCH} {STRIP} 03 0001 00");
    assert_eq!(sent_at(&hex(&frame), &cleared), (50, hex(&expected)));
}

#[test]
fn c8_keys_rise() {
    assert_eq!(fault("00000000 41820007 41820008"), (33, 8));
    // The Length is no part of the key.
    assert_eq!(fault("00000000 41810007 41820008"), (33, 8));
    assert_eq!(fault("00000000 42020007 41820008"), (32, 8));
    // MT is its lowest bit.
    assert_eq!(number(&optioned("0003", "00000000 41020007 41820008")), 50);
    assert_eq!(number(&optioned("0003", "00000000 41820007 42020008")), 50);
}

#[test]
fn c9_vlan() {
    let at_vlan = |tag| to_us(&format!("020000000099 020000000098 8100 {tag} 0800"));
    for (tag, answer) in [
        ("0000", 23),
        ("F000", 23),
        ("0001", 51),
        ("F001", 51),
        ("0FFE", 51),
        ("EFFE", 51),
        ("0FFF", 23),
        ("FFFF", 23),
    ] {
        assert_eq!(number(&at_vlan(tag)), answer, "tag {tag}");
    }
}

#[test]
fn c10_two_switches_loop() {
    let description = |hops: &str| {
        let frame = format!("0001 020000000001 020000000009 22F3 00{hops} 0003 0009 {PLAIN}");
        let switches = "01 0008 0001 020000000001
            02 000E 0003 0002 020000000002 00000001
            01 0008 0002 020000000002
            02 000E 0003 0001 020000000001 00000001";
        [hex(switches), field(5, &hex(&frame))].concat()
    };
    let expected = "0001 O 50 05 0003\n0002 O 50 04 0003\n0001 O 50 03 0003\n\
                    0002 O 50 02 0003\n0001 O 50 01 0003\n0002 O 17 00 0003\nhandled 6\n";
    assert_eq!(printed(&description("05")), expected);
    assert_eq!(campus(&description("3F")).0.count, 64);
    assert_eq!(campus(&description("01")).0.count, 2);
    assert_eq!(campus(&description("00")).0.count, 1);
}

#[test]
fn c11_reply_goes_round_at_one_switch() {
    let description = |hops: &str| {
        let frame = format!("0002 {LINK} 00{hops} 0002 0009 {CHANNEL} {ECHO}");
        let switch = "01 0008 0002 020000000002
            02 000E 0009 0002 020000000002 00000001";
        [hex(switch), field(5, &hex(&frame))].concat()
    };
    let (outcome, trace) = campus(&description("01"));
    assert_eq!((outcome.code, outcome.count), (0, 65));
    assert_eq!(trace[..8], hex("0002 00 36 01 00 0002"));
    for (hop, entry) in (0..64).rev().zip(trace[8..].chunks(8)) {
        let answer = if hop == 0 { 17 } else { 50 };
        assert_eq!(entry, [0, 2, 1, answer, hop, 0, 0, 9]);
    }
    assert_eq!(campus(&description("00")).0.count, 1);
    assert_eq!(campus(&description("3F")).0.count, 65);
}

#[test]
fn c12_the_newest_record_rules() {
    let to_9 = hex(&format!("{LINK} 0005 0009 0001 {PLAIN}"));
    let live = |serial: u32| format!("02 000E 0009 0003 020000000003 {serial:08X}");
    let gone = |serial: u32| format!("02 000E 0009 0000 020000000003 {serial:08X}");
    for (records, answer) in [
        ([live(7), gone(8)], 21),
        ([gone(8), live(7)], 21),
        ([live(8), gone(7)], 50),
        ([gone(7), live(8)], 50),
    ] {
        let records = records.join(" ");
        let settings = format!("{SWITCH} {records}");
        assert_eq!(number_at(&to_9, &settings), answer, "{settings}");
        // Older live records on either side don't come back.
        let settings = format!("{SWITCH} {} {records} {}", live(5), live(6));
        assert_eq!(number_at(&to_9, &settings), answer, "{settings}");
    }
}
