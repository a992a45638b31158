//! Refusals, their order, and plain runs.

use crate::support::*;
use reference::{run, Outcome};

const CAMPUS: &str = "01 0008 0001 020000000001
    02 000E 0003 0002 020000000002 00000001
    01 0008 0002 020000000002
    02 000E 0003 0003 020000000003 00000001";
/// An accepted last field.
const FRAME: &str = "05 0002 0001";

fn code_of(description: &str) -> u32 {
    code(&hex(description))
}

/// The code with these fields between the campus and the frame.
fn with(fields: &str) -> u32 {
    code_of(&format!("{CAMPUS} {fields} {FRAME}"))
}

/// The code with these octets after the frame.
fn after(octets: &str) -> u32 {
    code_of(&format!("{CAMPUS} {FRAME} {octets}"))
}

#[test]
fn empty_frame() {
    assert_eq!(
        printed(&hex(&format!("{CAMPUS} {FRAME}"))),
        "0001 O 10 00 0000\nhandled 1\n"
    );
}

#[test]
fn trace_room_first() {
    let bad = vec![0; 32_769];
    for room in [0, 1, 639, 640, 641] {
        let mut trace = vec![0x5A; room];
        let refused = Outcome {
            code: if room < 640 { 49 } else { 40 },
            count: 0,
        };
        assert_eq!(run(&bad, &mut trace), refused);
        assert!(trace.iter().all(|&octet| octet == 0x5A));
        let good = hex(&format!("{CAMPUS} {FRAME}"));
        let outcome = run(&good, &mut trace);
        assert_eq!(outcome.code, if room < 640 { 49 } else { 0 });
        assert_eq!(outcome.count, u32::from(room >= 640));
    }
}

#[test]
fn file_of_32768_octets() {
    let (start, end) = (hex(CAMPUS), hex("05 0003 0001 FF"));
    let flags = (32_768 - start.len() - end.len()) / 4;
    let flags = hex(STRIP).repeat(flags);
    let mut file = [start, flags].concat();
    let rest = 32_768 - file.len() - 3;
    file.extend(field(5, &[&[0, 1][..], &vec![0xFF; rest - 2]].concat()));
    assert_eq!(file.len(), 32_768);
    assert_eq!(code(&file), 0);
    file.push(0);
    assert_eq!(code(&file), 40);
    assert_eq!(code(&vec![0; 32_768]), 42);
}

#[test]
fn cut_fields() {
    let whole = format!("{CAMPUS} 04 0006 000000000000 03 0001 01 05 0004 0001 AABB");
    let octets = hex(&whole);
    assert_eq!(code(&octets), 0);
    let fields = [0, 11, 28, 39, 56, 65, 69];
    for size in 0..octets.len() {
        let expected = if fields.contains(&size) { 43 } else { 41 };
        assert_eq!(code(&octets[..size]), expected, "{size} octets");
    }
}

#[test]
fn cut_before_tag_and_length() {
    assert_eq!(code_of("FF"), 41);
    assert_eq!(code_of("FF 0001"), 41);
    assert_eq!(code_of("01 FFFF 00"), 41);
    assert_eq!(code_of("05 0803 0001"), 41);
    assert_eq!(code_of("FF 0000"), 42);
}

#[test]
fn unknown_tags_and_lengths() {
    for bad in [
        "00 0000",
        "06 0000",
        "06 0002 0001",
        "07 0001 01",
        "FF 0001 00",
        "01 0007 00010200000000",
        "01 0009 000502000000000100",
        "02 000D 00030003020000000300000000",
        "02 000F 000300030200000003000000090000",
        "03 0000",
        "03 0002 0000",
        "04 0005 0000000000",
        "04 0007 00000000000000",
        "05 0000",
        "05 0001 00",
    ] {
        assert_eq!(with(bad), 42, "{bad}");
        assert_eq!(code_of(&format!("{bad} {CAMPUS} {FRAME}")), 42, "{bad}");
        // The same after tag 5.
        assert_eq!(after(bad), 42, "{bad}");
    }
}

#[test]
fn greatest_frame() {
    let frame = |size: usize| field(5, &[&[0, 1][..], &vec![0xFF; size]].concat());
    assert_eq!(code(&[hex(CAMPUS), frame(2048)].concat()), 0);
    assert_eq!(code(&[hex(CAMPUS), frame(2049)].concat()), 42);
}

#[test]
fn places_of_tags() {
    assert_eq!(code_of("02 000E 0003 0002 020000000002 00000001"), 43);
    assert_eq!(code_of("03 0001 01"), 43);
    // 43 before 44.
    assert_eq!(code_of("02 000E 0000 0002 020000000002 00000001"), 43);
    assert_eq!(code_of("03 0001 02"), 43);
    assert_eq!(with("04 0006 000000000000 04 0006 000000000000"), 43);
    assert_eq!(code_of(CAMPUS), 43);
    assert_eq!(code_of(""), 43);
    assert_eq!(code_of(&format!("{CAMPUS} 04 0006 000000000000")), 43);
}

#[test]
fn after_tag_5() {
    for more in [
        "01 0008 0005 020000000005",
        "01 0008 0000 020000000005",
        "02 000E 0003 0002 020000000002 00000009",
        "03 0001 02",
        "04 0006 000000000000",
        FRAME,
        "05 0002 0009",
    ] {
        assert_eq!(after(more), 43, "{more}");
    }
    for cut in ["00", "05", "05 00", "FF 0001", "03 0001"] {
        assert_eq!(after(cut), 41, "{cut}");
    }
    // A fault of tag 5 itself comes before.
    assert_eq!(code_of(&format!("{CAMPUS} 05 0002 0009 00")), 48);
}

#[test]
fn values_outside_the_rules() {
    for bad in [
        "01 0008 0000 020000000005",
        "01 0008 FFC0 020000000005",
        "01 0008 FFFF 020000000005",
        "01 0008 0005 000000000000",
        "01 0008 0005 010000000000",
        "02 000E 0000 0003 020000000003 00000009",
        "02 000E FFC0 0003 020000000003 00000009",
        "02 000E 0003 FFC0 020000000003 00000009",
        "02 000E 0003 0003 000000000000 00000009",
        "02 000E 0003 0003 010000000003 00000009",
        "02 000E 0003 0000 010000000003 00000009",
        "02 000E 0003 0000 000000000000 00000009",
        "03 0001 02",
        "03 0001 FF",
        // Not mended by a later flag.
        "03 0001 02 03 0001 01",
    ] {
        assert_eq!(with(bad), 44, "{bad}");
    }
    for good in [
        "01 0008 FFBF 000000000001",
        "02 000E FFBF FFBF FE0000000000 FFFFFFFF",
        "02 000E 0003 0000 020000000003 00000000",
        "03 0001 00 03 0001 01 03 0001 00",
    ] {
        assert_eq!(with(good), 0, "{good}");
    }
}

#[test]
fn first_field_at_fault() {
    assert_eq!(with("03 0001 02 FF 0000"), 44);
    assert_eq!(with("FF 0000 03 0001 02"), 42);
    assert_eq!(with("01 0008 0001 020000000009 03 0001 02"), 45);
    // No tag 5 is found last.
    assert_eq!(code_of(&format!("{CAMPUS} 03 0001 02")), 44);
    assert_eq!(code_of(&format!("{CAMPUS} 03 0001")), 41);
}

#[test]
fn nickname_of_an_earlier_switch() {
    assert_eq!(with("01 0008 0001 020000000009"), 45);
    assert_eq!(with("01 0008 0002 020000000002"), 45);
    // Equal MACs.
    assert_eq!(with("01 0008 0003 020000000002"), 0);
    // 44 before 45.
    assert_eq!(with("01 0008 0001 030000000009"), 44);
}

fn switches(count: u16) -> String {
    let switch = |number: u16| format!("01 0008 {:04X} 020000000009 ", 0x100 + number);
    (0..count).map(switch).collect()
}

#[test]
fn seventeen_switches() {
    assert_eq!(with(&switches(14)), 0);
    assert_eq!(with(&switches(15)), 46);
    assert_eq!(
        with(&format!("{} 01 0008 0000 020000000009", switches(14))),
        44
    );
    assert_eq!(
        with(&format!("{} 01 0008 0001 020000000009", switches(14))),
        45
    );
}

/// Records for 0x0100 on.
fn records(count: u16) -> String {
    let record =
        |number: u16| format!("02 000E {:04X} 0002 020000000002 00000001 ", 0x100 + number);
    (0..count).map(record).collect()
}

#[test]
fn records_of_one_switch() {
    // The latest switch of the campus has one record.
    assert_eq!(with(&records(63)), 0);
    assert_eq!(with(&records(64)), 46);
    let full = records(63);
    let repeated = "02 000E 0100 0002 020000000002 00000001";
    assert_eq!(with(&format!("{full} {repeated}")), 46);
    let bad = "02 000E 0000 0002 020000000002 00000001";
    assert_eq!(with(&format!("{full} {bad}")), 44);
    // 64 records at each of 16 switches.
    let all: String = (0..16)
        .map(|number| format!("01 0008 {:04X} 020000000009 {}", 1 + number, records(64)))
        .collect();
    assert_eq!(code_of(&format!("{all} {FRAME}")), 0);
}

#[test]
fn serial_met_before() {
    assert_eq!(with("02 000E 0003 0003 020000000003 00000001"), 47);
    assert_eq!(with("02 000E 0003 0000 020000000009 00000001"), 47);
    assert_eq!(with("02 000E 0003 0003 020000000003 00000002"), 0);
    assert_eq!(with("02 000E 0004 0003 020000000003 00000001"), 0);
    // The first switch has it too; a new switch may have it again.
    let third = "01 0008 0003 020000000003 02 000E 0003 0003 020000000003 00000001";
    assert_eq!(with(third), 0);
    // A clock or a strip flag between the two changes nothing.
    let apart = "04 0006 000000000000 03 0001 01 02 000E 0003 0003 020000000003 00000001";
    assert_eq!(with(apart), 47);
}

#[test]
fn entry_switch() {
    for entry in ["0003", "0000", "FFC0", "FFFF"] {
        assert_eq!(code_of(&format!("{CAMPUS} 05 0002 {entry}")), 48, "{entry}");
    }
    assert_eq!(code_of(FRAME), 48);
    assert_eq!(code_of(&format!("{CAMPUS} 05 0002 0002")), 0);
    assert_eq!(
        code_of(&format!("04 0006 000000000000 {CAMPUS} {FRAME}")),
        0
    );
    let between = CAMPUS.replacen("02 000E", "04 0006 000000000000 02 000E", 1);
    assert_eq!(code_of(&format!("{between} {FRAME}")), 0);
}

/// A line of switches 1 to n, each with a route to the last and itself as the
/// next hop for 0x0999; an echo request from 0x0999 enters at the first.
fn line(count: u16, hops: u16) -> Vec<u8> {
    let mac = |nickname: u16| format!("02000000{nickname:04X}");
    let switch = |nickname: u16| {
        let next = (nickname + 1).min(count);
        format!(
            "01 0008 {nickname:04X} {} 02 000E {count:04X} {next:04X} {} 00000001
             02 000E 0999 {nickname:04X} {} 00000001 ",
            mac(nickname),
            mac(next),
            mac(nickname)
        )
    };
    let switches: String = (1..=count).map(switch).collect();
    let frame = format!(
        "0001 {} 020000000999 22F3 {hops:04X} {count:04X} 0999 {CHANNEL} {ECHO}",
        mac(1)
    );
    [hex(&switches), field(5, &hex(&frame))].concat()
}

#[test]
fn longest_run_has_80_handlings() {
    let (outcome, trace) = campus(&line(16, 63));
    assert_eq!((outcome.code, outcome.count), (0, 80));
    for (place, entry) in (0_u8..).zip(trace.chunks(8)) {
        let expected = match place {
            0..15 => [0, place + 1, 0, 50, 63 - place, 0, 0, 16],
            15 => [0, 16, 0, 54, 48, 0, 0, 16],
            79 => [0, 16, 1, 17, 0, 0, 9, 0x99],
            _ => [0, 16, 1, 50, 79 - place, 0, 9, 0x99],
        };
        assert_eq!(entry, expected, "entry {place}");
    }
    let mut exact = [0; 640];
    assert_eq!(run(&line(16, 63), &mut exact), outcome);
    assert_eq!(exact[..], trace);
}

#[test]
fn bound_is_met_for_each_line_and_hop_count() {
    for count in 1..=16 {
        for hops in 1..=63 {
            let handled = campus(&line(count, hops)).0.count;
            let (count, hops) = (u32::from(count), u32::from(hops));
            // A frame that dies on the way has one handling more than hops.
            let expected = if hops >= count { count + 64 } else { hops + 1 };
            assert_eq!(handled, expected, "{count} switches, hop count {hops}");
        }
    }
}

/// Two switches and a frame at the first.
fn two(records: &str, frame: &str) -> String {
    let first = "01 0008 0001 020000000001";
    let fields = format!("{records} 01 0008 0002 020000000002");
    let frame = hex(&format!("0001 {frame}"));
    printed(&[hex(first), hex(&fields), field(5, &frame)].concat())
}

const AT_FIRST: &str = "020000000001 020000000009 22F3";

#[test]
fn nickname_chooses_and_mac_is_tested_there() {
    let frame = format!("{AT_FIRST} 0005 0003 0009 {PLAIN}");
    let wrong_mac = "02 000E 0003 0002 020000000001 00000001";
    assert_eq!(
        two(wrong_mac, &frame),
        "0001 O 50 05 0003\n0002 O 12 04 0003\nhandled 2\n"
    );
    let itself = "02 000E 0003 0001 020000000002 00000001";
    assert_eq!(
        two(itself, &frame),
        "0001 O 50 05 0003\n0001 O 12 04 0003\nhandled 2\n"
    );
}

#[test]
fn frame_leaves() {
    let outside = "02 000E 0003 0007 020000000002 00000001";
    let frame = format!("{AT_FIRST} 0005 0003 0009 {PLAIN}");
    assert_eq!(two(outside, &frame), "0001 O 50 05 0003\nhandled 1\n");
    let echo = format!("{AT_FIRST} 0005 0001 0003 {CHANNEL} {ECHO}");
    assert_eq!(two(outside, &echo), "0001 O 54 05 0001\nhandled 1\n");
    let error = format!("{AT_FIRST} 0005 0001 0003 {CHANNEL}");
    assert_eq!(two(outside, &error), "0001 O 53 05 0001\nhandled 1\n");
}

#[test]
fn reply_goes_by_the_ruling_record() {
    let records = "02 000E 0009 0001 020000000001 00000001
        02 000E 0009 0002 020000000002 00000005
        02 000E 0009 0001 020000000001 00000003";
    for (inner, answer) in [(format!("{CHANNEL} {ECHO}"), 54), (CHANNEL.to_string(), 53)] {
        let frame = format!("{AT_FIRST} 0005 0001 0009 {inner}");
        let expected = format!("0001 O {answer} 05 0001\n0002 R 21 3F 0009\nhandled 2\n");
        assert_eq!(two(records, &frame), expected);
    }
}

#[test]
fn replies_are_heard() {
    let records = "02 000E 0002 0002 020000000002 00000001";
    for (inner, answer, heard) in [
        (format!("{CHANNEL} {ECHO}"), 54, 56),
        (format!("{CHANNEL} 0004 0000"), 53, 55),
    ] {
        let frame = format!("{AT_FIRST} 0005 0001 0002 {inner}");
        let expected = format!("0001 O {answer} 05 0001\n0002 R {heard} 3F 0002\nhandled 2\n");
        assert_eq!(two(records, &frame), expected);
    }
}

/// Frames after their link header's addresses, and the lines of their drops.
const DROPS: [(&str, &str); 9] = [
    ("22F3 0005 0003 00", "10 00 0000"),
    ("22F4 0005 0003 0001", "11 00 0000"),
    ("8100 0001 22F3 0005 0003 00", "10 00 0000"),
    ("22F3 C005 0003 0001", "13 05 0003"),
    ("22F3 0805 0003 0001", "14 05 0003"),
    ("22F3 0005 0003 0000", "15 05 0003"),
    ("22F3 0005 FFFF 0001", "16 05 FFFF"),
    ("22F3 0000 0003 0001", "17 00 0003"),
    ("8100 0001 22F3 0045 0003 0001", "18 05 0003"),
];

#[test]
fn hop_count_and_egress_of_drops() {
    for (rest, line) in DROPS {
        let frame = format!("020000000001 020000000009 {rest}");
        let expected = format!("0001 O {line}\nhandled 1\n");
        assert_eq!(two("", &frame), expected, "{frame}");
    }
    let foreign = "020000000009 020000000009 22F3 FFFF ABCD 0001";
    assert_eq!(two("", foreign), "0001 O 12 3F ABCD\nhandled 1\n");
}

#[test]
fn any_rbridge_is_answered_where_it_enters() {
    let records = "02 000E 0009 0002 020000000002 00000001";
    let frame = format!("{AT_FIRST} 003F FFC0 0009 {CHANNEL} {ECHO}");
    let expected = "0001 O 54 3F FFC0\n0002 R 21 3F 0009\nhandled 2\n";
    assert_eq!(two(records, &frame), expected);
}
