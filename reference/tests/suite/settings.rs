//! Answers 1, 2 and 3: settings, clock, room and frame size.

use crate::support::*;

fn good(settings: &str) -> bool {
    good_octets(&hex(settings))
}

/// Whether settings are good: an empty frame is then 10, else the answer is 1.
fn good_octets(settings: &[u8]) -> bool {
    match ask(&[], settings, &CLOCK, 2048).0.number {
        1 => false,
        10 => true,
        other => panic!("answer {other}"),
    }
}

const ALONE: &str = "01 0008 0002 020000000002";

#[test]
fn own_nickname_and_mac() {
    for (nickname, expected) in [
        ("0000", false),
        ("0001", true),
        ("FFBF", true),
        ("FFC0", false),
        ("FFC1", false),
        ("FFFF", false),
    ] {
        assert_eq!(good(&format!("01 0008 {nickname} 020000000002")), expected);
    }
    for (mac, expected) in MACS {
        assert_eq!(good(&format!("01 0008 0002 {mac}")), expected, "{mac}");
    }
}

/// The low bit of the first octet is the group bit.
const MACS: [(&str, bool); 7] = [
    ("000000000000", false),
    ("000000000001", true),
    ("010000000000", false),
    ("FFFFFFFFFFFF", false),
    ("FEFFFFFFFFFF", true),
    ("000100000000", true),
    ("030000000002", false),
];

#[test]
fn values_of_records() {
    for (record, expected) in [
        ("0000 0003 020000000003 00000001", false),
        ("FFBF 0003 020000000003 00000001", true),
        ("FFC0 0003 020000000003 00000001", false),
        ("0009 0000 020000000003 00000001", true),
        ("0009 FFBF 020000000003 FFFFFFFF", true),
        ("0009 FFC0 020000000003 00000001", false),
        ("0009 FFFF 020000000003 00000000", false),
        // Our own nickname may be a destination, and a neighbour.
        ("0002 0003 020000000003 00000001", true),
        ("0009 0002 020000000002 00000001", true),
    ] {
        assert_eq!(
            good(&format!("{ALONE} 02 000E {record}")),
            expected,
            "{record}"
        );
    }
}

#[test]
fn neighbour_mac_in_a_withdrawal_too() {
    for (mac, expected) in MACS {
        for neighbour in ["0003", "0000"] {
            let record = format!("02 000E 0009 {neighbour} {mac} 00000001");
            assert_eq!(good(&format!("{ALONE} {record}")), expected, "{record}");
        }
    }
}

#[test]
fn layout() {
    for settings in [
        "",
        "01",
        "01 00",
        "01 0008",
        "01 0008 0002 0200000000",
        "01 0007 0002 0200000000",
        "01 0009 0002 020000000002 00",
        "03 0001 01 01 0008 0002 020000000002",
        "02 000E 0003 0003 020000000003 00000001",
        "02 000E 0003 0003 020000000003 00000001 01 0008 0002 020000000002",
    ] {
        assert!(!good(settings), "{settings}");
    }
    for rest in [
        "01 0008 0003 020000000003",
        "01 0008 0002 020000000002",
        "04 0006 000000000000",
        "05 0002 0002",
        "00 0000",
        "06 0001 00",
        "03 0001 02",
        "03 0001 FF",
        "03 0000",
        "03 0002 0101",
        "02 000D 0003 0003 020000000003 000000",
        "02 000F 0003 0003 020000000003 00000001 00",
        "02 000E 0003 0003 020000000003 000000",
        "03 0001",
        "00",
        "03 00",
        "FF FFFF",
    ] {
        assert!(!good(&format!("{ALONE} {rest}")), "{rest}");
    }
    assert!(good(ALONE));
    assert!(good(&format!("{ALONE} 03 0001 00 03 0001 01 {STRIP}")));
}

#[test]
fn strip_flags_mix_with_records() {
    let area = "00000000 4583AABB CC000000";
    let frame = optioned("0003", area);
    let record = "02 000E 0003 0003 020000000003 00000001";
    for (fields, op_length) in [
        (format!("{record} 03 0001 01"), 1),
        (format!("03 0001 01 {record}"), 1),
        (format!("03 0001 00 {record} 03 0001 01"), 1),
        (format!("03 0001 01 {record} 03 0001 00"), 3),
        (record.to_string(), 3),
    ] {
        let (number, written) = sent_at(&frame, &format!("{ALONE} {fields}"));
        assert_eq!(number, 50);
        assert_eq!(written[14..16], [0, (op_length << 6) | 4], "{fields}");
    }
}

/// Records for 0x1000 on, each with this serial.
fn many(count: u16, serial: u32) -> Vec<u8> {
    let record = |number: u16| {
        let value = [
            &(0x1000 + number).to_be_bytes()[..],
            &hex("0003 020000000003"),
            &serial.to_be_bytes(),
        ];
        field(2, &value.concat())
    };
    (0..count).flat_map(record).collect()
}

#[test]
fn sixty_four_records() {
    for (count, expected) in [(63, true), (64, true), (65, false)] {
        let settings = [hex(ALONE), many(count, 7)].concat();
        assert_eq!(good_octets(&settings), expected, "{count} records");
        // Strip flags are no records.
        let flags = hex(STRIP).repeat(40_000);
        assert_eq!(good_octets(&[settings, flags].concat()), expected);
    }
}

#[test]
fn superseded_records_and_withdrawals_count() {
    let of_one_destination = |count: u32| -> Vec<u8> {
        let record = |serial: u32| {
            let neighbour = serial % 2;
            hex(&format!(
                "02 000E 0009 {neighbour:04X} 020000000003 {serial:08X}"
            ))
        };
        (0..count).flat_map(record).collect()
    };
    for (count, expected) in [(64, true), (65, false)] {
        let settings = [hex(ALONE), of_one_destination(count)].concat();
        assert_eq!(good_octets(&settings), expected, "{count} records");
    }
}

#[test]
fn equal_serials() {
    let record = "02 000E 0009 0003 020000000003 00000007";
    for (other, expected) in [
        (record, false),
        ("02 000E 0009 0000 020000000003 00000007", false),
        ("02 000E 0009 0004 020000000004 00000007", false),
        ("02 000E 0009 0003 020000000003 00000008", true),
        ("02 000E 000A 0003 020000000003 00000007", true),
    ] {
        assert_eq!(
            good(&format!("{ALONE} {record} {other}")),
            expected,
            "{other}"
        );
        assert_eq!(good(&format!("{ALONE} {other} {STRIP} {record}")), expected);
    }
}

#[test]
fn equal_serials_anywhere_among_64() {
    for first in 0..63 {
        let settings = [hex(ALONE), many(63, 7)].concat();
        assert!(good_octets(&settings));
        let again = &settings[11 + 17 * first..][..17];
        assert!(
            !good_octets(&[&settings[..], again].concat()),
            "record {first}"
        );
        let mut newer = again.to_vec();
        newer[16] = 8;
        assert!(good_octets(&[&settings[..], &newer].concat()));
    }
}

#[test]
fn any_64_different_records_are_good() {
    let mut state = 1_u32;
    let mut random = || {
        state = state.wrapping_mul(1_664_525).wrapping_add(1_013_904_223);
        state
    };
    for set in 0..100 {
        let mut settings = hex(ALONE);
        for number in 0..64 {
            let destination = 1 + number * 1000 + random() % 1000;
            let record = format!("{destination:04X} 0003 020000000003 {:08X}", random());
            settings.extend(field(2, &hex(&record)));
        }
        assert!(good_octets(&settings), "set {set}");
    }
}

#[test]
fn the_newest_among_64_records_rules() {
    let frame = hex(&format!("{LINK} 0005 1020 0001 {PLAIN}"));
    let newest = hex("02 000E 1020 0007 020000000007 00000008");
    let older = hex("02 000E 1020 0006 020000000006 00000006");
    let records = many(62, 7);
    for settings in [
        [hex(ALONE), records.clone(), newest.clone(), older.clone()].concat(),
        [hex(ALONE), newest, older, records].concat(),
    ] {
        let (answer, written) = ask(&frame, &settings, &CLOCK, 2048);
        assert_eq!(answer.number, 50);
        assert_eq!(written[..6], hex("020000000007"));
    }
}

#[test]
fn order_of_1_2_3() {
    let (bad, good) = (hex("01 0008 0000 020000000002"), hex(SWITCH));
    let (short, long) = (vec![0; 2048], vec![0; 2049]);
    let number = |frame: &[u8], settings: &[u8], clock: &[u8], room: usize| {
        ask(frame, settings, clock, room).0.number
    };
    assert_eq!(number(&long, &bad, &CLOCK, 2047), 1);
    assert_eq!(number(&long, &bad, &[], 2048), 1);
    assert_eq!(number(&long, &good, &CLOCK[..5], 0), 1);
    assert_eq!(number(&long, &good, &[0; 7], 2048), 1);
    assert_eq!(number(&long, &good, &[], 2048), 1);
    assert_eq!(number(&long, &good, &CLOCK, 2047), 2);
    assert_eq!(number(&short, &good, &CLOCK, 0), 2);
    assert_eq!(number(&long, &good, &CLOCK, 2048), 3);
    assert_eq!(number(&short, &good, &CLOCK, 2048), 11);
    assert_eq!(number(&short, &good, &CLOCK, 5000), 11);
}
