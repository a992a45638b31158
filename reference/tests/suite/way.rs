//! The way out: a destination's link header in one call.

use crate::support::*;
use reference::generate::way_input;
use reference::{way_out, Way};

/// Number, length and the whole buffer of 0x5A after the call.
fn way(settings: &str, destination: u16, room: usize) -> (u32, u32, Vec<u8>) {
    let mut out = vec![0x5A; room];
    let Way { number, length } = way_out(&hex(settings), destination, &mut out);
    (number, length, out)
}

/// The answer with room for a header and more.
fn found(settings: &str, destination: u16) -> (u32, Vec<u8>) {
    let (number, length, mut out) = way(settings, destination, 100);
    assert!(out[length as usize..].iter().all(|&octet| octet == 0x5A));
    out.truncate(length as usize);
    (number, out)
}

fn header(neighbour_mac: &str) -> Vec<u8> {
    hex(&format!("{neighbour_mac} 020000000002 22F3"))
}

const BAD: &str = "01 0008 0000 020000000002";

#[test]
fn link_header_of_the_destination() {
    assert_eq!(found(SWITCH, 3), (0, header("020000000003")));
    assert_eq!(found(SWITCH, 1), (0, header("020000000001")));
    // The destination counts, not the neighbour.
    let through = format!("{SWITCH} 02 000E 0009 0007 020000000077 00000001");
    assert_eq!(found(&through, 9), (0, header("020000000077")));
    assert_eq!(found(&through, 7), (21, vec![]));
}

#[test]
fn order_of_1_21_2() {
    let untouched = |number, room| (number, 0, vec![0x5A; room]);
    for room in [0, 13, 14, 100] {
        assert_eq!(way(BAD, 3, room), untouched(1, room));
        assert_eq!(way(BAD, 9, room), untouched(1, room));
        assert_eq!(way("", 3, room), untouched(1, room));
        assert_eq!(way(SWITCH, 9, room), untouched(21, room));
    }
    for room in 0..14 {
        assert_eq!(way(SWITCH, 3, room), untouched(2, room));
    }
}

#[test]
fn room_for_the_header_is_enough() {
    for room in 14..120 {
        let (number, length, out) = way(SWITCH, 3, room);
        assert_eq!((number, length), (0, 14));
        assert_eq!(out[..14], header("020000000003"));
        assert!(out[14..].iter().all(|&octet| octet == 0x5A));
    }
}

fn record(neighbour: u16, serial: u32) -> String {
    format!("02 000E 0009 {neighbour:04X} 0200000000{neighbour:02X} {serial:08X}")
}

#[test]
fn the_newest_record_rules() {
    let (old, new, gone) = (record(7, 7), record(8, 8), "02 000E 0009 0000 020000000009");
    for records in [format!("{old} {new}"), format!("{new} {old}")] {
        let settings = format!("{SWITCH} {records}");
        assert_eq!(found(&settings, 9), (0, header("020000000008")));
        // A withdrawal newer, older or in between.
        for (serial, expected) in [
            (9, (21, vec![])),
            (6, (0, header("020000000008"))),
            (u32::MAX, (21, vec![])),
        ] {
            let settings = format!("{settings} {gone} {serial:08X}");
            assert_eq!(found(&settings, 9), expected, "serial {serial}");
        }
    }
    let withdrawn = format!("{SWITCH} {gone} 00000001");
    assert_eq!(way(&withdrawn, 9, 0), (21, 0, vec![]));
}

#[test]
fn equal_serials_are_bad_settings() {
    let settings = format!("{SWITCH} {} {}", record(7, 7), record(8, 7));
    assert_eq!(found(&settings, 9), (1, vec![]));
    // For every destination, and before the room.
    assert_eq!(found(&settings, 3), (1, vec![]));
    assert_eq!(way(&settings, 3, 0), (1, 0, vec![]));
}

#[test]
fn destinations_that_are_no_nickname() {
    for destination in [0, 0xFFC0, 0xFFC1, 0xFFFF] {
        assert_eq!(found(SWITCH, destination), (21, vec![]));
        assert_eq!(way(SWITCH, destination, 0), (21, 0, vec![]));
    }
}

#[test]
fn own_nickname_is_a_destination_like_any_other() {
    assert_eq!(found(SWITCH, 2), (21, vec![]));
    let settings = format!("{SWITCH} 02 000E 0002 0003 0200000000AA 00000001");
    assert_eq!(found(&settings, 2), (0, header("0200000000AA")));
}

/// A frame in transit to the destination has the same answer and header.
#[test]
fn forwarding_takes_the_same_way() {
    for index in 0..100_000 {
        let input = way_input(2, index);
        let (settings, destination) = (&input.settings, input.destination);
        let own = settings.get(3..5) == Some(&destination.to_be_bytes());
        if own || !(1..0xFFC0).contains(&destination) {
            continue;
        }
        let mac = settings.get(5..11).unwrap_or(&[0; 6]);
        let rest = hex(&format!("020000000001 22F3 0005 {destination:04X} 0001"));
        let (answer, written) = ask(&[mac, &rest].concat(), settings, &CLOCK, 2048);
        let mut out = [0; 18];
        let way = way_out(settings, destination, &mut out);
        let header = &out[..way.length as usize];
        match way.number {
            0 => assert_eq!((answer.number, &written[..header.len()]), (50, header)),
            refusal => assert_eq!(u32::from(answer.number), refusal),
        }
    }
}
