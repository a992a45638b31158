//! Which option makes an area ill formed: answers 30 to 35 and their start.

use crate::support::*;

#[test]
fn reserved_length() {
    for length in 119..=127 {
        let option = format!("41{:02X}0000", 0x80 | length);
        assert_eq!(fault(&format!("00000000 {option}")), (30, 4));
        assert_eq!(fault(&format!("00000000 40020000 {option}")), (30, 8));
    }
}

#[test]
fn past_the_area() {
    for length in 3..=118 {
        let option = format!("41{:02X}0000", 0x80 | length);
        assert_eq!(fault(&format!("00000000 {option}")), (31, 4));
        assert_eq!(fault(&format!("00000000 40020000 {option}")), (31, 8));
    }
}

#[test]
fn keys_that_do_not_rise() {
    assert_eq!(fault("00000000 45020000 44820000"), (32, 8));
    assert_eq!(fault("00000000 45020000 45020000"), (33, 8));
    assert_eq!(fault("00000000 45030000 00000000 45020000"), (33, 12));
    assert_eq!(fault("00000000 41820000 45020000 41820000"), (32, 12));
    // Only the option before counts.
    assert_eq!(fault("00000000 45020000 46020000 45020000"), (32, 12));
}

#[test]
fn first_key_of_0() {
    // Nothing is before it.
    assert_eq!(fault("80000000 00020000"), (20, 0));
    assert_eq!(fault("00000000 00020000"), (34, 0));
    assert_eq!(fault("80000000 00020000 00020000"), (33, 8));
    assert_eq!(fault("80000000 00820000 00020000"), (32, 8));
    assert_eq!(fault("80000000 00000000 00800000"), (20, 0));
}

#[test]
fn tests_of_one_option_in_order() {
    // Reserved and past, with a key that is equal, below or above.
    for key in ["45", "41", "46"] {
        assert_eq!(fault(&format!("00000000 45020000 {key}7F0000")), (30, 8));
        assert_eq!(fault(&format!("00000000 45020000 {key}030000")), (31, 8));
    }
    // A reserved Length that would go past the area.
    assert_eq!(fault("00000000 417F0000"), (30, 4));
}

#[test]
fn options_from_the_first_on() {
    assert_eq!(fault("00000000 45020000 45020000 457F0000"), (33, 8));
    assert_eq!(fault("00000000 45020000 44020000 44020000"), (32, 8));
    assert_eq!(fault("00000000 45FF0000 41820000 41820000"), (30, 4));
    assert_eq!(fault("00000000 45020000 46020000 470A0000"), (31, 12));
}

#[test]
fn summary_bits_after_all_options() {
    assert_eq!(fault("00000000 05020000"), (34, 0));
    assert_eq!(fault("00000000 85020000"), (35, 0));
    // Both missing, in either mixture.
    assert_eq!(fault("00000000 05020000 85020000"), (34, 0));
    assert_eq!(fault("80000000 05020000 85020000"), (35, 0));
    assert_eq!(fault("40000000 05020000 85020000"), (34, 0));
    // An option at fault after the critical one comes first.
    assert_eq!(fault("00000000 05020000 057F0000"), (30, 8));
    assert_eq!(fault("00000000 05020000 06030000"), (31, 8));
    assert_eq!(fault("00000000 05020000 04020000"), (32, 8));
    assert_eq!(fault("00000000 85020000 85020000"), (33, 8));
    // And before the critical one.
    assert_eq!(fault("00000000 45020000 05020000"), (32, 8));
    // A faulty critical option itself.
    assert_eq!(fault("00000000 057F0000"), (30, 4));
}

/// Good options of one word each, with rising keys that are not critical.
fn good(count: usize) -> String {
    let option = |place: usize| format!("{:04X}0000 ", (0x80 + place) << 7 | 2);
    (0..count).map(option).collect()
}

#[test]
fn each_place_of_an_area() {
    for before in 0..30 {
        let good = good(before);
        let after = "45020000".repeat(29 - before);
        let start = 4 + 4 * before as u16;
        let area = |option: &str| format!("00000000 {good} {option} {after}");
        assert_eq!(fault(&area("7F7F0000")), (30, start));
        if before > 0 {
            assert_eq!(fault(&area("00020000")), (32, start));
            let again = &good[good.len() - 9..];
            assert_eq!(fault(&area(again)), (33, start));
        }
        let past = format!("00000000 {good} 7F030000");
        assert_eq!(fault(&past), (31, start));
    }
}

#[test]
fn start_does_not_count_the_headers() {
    let rest = "00C5 0002 0001 00000000 41820007 41820008";
    for link in [LINK, TAGGED] {
        let frame = hex(&format!("{link} {rest} {PLAIN}"));
        let answer = ask(&frame, &hex(SWITCH), &CLOCK, 2048).0;
        assert_eq!((answer.number, answer.start, answer.length), (33, 8, 0));
    }
}
