//! The outer VLAN of a record: link headers of 18 octets, and answer 29.

use crate::support::*;
use reference::{handle_prepared, way_out, Prepared};

/// The switch asked, with records of this VLAN for 0x0003 and 0x0001.
fn switch(vlan: &str) -> String {
    format!(
        "01 0008 0002 020000000002
        02 0010 0003 0003 020000000003 00000001 {vlan}
        02 0010 0001 0001 020000000001 00000001 {vlan}"
    )
}

/// A frame in transit to 0x0003 of this many octets, with an area.
fn transit(link: &str, area: &str, size: usize) -> Vec<u8> {
    let word = (hex(area).len() / 4) << 6 | 5;
    let mut frame = hex(&format!("{link} {word:04X} 0003 0001 {area} {PLAIN}"));
    frame.resize(size, 0x5A);
    frame
}

/// Number and octets written, which are the same with prepared settings.
fn answer(frame: &[u8], settings: &str) -> (u16, usize) {
    let (answer, written) = ask(frame, &hex(settings), &CLOCK, 2048);
    let prepared = Prepared::new(&hex(settings)).unwrap();
    let mut out = [0; 2048];
    let found = handle_prepared(frame, &prepared, &CLOCK, &mut out, &mut [0; 576]);
    assert_eq!(found, answer);
    assert_eq!(out[..written.len()], written);
    (answer.number, written.len())
}

#[test]
fn forwarded_header() {
    let rest = format!("0003 0001 {PLAIN}");
    for (vlan, tag) in [
        ("0001", "8100 0001"),
        ("0FFE", "8100 0FFE"),
        ("0005", "8100 0005"),
        ("0000", ""),
    ] {
        let expected = format!("020000000003 020000000002 {tag} 22F3 0004 {rest}");
        for link in [LINK, TAGGED] {
            let frame = hex(&format!("{link} 0005 {rest}"));
            assert_eq!(sent_at(&frame, &switch(vlan)), (50, hex(&expected)));
        }
    }
}

#[test]
fn greatest_forwarded_frame() {
    for (link, size, vlan, expected) in [
        (LINK, 2044, "0005", (50, 2048)),
        (LINK, 2045, "0005", (29, 0)),
        (LINK, 2048, "0005", (29, 0)),
        (LINK, 2048, "0000", (50, 2048)),
        (TAGGED, 2048, "0005", (50, 2048)),
        (TAGGED, 2048, "0000", (50, 2044)),
        (LINK, 2049, "0005", (3, 0)),
    ] {
        let frame = transit(link, "", size);
        assert_eq!(answer(&frame, &switch(vlan)), expected, "{size} {vlan}");
    }
}

#[test]
fn what_would_be_written_is_measured() {
    let frame = transit(LINK, "00000000 4583AABB CC000000", 2048);
    let vlan = switch("0005");
    assert_eq!(answer(&frame, &format!("{vlan} {STRIP}")), (50, 2044));
    assert_eq!(answer(&frame, &vlan), (29, 0));
    let four = transit(LINK, "00000000 45820000", 2048);
    assert_eq!(answer(&four, &format!("{vlan} {STRIP}")), (50, 2048));
    // An option that stays saves nothing.
    let flow_id = transit(LINK, "00000000 41820007", 2048);
    assert_eq!(answer(&flow_id, &format!("{vlan} {STRIP}")), (29, 0));
}

#[test]
fn no_next_hop_comes_first() {
    let mut frame = transit(LINK, "", 2048);
    frame[16..18].copy_from_slice(&[0, 9]);
    assert_eq!(answer(&frame, &switch("0005")), (21, 0));
    let withdrawn = format!(
        "{} 02 0010 0003 0000 020000000003 00000002 0005",
        switch("0005")
    );
    let frame = transit(LINK, "", 2048);
    assert_eq!(answer(&frame, &withdrawn), (21, 0));
}

/// Headers of a reply from the switch asked to 0x0001 over VLAN 4,094.
const REPLY: &str = "020000000001 020000000002 8100 0FFE 22F3 003F 0001 0002
    0180C2000042 020000000002 8100 0001 8946";

#[test]
fn longest_replies() {
    let data = "5A".repeat(512);
    let echo = to_us(&format!("{CHANNEL} {ECHO} {data}"));
    let (number, written) = sent_at(&echo, &switch("0FFE"));
    assert_eq!((number, written.len()), (54, 576));
    let expected = format!("{REPLY} 0FF8 C000 40000001 02 00 000001000002 000001000009 {data}");
    assert_eq!(written, hex(&expected));
    let fault = to_us(&format!("{CHANNEL} 0004 0000 {data}"));
    let (number, written) = sent_at(&fault, &switch("0FFE"));
    assert_eq!((number, written.len()), (53, 174));
    assert_eq!(written[..46], hex(&format!("{REPLY} 0001 C005")));
    assert_eq!(written[46..], fault[12..140]);
}

#[test]
fn vlans_of_records() {
    for (vlan, good) in [
        ("0000", true),
        ("0001", true),
        ("0FFE", true),
        ("0FFF", false),
        ("1000", false),
        ("2005", false),
        ("FFFF", false),
    ] {
        for neighbour in ["0003", "0000"] {
            let record = format!("02 0010 0009 {neighbour} 020000000003 00000001 {vlan}");
            let settings = format!("{SWITCH} {record}");
            let expected = if good { 10 } else { 1 };
            assert_eq!(number_at(&[], &settings), expected, "{record}");
            let file = hex(&format!("{settings} 05 0002 0002"));
            assert_eq!(code(&file), if good { 0 } else { 44 }, "{record}");
        }
    }
}

#[test]
fn lengths_of_records() {
    let value = "0009 0003 020000000003 00000001 0005 00";
    for (length, good) in [
        (13, false),
        (14, true),
        (15, false),
        (16, true),
        (17, false),
    ] {
        let field = field(2, &hex(value)[..length]);
        let settings = [hex(SWITCH), field].concat();
        let number = ask(&[], &settings, &CLOCK, 2048).0.number;
        assert_eq!(number, if good { 10 } else { 1 }, "length {length}");
        let file = [settings, hex("05 0002 0002")].concat();
        assert_eq!(code(&file), if good { 0 } else { 42 }, "length {length}");
    }
}

#[test]
fn the_ruling_record_has_the_vlan() {
    let old = "02 0010 0009 0003 020000000003 00000007 0005";
    let new = "02 0010 0009 0003 020000000003 00000008 0000";
    let frame = hex(&format!("{LINK} 0005 0009 0001 {PLAIN}"));
    for settings in [
        format!("{SWITCH} {old} {new}"),
        format!("{SWITCH} {new} {old}"),
        format!(
            "{SWITCH} {old} {}",
            new.replace("0010", "000E").trim_end_matches(" 0000")
        ),
    ] {
        let (number, written) = sent_at(&frame, &settings);
        assert_eq!((number, &written[12..14]), (50, &[0x22, 0xF3][..]));
    }
}

#[test]
fn way_out_with_a_tag() {
    let settings = hex(&switch("0005"));
    for room in 0..30 {
        let mut out = vec![0x5A; room];
        let way = way_out(&settings, 3, &mut out);
        if room < 18 {
            assert_eq!((way.number, way.length), (2, 0));
            assert_eq!(out, vec![0x5A; room]);
        } else {
            assert_eq!((way.number, way.length), (0, 18));
            assert_eq!(out[..18], hex("020000000003 020000000002 8100 0005 22F3"));
            assert_eq!(out[18..], vec![0x5A; room - 18]);
        }
    }
}

#[test]
fn runs_over_tagged_links() {
    let campus = "01 0008 0001 020000000001
        02 0010 0002 0002 020000000002 00000001 0005
        01 0008 0002 020000000002
        02 0010 0009 0001 020000000001 00000001 0FFE";
    let entry = |frame: &[u8]| field(5, &[&[0, 1][..], frame].concat());
    let link = "020000000001 020000000009 22F3 0005 0002 0009";
    let echo = hex(&format!("{link} {CHANNEL} {ECHO}"));
    let expected = "0001 O 50 05 0002\n0002 O 54 04 0002\n0001 R 21 3F 0009\nhandled 3\n";
    assert_eq!(printed(&[hex(campus), entry(&echo)].concat()), expected);
    // Each octet near the small buffers of a run, and 29 ends one.
    for size in (560..580).chain(2040..2045) {
        let mut frame = hex(&format!("{link} {PLAIN}"));
        frame.resize(size, 0);
        let expected = "0001 O 50 05 0002\n0002 O 51 04 0002\nhandled 2\n";
        assert_eq!(printed(&[hex(campus), entry(&frame)].concat()), expected);
    }
    let mut frame = hex(&format!("{link} {PLAIN}"));
    frame.resize(2045, 0);
    let expected = "0001 O 29 05 0002\nhandled 1\n";
    assert_eq!(printed(&[hex(campus), entry(&frame)].concat()), expected);
}
