//! Edition 2: the extended flags word, alerts in transit, the second output and
//! replies that wait.

use crate::support::*;
use reference::{handle_prepared, run, Prepared};

const EDITION_2: &str = "06 0001 02";
/// Channel messages.
const UNKNOWN_PROTOCOL: &str = "0004 0000";
const SILENT: &str = "0004 8000";
const ERROR_FIELD: &str = "0FF8 0001";

fn switch() -> String {
    format!("{SWITCH} {EDITION_2}")
}

/// Number and octets of the reply beside it, the same with prepared settings.
fn answer(frame: &[u8], settings: &str) -> (u16, u16) {
    let settings = hex(settings);
    let (answer, written) = ask_both(frame, &settings, &CLOCK, [2048, 576]);
    let prepared = Prepared::new(&settings).unwrap();
    let (mut out, mut beside) = ([0; 2048], [0; 576]);
    let found = handle_prepared(frame, &prepared, &CLOCK, &mut out, &mut beside);
    assert_eq!(found, answer);
    for (octets, written) in [&out[..], &beside].iter().zip(written) {
        assert_eq!(octets[..written.len()], written);
    }
    (answer.number, answer.beside)
}

/// A frame from 0x0001 with this area and inner frame.
fn framed(egress: &str, area: &str, inner: &str) -> Vec<u8> {
    let word = (hex(area).len() / 4) << 6 | 5;
    hex(&format!("{LINK} {word:04X} {egress} 0001 {area} {inner}"))
}

/// The answer in transit with its reply beside, and at the egress.
fn both(area: &str, inner: &str) -> ((u16, u16), u16) {
    let (number, beside) = answer(&framed("0002", area, inner), &switch());
    assert_eq!(beside, 0);
    (answer(&framed("0003", area, inner), &switch()), number)
}

fn message(rest: &str) -> String {
    format!("{CHANNEL} {rest}")
}

#[test]
fn alerts_answer_an_echo_request() {
    let echo = message(ECHO);
    assert_eq!(both("81000000", &echo), ((50, 60), 54));
    assert_eq!(both("00800000", &echo), ((50, 60), 54));
    assert_eq!(both("81800000", &echo), ((50, 60), 54));
    // Words after the first are not read.
    assert_eq!(both("81000000 FFFFFFFF 00000000", &echo), ((50, 60), 54));
    // No alert, no reply.
    assert_eq!(both("00000000", &echo), ((50, 0), 54));
    assert_eq!(both("", &echo), ((50, 0), 54));
    // Edition 1 knows no alert.
    let frame = framed("0003", "00800000", &echo);
    assert_eq!(answer(&frame, SWITCH), (50, 0));
    let frame = framed("0003", "81000000", &echo);
    assert_eq!(answer(&frame, SWITCH), (20, 0));
}

#[test]
fn octets_of_both_outputs() {
    let records = "02 0010 0003 0007 020000000007 00000002 0005
        02 0010 0001 0006 020000000006 00000002 0FFE";
    let settings = hex(&format!("{} {records}", switch()));
    let data = "5A".repeat(512);
    let frame = framed(
        "0003",
        "81000000 ABCDEF01",
        &message(&format!("{ECHO} {data}")),
    );
    let (answer, [written, beside]) = ask_both(&frame, &settings, &CLOCK, [2048, 576]);
    let forwarded = format!(
        "020000000007 020000000002 8100 0005 22F3 0084 0003 0001 81000000 ABCDEF01
        {CHANNEL} {ECHO} {data}"
    );
    let reply = format!(
        "020000000006 020000000002 8100 0FFE 22F3 003F 0001 0002
        0180C2000042 020000000002 8100 0001 8946
        0FF8 C000 40000001 02 00 000001000002 000001000009 {data}"
    );
    assert_eq!((written, beside), (hex(&forwarded), hex(&reply)));
    assert_eq!((answer.neighbour, answer.beside_neighbour), (7, 6));
    assert_eq!(answer.beside, 576);
}

#[test]
fn flags_and_summary_bits() {
    let bare = "00000000";
    for (word, alone, longer) in [
        // Hop-by-hop.
        ("01000000", (38, 38), (38, 38)),
        ("10000000", (38, 38), (38, 38)),
        ("80000000", (38, 38), (20, 20)),
        ("90000000", (20, 20), (20, 20)),
        ("82000000", (20, 20), (20, 20)),
        ("83000000", (20, 20), (20, 20)),
        ("81000000", (50, 51), (50, 51)),
        // Ingress-to-egress.
        ("00000020", (38, 38), (38, 38)),
        ("00000400", (38, 38), (38, 38)),
        ("40000000", (38, 38), (50, 20)),
        ("40000020", (50, 20), (50, 20)),
        ("40000400", (50, 20), (50, 20)),
        // Reserved, which affects nobody.
        ("00020000", (38, 38), (38, 38)),
        ("00008000", (38, 38), (38, 38)),
        ("20000000", (38, 38), (50, 51)),
        ("20020000", (50, 51), (50, 51)),
        ("20008000", (50, 51), (50, 51)),
        // A summary bit does not stand for another kind.
        ("20000020", (38, 38), (38, 38)),
        ("40020000", (38, 38), (38, 38)),
        ("C1000000", (38, 38), (50, 20)),
        // Not critical.
        ("007C0000", (50, 51), (50, 51)),
        ("00007800", (50, 51), (50, 51)),
        ("0000001F", (50, 51), (50, 51)),
        ("00800000", (50, 51), (50, 51)),
        // All of each kind, and all at once.
        ("FFFFFFFF", (20, 20), (20, 20)),
        ("1F0387E0", (38, 38), (38, 38)),
    ] {
        for (area, expected) in [
            (word.to_string(), alone),
            (format!("{word} {bare}"), longer),
        ] {
            let (transit, egress) = both(&area, PLAIN);
            assert_eq!((transit.0, egress), expected, "{area}");
            assert_eq!(transit.1, 0);
        }
    }
}

#[test]
fn each_bit_alone_and_with_each_summary_bit() {
    for bit in 3..32 {
        let flag = 0x8000_0000_u32 >> bit;
        let kind = match bit {
            3..=7 => 0x8000_0000,
            21..=26 => 0x4000_0000,
            14..=16 => 0x2000_0000,
            _ => 0,
        };
        let expected = if kind == 0 { (50, 51) } else { (38, 38) };
        let (transit, egress) = both(&format!("{flag:08X}"), PLAIN);
        assert_eq!((transit.0, egress), expected, "bit {bit}");
        let expected = match bit {
            3..=6 => (20, 20),
            21..=26 => (50, 20),
            _ => (50, 51),
        };
        let (transit, egress) = both(&format!("{:08X}", flag | kind), PLAIN);
        assert_eq!((transit.0, egress), expected, "bit {bit} summed");
    }
}

#[test]
fn faults_and_errors_in_transit() {
    for (rest, critical, noticed) in [
        (UNKNOWN_PROTOCOL, 53, 53),
        (SILENT, 25, 25),
        (ERROR_FIELD, 26, 26),
        ("", 53, 53),
        ("0FF840", 53, 53),
        ("1FF8 0000", 53, 53),
        ("0FF8 2000", 53, 53),
        ("0001 2000", 25, 25),
        ("0004 0001", 25, 25),
        ("0001 0005", 50, 55),
        ("0FF8 0000", 50, 27),
    ] {
        let inner = message(rest);
        assert_eq!(both("81000000", &inner), ((critical, 0), noticed), "{rest}");
        assert_eq!(both("81800000", &inner), ((critical, 0), noticed), "{rest}");
        assert_eq!(both("00800000", &inner), ((50, 0), noticed), "{rest}");
        assert_eq!(both("00000000", &inner), ((50, 0), noticed), "{rest}");
    }
}

#[test]
fn error_reply_in_transit() {
    let frame = framed("0003", "81000000", &message(UNKNOWN_PROTOCOL));
    let (number, written) = sent_at(&frame, &switch());
    let expected = format!(
        "020000000001 020000000002 22F3 003F 0001 0002
        0180C2000042 020000000002 8100 0001 8946 0001 C005
        22F3 0045 0003 0001 81000000 {CHANNEL} {UNKNOWN_PROTOCOL}"
    );
    assert_eq!((number, written), (53, hex(&expected)));
    // Without a return path: the ingress is ours, or has no next hop.
    for ingress in ["0002", "0009"] {
        let rest = format!("81000000 {CHANNEL} {UNKNOWN_PROTOCOL}");
        let frame = hex(&format!("{LINK} 0045 0003 {ingress} {rest}"));
        assert_eq!(answer(&frame, &switch()), (25, 0), "{ingress}");
        let frame = hex(&format!(
            "{LINK} 0045 0003 {ingress} 81000000 {CHANNEL} {ECHO}"
        ));
        assert_eq!(answer(&frame, &switch()), (50, 0), "{ingress}");
    }
}

#[test]
fn alerts_read_nothing_else() {
    let fault = message(UNKNOWN_PROTOCOL);
    for inner in [
        PLAIN.to_string(),
        // Another destination, Ethertype or tag; VLAN 0 and 4,095; cut.
        fault.replace("0180C2000042", "0180C2000043"),
        fault.replace("8946", "22F4"),
        fault.replace("8946", "0800"),
        fault.replace("8100 0001", "88A8 0001"),
        fault.replace("8100 0001", "8100 0000"),
        fault.replace("8100 0001", "8100 FFFF"),
        "0180C2000042 020000000001 8100 0001 89".to_string(),
        String::new(),
    ] {
        for area in ["81000000", "00800000"] {
            let frame = framed("0003", area, &inner);
            assert_eq!(answer(&frame, &switch()), (50, 0), "{inner}");
        }
    }
    for vlan in ["0001", "0FFE", "FFFE"] {
        let inner = fault.replace("8100 0001", &format!("8100 {vlan}"));
        let frame = framed("0003", "81000000", &inner);
        assert_eq!(answer(&frame, &switch()), (53, 0), "{vlan}");
    }
}

#[test]
fn only_what_its_egress_would_answer() {
    for area in ["81000000", "00800000"] {
        for (echo, expected) in [
            (ECHO.replace(" 02 00 ", " 01 00 "), 28),
            (ECHO.replace("30000001", "40000001"), 56),
            (ECHO.replace("30000001", "50000001"), 27),
        ] {
            assert_eq!(both(area, &message(&echo)), ((50, 0), expected), "{echo}");
        }
    }
    let long = message(&format!("{ECHO} {}", "5A".repeat(513)));
    assert_eq!(both("81000000", &long), ((50, 0), 27));
    let echo = message(ECHO);
    // One that we would give 20.
    assert_eq!(both("40000020", &echo), ((50, 0), 20));
    assert_eq!(both("40800020", &echo), ((50, 0), 20));
    assert_eq!(both("C1000020", &echo), ((50, 0), 20));
    assert_eq!(both("40800000 00000000", &echo), ((50, 0), 20));
    assert_eq!(both("83000000", &echo), ((20, 0), 20));
    // The reserved kind stops nobody.
    assert_eq!(both("A1020000", &echo), ((50, 60), 54));
}

#[test]
fn after_21_and_before_29() {
    let fault = framed("0009", "81000000", &message(UNKNOWN_PROTOCOL));
    assert_eq!(answer(&fault, &switch()), (21, 0));
    let tagged = format!("{} 02 0010 0003 0003 020000000003 00000002 0005", switch());
    let long = |rest: &str| {
        let mut frame = framed("0003", "81000000", &message(rest));
        frame.resize(2048, 0);
        frame
    };
    assert_eq!(answer(&long(UNKNOWN_PROTOCOL), &tagged), (53, 0));
    assert_eq!(answer(&long(SILENT), &tagged), (25, 0));
    assert_eq!(answer(&long(ERROR_FIELD), &tagged), (26, 0));
    assert_eq!(answer(&long(ECHO), &tagged), (29, 0));
    assert_eq!(answer(&long(ECHO), &switch()), (50, 0));
}

#[test]
fn any_rbridge_and_our_own_nickname() {
    for egress in ["0002", "FFC0"] {
        let frame = framed(egress, "81000000", &message(ECHO));
        assert_eq!(answer(&frame, &switch()), (54, 0));
    }
    let frame = framed("FFC0", "81000000", PLAIN);
    assert_eq!(answer(&frame, &switch()), (24, 0));
}

#[test]
fn strip_flag_has_no_effect() {
    let area = "00000000 4583AABB CC000000";
    let frame = framed("0003", area, PLAIN);
    let expected = framed("0003", area, PLAIN);
    for settings in [switch(), format!("{} {STRIP}", switch())] {
        let (number, written) = sent_at(&frame, &settings);
        assert_eq!((number, &written[16..]), (50, &expected[16..]));
    }
    // Nor are later words judged: equal keys, a reserved Length.
    assert_eq!(both("00000000 41820007 41FF0000", PLAIN), ((50, 0), 51));
}

#[test]
fn order_of_2_37_3() {
    let frame = framed("0003", "", PLAIN);
    let number = |settings: &str, frame: &[u8], rooms| {
        ask_both(frame, &hex(settings), &CLOCK, rooms).0.number
    };
    for settings in [SWITCH, &switch()] {
        assert_eq!(number(settings, &frame, [2048, 575]), 37);
        assert_eq!(number(settings, &frame, [2048, 0]), 37);
        assert_eq!(number(settings, &frame, [2048, 576]), 50);
        assert_eq!(number(settings, &frame, [2047, 575]), 2);
        assert_eq!(number(settings, &[0; 2049], [2048, 575]), 37);
        assert_eq!(number(settings, &[0; 2049], [2048, 576]), 3);
    }
    assert_eq!(number("", &frame, [0, 0]), 1);
}

#[test]
fn the_last_edition_counts() {
    let frame = framed("0003", "01000000", PLAIN);
    for (fields, number) in [
        ("", 50),
        ("06 0001 01", 50),
        ("06 0001 02", 38),
        ("06 0001 02 06 0001 01", 50),
        ("06 0001 01 03 0001 01 06 0001 02", 38),
    ] {
        assert_eq!(answer(&frame, &format!("{SWITCH} {fields}")), (number, 0));
    }
    for bad in ["00", "03", "82", "FF"] {
        let settings = format!("{SWITCH} 06 0001 {bad} 06 0001 01");
        assert_eq!(number_at(&frame, &settings), 1, "{bad}");
    }
    for bad in ["06 0000", "06 0002 0002"] {
        assert_eq!(number_at(&frame, &format!("{SWITCH} {bad}")), 1, "{bad}");
    }
    assert_eq!(number_at(&frame, &format!("{EDITION_2} {SWITCH}")), 1);
}

/// One switch whose records name itself, and an echo request to an outsider.
fn alone(edition: &str, hops: u16) -> Vec<u8> {
    let switch = format!(
        "01 0008 0002 020000000002 {edition}
        02 000E 0009 0002 020000000002 00000001
        02 000E 0008 0002 020000000002 00000001"
    );
    let word = 1 << 6 | hops;
    let frame = format!("0002 {LINK} {word:04X} 0009 0008 81000000 {CHANNEL} {ECHO}");
    [hex(&switch), field(5, &hex(&frame))].concat()
}

#[test]
fn longest_runs() {
    for hops in 0..64 {
        let (outcome, trace) = campus(&alone(EDITION_2, hops));
        let hops = u32::from(hops);
        assert_eq!((outcome.code, outcome.count), (0, 65 * hops + 1));
        let mut entries = trace.chunks(8);
        for hop in (0..=hops as u8).rev() {
            let answer = if hop == 0 { 17 } else { 50 };
            assert_eq!(entries.next().unwrap(), [0, 2, 0, answer, hop, 0, 0, 9]);
        }
        for _ in 0..hops {
            for hop in (0..64).rev() {
                let answer = if hop == 0 { 17 } else { 50 };
                assert_eq!(entries.next().unwrap(), [0, 2, 1, answer, hop, 0, 0, 8]);
            }
        }
        assert_eq!(entries.next(), None);
    }
    let text = printed(&alone(EDITION_2, 63));
    assert!(text.ends_with("0002 R 17 00 0008\nhandled 4096\n"));
    assert_eq!(text.len(), 4096 * 18 + 13);
}

#[test]
fn room_of_the_trace() {
    let refused = |description: &[u8], room: usize, code: u32| {
        let mut trace = vec![0x5A; room];
        let outcome = run(description, &mut trace);
        assert_eq!(outcome.code, code, "room {room}");
        if code != 0 {
            assert_eq!(outcome.count, 0);
            assert_eq!(trace, vec![0x5A; room]);
        }
    };
    let second = alone(EDITION_2, 1);
    for (room, code) in [(639, 49), (640, 49), (32_767, 49), (32_768, 0), (40_000, 0)] {
        refused(&second, room, code);
    }
    // The last edition of a switch counts.
    let first = alone("06 0001 02 06 0001 01", 1);
    for (room, code) in [(639, 49), (640, 0)] {
        refused(&first, room, code);
    }
    // Every other code of the file comes before the new size, and after 640.
    let cut = &second[..second.len() - 1];
    let unknown = [&second[..], &hex("07 0000")].concat();
    let without = &second[..second.len() - 3 - 2 - LINK.len() / 2];
    for (file, code) in [(cut, 41), (&unknown, 42), (without, 41)] {
        refused(file, 639, 49);
        refused(file, 700, code);
    }
    let long = [&second[..], &[0; 32_768]].concat();
    refused(&long, 700, 40);
    // A frame that is handled once asks for as much.
    let single = [hex(&switch()), hex("05 0002 0002")].concat();
    refused(&single, 32_767, 49);
    refused(&single, 32_768, 0);
}

#[test]
fn refusals_of_the_edition() {
    let with = |fields: &str| code(&hex(&format!("{SWITCH} {fields} 05 0002 0002")));
    assert_eq!(with(EDITION_2), 0);
    assert_eq!(with("06 0001 02 06 0001 01"), 0);
    assert_eq!(with("06 0001 03"), 44);
    assert_eq!(with("06 0001 00 06 0001 02"), 44);
    assert_eq!(with("06 0002 0002"), 42);
    assert_eq!(
        code(&hex(&format!("{EDITION_2} {SWITCH} 05 0002 0002"))),
        43
    );
    assert_eq!(code(&hex("06 0001 03")), 43);
    let after = format!("{SWITCH} 05 0002 0002 {EDITION_2}");
    assert_eq!(code(&hex(&after)), 43);
}

/// A line of three switches with editions; 0x0001 is behind the first, 0x0009
/// behind the last.
fn line(editions: [&str; 3], frame: &str) -> String {
    let mac = |nickname: usize| format!("02000000000{nickname}");
    let mut fields = String::new();
    for (place, edition) in (2..).zip(editions) {
        let (before, after) = (place - 1, place + 1);
        fields += &format!(
            "01 0008 000{place} {} 06 0001 {edition}
            02 000E 0001 000{before} {} 00000001
            02 000E 0009 000{after} {} 00000001 ",
            mac(place),
            mac(before),
            mac(after)
        );
    }
    let frame = hex(&format!("0002 {LINK} {frame}"));
    printed(&[hex(&fields), field(5, &frame)].concat())
}

#[test]
fn replies_wait_until_the_original_stops() {
    let frame = format!("0045 0009 0001 81000000 {CHANNEL} {ECHO}");
    // The first reply leaves at once and never waits.
    let expected = "0002 O 50 05 0009\n0003 O 50 04 0009\n0004 O 50 03 0009\n\
        0002 R 50 3F 0001\n0003 R 50 3F 0001\n0002 R 50 3E 0001\nhandled 6\n";
    assert_eq!(line(["02"; 3], &frame), expected);
    // Edition 1 carries the non-critical alert and makes no reply.
    let frame = format!("0045 0009 0001 00800000 {CHANNEL} {ECHO}");
    let expected = "0002 O 50 05 0009\n0003 O 50 04 0009\n0004 O 50 03 0009\n\
        0003 R 50 3F 0001\n0002 R 50 3E 0001\nhandled 5\n";
    assert_eq!(line(["02", "01", "02"], &frame), expected);
    let expected = "0002 O 50 05 0009\n0003 O 50 04 0009\n0004 O 50 03 0009\nhandled 3\n";
    assert_eq!(line(["02", "01", "01"], &frame), expected);
}

#[test]
fn the_reply_of_the_egress_waits_last() {
    let frame = format!("0045 0004 0001 81000000 {CHANNEL} {ECHO}");
    let records = |place: u16, to: u16| {
        format!(
            "02 000E 0004 {to:04X} 02000000{to:04X} 00000001
            02 000E 0001 {:04X} 02000000{:04X} 00000001",
            place - 1,
            place - 1
        )
    };
    let mut fields = String::new();
    for place in 2..=4_u16 {
        let own = format!("01 0008 {place:04X} 02000000{place:04X} 06 0001 02");
        fields += &format!("{own} {} ", records(place, (place + 1).min(4)));
    }
    let frame = hex(&format!("0002 {LINK} {frame}"));
    let expected = "0002 O 50 05 0004\n0003 O 50 04 0004\n0004 O 54 03 0004\n\
        0002 R 50 3F 0001\n0003 R 50 3F 0001\n0002 R 50 3E 0001\nhandled 6\n";
    assert_eq!(
        printed(&[hex(&fields), field(5, &frame)].concat()),
        expected
    );
}

#[test]
fn an_error_in_transit_ends_the_original() {
    let frame = format!("0045 0009 0001 81000000 {CHANNEL} {UNKNOWN_PROTOCOL}");
    let expected = "0002 O 53 05 0009\nhandled 1\n";
    assert_eq!(line(["02"; 3], &frame), expected);
    let later = format!("0045 0009 0001 00800000 {CHANNEL} {UNKNOWN_PROTOCOL}");
    let expected = "0002 O 50 05 0009\n0003 O 50 04 0009\n0004 O 50 03 0009\nhandled 3\n";
    assert_eq!(line(["02"; 3], &later), expected);
}

#[test]
fn a_stripped_area_is_judged_anew() {
    // Edition 1 strips, and a bare summary bit is left in one word.
    let frame = format!("00C5 0009 0001 40000000 4583AABB CC000000 {PLAIN}");
    let fields = "01 0008 0002 020000000002 06 0001 02
        02 000E 0009 0003 020000000003 00000001
        01 0008 0003 020000000003 03 0001 01
        02 000E 0009 0002 020000000002 00000001";
    let frame = hex(&format!("0002 {LINK} {frame}"));
    let expected = "0002 O 50 05 0009\n0003 O 50 04 0009\n0002 O 38 03 0009\nhandled 3\n";
    assert_eq!(printed(&[hex(fields), field(5, &frame)].concat()), expected);
}
