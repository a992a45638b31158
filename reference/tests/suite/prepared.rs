//! Settings read once: the same answers as with settings read each time.

use crate::support::*;
use reference::generate::handle_input;
use reference::{explain, handle_prepared, Cause, Prepared};

#[test]
fn answers_are_those_of_the_plain_call() {
    let mut prepared_inputs = 0;
    for index in 0..200_000 {
        let input = handle_input(6, index);
        let (frame, clock) = (&input.frame, &input.clock);
        let mut plain = vec![0x5A; input.room];
        let mut written = plain.clone();
        let mut plain_beside = vec![0x5A; input.beside_room];
        let mut beside = plain_beside.clone();
        let (answer, cause) = explain(frame, &input.settings, clock, &mut plain, &mut plain_beside);
        match Prepared::new(&input.settings) {
            Ok(prepared) => {
                let with_prepared =
                    handle_prepared(frame, &prepared, clock, &mut written, &mut beside);
                assert_eq!(with_prepared, answer);
                assert_eq!((written, beside), (plain, plain_beside));
                prepared_inputs += 1;
            }
            Err(fault) => assert_eq!(cause, Cause::Settings(fault)),
        }
    }
    assert!(prepared_inputs > 150_000);
}

/// 64 records, as many as there may be.
fn full() -> Vec<u8> {
    let record = |number: u16| {
        let destination = number.wrapping_mul(0x0101) | 1;
        hex(&format!(
            "02 000E {destination:04X} 0003 0200000000{:02X} 00000001",
            number + 1
        ))
    };
    [hex(SWITCH)]
        .into_iter()
        .chain((0x10..0x4E).map(record))
        .collect::<Vec<_>>()
        .concat()
}

#[test]
fn every_destination_is_found_and_no_other() {
    let settings = full();
    let prepared = Prepared::new(&settings).unwrap();
    for destination in 1..=0xFFBF_u16 {
        let frame = hex(&format!("{LINK} 0005 {destination:04X} 0001"));
        let (answer, expected) = ask(&frame, &settings, &CLOCK, 2048);
        let mut out = [0; 2048];
        let found = handle_prepared(&frame, &prepared, &CLOCK, &mut out, &mut [0; 576]);
        assert_eq!(found, answer);
        assert_eq!(out[..expected.len()], expected);
    }
}

#[test]
fn order_of_1_2_37_3() {
    let prepared = Prepared::new(&hex(SWITCH)).unwrap();
    let number = |frame: usize, clock: usize, room: usize, beside: usize| {
        let [frame, clock] = [frame, clock].map(|size| vec![0; size]);
        let [mut out, mut beside] = [room, beside].map(|size| vec![0; size]);
        handle_prepared(&frame, &prepared, &clock, &mut out, &mut beside).number
    };
    assert_eq!(number(2049, 5, 0, 0), 1);
    assert_eq!(number(2049, 7, 2048, 576), 1);
    assert_eq!(number(2049, 6, 2047, 575), 2);
    assert_eq!(number(2049, 6, 2048, 575), 37);
    assert_eq!(number(2049, 6, 2048, 576), 3);
    assert_eq!(number(2048, 6, 2048, 576), 11);
}
