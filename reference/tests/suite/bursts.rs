//! Frames in bursts: early answers, the end mark, and answer 36.

use crate::support::*;
use reference::generate::{reader_input, ReaderCall};
use reference::{handle, Answer, Reader};

/// A reader at the switch asked that was told enough room.
fn started() -> Reader {
    let (reader, number) = Reader::start(&hex(SWITCH), &CLOCK, 2048, 576);
    assert_eq!(number, 0);
    reader
}

fn start(settings: &str, clock: &[u8], rooms: [usize; 2]) -> (Reader, u16) {
    Reader::start(&hex(settings), clock, rooms[0], rooms[1])
}

/// The answer at the mark, and what is written; the rest of both outputs stays.
fn mark(reader: &mut Reader, rooms: [usize; 2]) -> (Answer, [Vec<u8>; 2]) {
    let [mut out, mut beside] = rooms.map(|room| vec![0xA5; room]);
    let answer = reader.mark(&mut out, &mut beside);
    for (octets, written) in [(&mut out, answer.written), (&mut beside, answer.beside)] {
        let after = octets.split_off(written.into());
        assert!(after.iter().all(|&octet| octet == 0xA5));
    }
    (answer, [out, beside])
}

/// The answer's number at a mark that is lent enough.
fn marked(reader: &mut Reader) -> u16 {
    mark(reader, [2048, 576]).0.number
}

fn bare(number: u16) -> Answer {
    Answer {
        number,
        ..Answer::default()
    }
}

#[test]
fn early_answers_of_the_start() {
    let clock = &CLOCK[..];
    for (settings, clock, rooms, number) in [
        ("", clock, [10, 10], 1),
        (SWITCH, &clock[..5], [2048, 576], 1),
        (SWITCH, &[0; 7][..], [0, 0], 1),
        (SWITCH, clock, [2047, 0], 2),
        (SWITCH, clock, [2048, 575], 37),
        (SWITCH, clock, [0, 576], 2),
    ] {
        let (mut reader, given) = start(settings, clock, rooms);
        assert_eq!(given, number);
        // Repeated whatever comes, up to the mark and not after it.
        assert_eq!(reader.burst(&[0; 10]), number);
        assert_eq!(reader.burst(&[]), number);
        assert_eq!(reader.burst(&[0; 5000]), number);
        assert!(reader.gathered().is_empty());
        let (answer, written) = mark(&mut reader, [2048, 576]);
        assert_eq!((answer, written), (bare(number), [vec![], vec![]]));
        assert_eq!(reader.burst(&[]), 36);
        assert_eq!(marked(&mut reader), 36);
    }
}

#[test]
fn no_burst_is_an_empty_frame() {
    assert_eq!(marked(&mut started()), 10);
}

#[test]
fn greatest_frame_octet_by_octet() {
    let mut frame = hex(&format!("{LINK} 003F 0003 0001 {PLAIN}"));
    frame.resize(2048, 0x77);
    let mut reader = started();
    for octet in &frame {
        assert_eq!(reader.burst(&[*octet]), 0);
    }
    assert_eq!(reader.burst(&[]), 0);
    assert_eq!(reader.gathered(), frame);
    let (answer, [written, _]) = mark(&mut reader, [2048, 576]);
    let (expected, octets) = ask(&frame, &hex(SWITCH), &CLOCK, 2048);
    assert_eq!((answer, written), (expected, octets));
    assert_eq!(answer.number, 50);
}

#[test]
fn octet_2049() {
    for burst in [1, 2952] {
        let mut reader = started();
        assert_eq!(reader.burst(&[0; 2048]), 0);
        assert_eq!(reader.burst(&vec![0; burst]), 3);
        assert_eq!(reader.burst(&[]), 3);
        let (answer, written) = mark(&mut reader, [10, 0]);
        assert_eq!((answer, written), (bare(3), [vec![], vec![]]));
        assert_eq!(marked(&mut reader), 36);
        assert_eq!(reader.burst(&[0]), 36);
    }
    let mut reader = started();
    assert_eq!(reader.burst(&[0; 5000]), 3);
    assert_eq!(marked(&mut reader), 3);
}

#[test]
fn outputs_are_tested_anew_at_the_mark() {
    for (rooms, number) in [([2047, 576], 2), ([0, 0], 2), ([2048, 575], 37)] {
        let mut reader = started();
        assert_eq!(reader.burst(&to_us(PLAIN)), 0);
        let (answer, written) = mark(&mut reader, rooms);
        assert_eq!((answer, written), (bare(number), [vec![], vec![]]));
        // It was a mark all the same.
        assert_eq!(marked(&mut reader), 36);
        assert_eq!(reader.burst(&[]), 36);
    }
}

#[test]
fn answers_of_a_frame_come_at_the_mark_alone() {
    for frame in [
        "00",
        "020000000002 020000000001 0800",
        "020000000003 020000000001 22F3",
    ] {
        let frame = hex(frame);
        let mut reader = started();
        assert_eq!(reader.burst(&frame), 0);
        assert_eq!(reader.burst(&[0; 20]), 0);
        let whole = [&frame[..], &[0; 20]].concat();
        assert_eq!(marked(&mut reader), number(&whole));
    }
}

#[test]
fn echo_request_cut_at_each_place() {
    let switch = format!("{SWITCH} 06 0001 02");
    let echo = format!("{LINK} 0045 0003 0001 81000000 {CHANNEL} {ECHO}");
    let frame = hex(&echo);
    let expected = ask_both(&frame, &hex(&switch), &CLOCK, [2048, 576]);
    assert_eq!((expected.0.number, expected.0.beside), (50, 60));
    for place in 0..=frame.len() {
        for empty in [false, true] {
            let (mut reader, _) = start(&switch, &CLOCK, [2048, 576]);
            assert_eq!(reader.burst(&frame[..place]), 0);
            if empty {
                assert_eq!(reader.burst(&[]), 0);
            }
            assert_eq!(reader.burst(&frame[place..]), 0);
            assert_eq!(mark(&mut reader, [2048, 576]), expected);
        }
    }
}

#[test]
fn a_call_after_the_mark_changes_nothing() {
    let frame = to_us(PLAIN);
    let mut reader = started();
    reader.burst(&frame);
    assert_eq!(marked(&mut reader), 51);
    for _ in 0..3 {
        assert_eq!(reader.burst(&[0; 3000]), 36);
        let (answer, written) = mark(&mut reader, [0, 0]);
        assert_eq!((answer, written), (bare(36), [vec![], vec![]]));
        assert_eq!(reader.gathered(), frame);
    }
}

#[test]
fn generated_frames_are_answered_as_whole_ones() {
    for index in 0..100_000 {
        let input = reader_input(2, index);
        let (settings, clock) = (&input.settings, &input.clock);
        let rooms = (input.room, input.beside_room);
        let (mut reader, mut early) = Reader::start(settings, clock, rooms.0, rooms.1);
        let mut whole_out = vec![0xA5; rooms.0];
        let mut whole_beside = vec![0xA5; rooms.1];
        let at_start = handle(&[], settings, clock, &mut whole_out, &mut whole_beside).number;
        assert_eq!(early, if at_start == 10 { 0 } else { at_start });
        let (mut gathered, mut ended) = (Vec::new(), false);
        for call in &input.calls {
            match call {
                ReaderCall::Burst(octets) => {
                    let given = reader.burst(octets);
                    if ended {
                        assert_eq!(given, 36);
                        continue;
                    }
                    if early == 0 {
                        gathered.extend(octets);
                        early = if gathered.len() > 2048 { 3 } else { 0 };
                    }
                    assert_eq!(given, early);
                }
                &ReaderCall::Mark { room, beside_room } => {
                    let (answer, written) = mark(&mut reader, [room, beside_room]);
                    let expected = if ended {
                        (bare(36), [vec![], vec![]])
                    } else if early != 0 {
                        (bare(early), [vec![], vec![]])
                    } else {
                        ask_both(&gathered, settings, clock, [room, beside_room])
                    };
                    assert_eq!((answer, written), expected);
                    ended = true;
                }
            }
        }
        assert!(ended);
    }
}
