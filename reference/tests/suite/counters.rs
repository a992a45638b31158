//! Counted handlings, and answer 4.

use crate::support::*;
use reference::generate::counted_input;
use reference::{handle, handle_counted, Answer, Counters};

/// The answer and both outputs of a counted call at the switch asked.
fn counted(counters: &mut Counters, frame: &[u8], settings: &str) -> (Answer, Vec<u8>, Vec<u8>) {
    let (mut out, mut beside) = (vec![0x5A; 2048], vec![0x5A; 576]);
    let settings = hex(settings);
    let answer = handle_counted(counters, frame, &settings, &CLOCK, &mut out, &mut beside);
    (answer, out, beside)
}

fn number(counters: &mut Counters, frame: &[u8]) -> u16 {
    counted(counters, frame, SWITCH).0.number
}

/// Counters with these values and 0 elsewhere.
fn with(values: &[(usize, u64)], total: u64) -> Counters {
    let mut counters = Counters {
        total,
        ..Counters::default()
    };
    for &(number, value) in values {
        counters.by_answer[number] = value;
    }
    counters
}

fn delivered() -> Vec<u8> {
    to_us(PLAIN)
}

#[test]
fn from_zero() {
    let mut counters = Counters::default();
    assert_eq!(number(&mut counters, &delivered()), 51);
    assert_eq!(counters, with(&[(51, 1)], 1));
    assert_eq!(counted(&mut counters, &delivered(), "").0.number, 1);
    assert_eq!(counters, with(&[(51, 1), (1, 1)], 2));
    let hop_0 = hex(&format!("{LINK} 0000 0002 0001 {PLAIN}"));
    assert_eq!(number(&mut counters, &hop_0), 17);
    assert_eq!(number(&mut counters, &delivered()), 51);
    assert_eq!(counters, with(&[(51, 2), (1, 1), (17, 1)], 4));
    // Both places of 10 have one counter.
    for size in [5, 16] {
        assert_eq!(number(&mut counters, &delivered()[..size]), 10);
    }
    assert_eq!(counters, with(&[(51, 2), (1, 1), (17, 1), (10, 2)], 6));
    // Replies heard.
    for (rest, heard) in [
        ("0001 0000".to_string(), 55),
        (ECHO.replace("30000001", "40000001"), 56),
    ] {
        assert_eq!(
            number(&mut counters, &to_us(&format!("{CHANNEL} {rest}"))),
            heard
        );
        assert_eq!(counters.by_answer[usize::from(heard)], 1);
    }
    assert_eq!(counters.by_answer[19], 0);
}

#[test]
fn short_buffers_are_counted() {
    let mut counters = Counters::default();
    let settings = hex(SWITCH);
    for (rooms, expected) in [([2047, 576], 2), ([2048, 575], 37)] {
        let [mut out, mut beside] = rooms.map(|room| vec![0; room]);
        let counted = &mut counters;
        let answer = handle_counted(counted, &[], &settings, &CLOCK, &mut out, &mut beside);
        assert_eq!(answer.number, expected);
    }
    assert_eq!(counters, with(&[(2, 1), (37, 1)], 2));
}

#[test]
fn any_full_counter_refuses() {
    let echo = to_us(&format!("{CHANNEL} {ECHO}"));
    for slot in 0..65 {
        let mut counters = match slot {
            64 => with(&[], u64::MAX),
            slot => with(&[(slot, u64::MAX)], 7),
        };
        let before = counters.clone();
        for settings in [SWITCH, ""] {
            let (answer, out, beside) = counted(&mut counters, &echo, settings);
            let refused = Answer {
                number: 4,
                ..Answer::default()
            };
            assert_eq!(answer, refused);
            assert_eq!((out, beside), (vec![0x5A; 2048], vec![0x5A; 576]));
            assert_eq!(counters, before);
        }
    }
}

#[test]
fn the_last_call_before_the_greatest_value() {
    let mut counters = with(&[(51, u64::MAX - 1)], 7);
    assert_eq!(number(&mut counters, &delivered()), 51);
    assert_eq!(counters, with(&[(51, u64::MAX)], 8));
    assert_eq!(number(&mut counters, &delivered()), 4);
    assert_eq!(number(&mut counters, &[]), 4);
    assert_eq!(counters, with(&[(51, u64::MAX)], 8));
    let mut counters = with(&[], u64::MAX - 1);
    assert_eq!(number(&mut counters, &[]), 10);
    assert_eq!(number(&mut counters, &[]), 4);
    assert_eq!(counters, with(&[(10, 1)], u64::MAX));
}

#[test]
fn history_of_generated_calls() {
    for index in 0..50_000 {
        let input = counted_input(2, index);
        let mut counters = input.counters.clone();
        let mut history = input.counters;
        for call in &input.calls {
            let (frame, settings, clock) = (&call.frame, &call.settings, &call.clock);
            let rooms = [call.room, call.beside_room];
            let [mut out, mut beside] = rooms.map(|room| vec![0x5A; room]);
            let [mut plain, mut plain_beside] = rooms.map(|room| vec![0x5A; room]);
            let counted = &mut counters;
            let answer = handle_counted(counted, frame, settings, clock, &mut out, &mut beside);
            let values = history.by_answer.iter().chain([&history.total]);
            if values.copied().any(|value| value == u64::MAX) {
                assert_eq!(answer.number, 4);
            } else {
                let expected = handle(frame, settings, clock, &mut plain, &mut plain_beside);
                assert_eq!(answer, expected);
                history.by_answer[usize::from(answer.number)] += 1;
                history.total += 1;
            }
            assert_eq!((out, beside), (plain, plain_beside));
            assert_eq!(counters, history);
        }
    }
}
