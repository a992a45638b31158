//! The generator reaches every answer and cause, and every generated input
//! keeps the promises that hold for all.

use crate::support::{ask, ask_both};
use reference::generate::{campus_input, handle_input, part_input, way_input};
use reference::hits::Hits;
use reference::{handle, part, run, text};

const COUNT: u64 = 100_000;
const LEAST: u64 = 100;

#[test]
fn every_answer_cause_and_refusal_is_met() {
    let hits = Hits::count(1, COUNT);
    println!("{hits}");
    assert_eq!(hits.shortfalls(LEAST), [""; 0]);
}

#[test]
fn what_is_met_too_rarely_is_named() {
    let hits = Hits::count(1, 1000);
    assert_eq!(hits.shortfalls(0), [""; 0]);
    let rare = hits.shortfalls(LEAST);
    assert!(rare
        .iter()
        .any(|line| line.starts_with("GreatestFile is met")));
    assert!(!rare.iter().any(|line| line.starts_with("PartFull is met")));
}

#[test]
fn inputs_depend_on_seed_and_index_alone() {
    for index in 0..100 {
        assert_eq!(handle_input(7, index), handle_input(7, index));
        assert_eq!(part_input(7, index), part_input(7, index));
        assert_eq!(way_input(7, index), way_input(7, index));
        assert_eq!(campus_input(7, index), campus_input(7, index));
    }
    let differs = |index| handle_input(7, index) != handle_input(8, index);
    assert!((0..100).all(differs));
    let differs = |index| campus_input(7, index) != campus_input(7, index + 1);
    assert!((0..100).all(differs));
}

#[test]
fn only_the_written_octets_change() {
    for index in 0..COUNT {
        let input = handle_input(2, index);
        let (frame, settings, clock) = (&input.frame, &input.settings, &input.clock);
        let rooms = [input.room, input.beside_room];
        // `ask_both` tests what stays; another filling gives the same octets.
        let (answer, written) = ask_both(frame, settings, clock, rooms);
        let [mut out, mut beside] = rooms.map(|room| vec![0; room]);
        let again = handle(frame, settings, clock, &mut out, &mut beside);
        assert_eq!(again, answer);
        for (octets, written) in [out, beside].iter().zip(written) {
            assert_eq!(octets[..written.len()], written);
        }
    }
}

#[test]
fn delivered_parts_lie_within_the_frame() {
    for index in 0..COUNT {
        let input = handle_input(3, index);
        let (answer, _) = ask(&input.frame, &input.settings, &input.clock, input.room);
        if matches!(answer.number, 51 | 52) {
            let [start, length] = [answer.start, answer.length].map(usize::from);
            assert_eq!(part(&input.frame, start, length), &input.frame[start..]);
            assert!(length >= 18);
        }
    }
}

#[test]
fn parts_are_those_of_plain_arithmetic() {
    for index in 0..COUNT {
        let input = part_input(4, index);
        let (start, length) = (input.start, input.length);
        let end = u128::from(start) + u128::from(length);
        let expected: &[u8] = if end <= input.frame.len() as u128 {
            &input.frame[start as usize..end as usize]
        } else {
            &[]
        };
        assert_eq!(
            part(&input.frame, start as usize, length as usize),
            expected
        );
    }
}

/// Demand 3 for an accepted run: the bounds of its edition, originals first, and
/// nothing answers a reply.
fn check_run(description: &[u8], trace: &[u8]) {
    let entries: Vec<&[u8]> = trace.chunks(8).collect();
    let editions = editions_of(description);
    let (hops, unreadable) = (u32::from(entries[0][4]), matches!(entries[0][3], 10 | 11));
    let count = entries.len() as u32;
    if hops == 0 || unreadable {
        assert_eq!(count, 1);
    }
    let (most, most_replies) = if editions.contains(&2) {
        (65 * hops + 1, hops)
    } else {
        (64 + hops.min(editions.len() as u32).max(1), 1)
    };
    assert!(count <= most);
    assert!(entries.is_sorted_by_key(|entry| entry[2]));
    let is_reply = |entry: &&&[u8]| entry[2] == 1;
    assert!(!entries
        .iter()
        .filter(is_reply)
        .any(|entry| matches!(entry[3], 53 | 54)));
    let mut replies = 0;
    for pair in entries.windows(2) {
        let goes_on = pair[0][3] == 50 && pair[1][4] == pair[0][4] - 1 && pair[1][2] == pair[0][2];
        let begins = pair[1][2] == 1 && pair[1][4] == 63;
        assert!(goes_on || begins);
        replies += u32::from(begins);
    }
    assert!(replies <= most_replies);
}

/// The edition of each switch of an accepted description.
fn editions_of(description: &[u8]) -> Vec<u8> {
    let (mut rest, mut editions) = (description, Vec::new());
    while let [tag, high, low, after @ ..] = rest {
        let (value, after) = after.split_at(usize::from(*high) << 8 | usize::from(*low));
        match tag {
            1 => editions.push(1),
            6 => *editions.last_mut().unwrap() = value[0],
            _ => {}
        }
        rest = after;
    }
    editions
}

#[test]
fn runs_keep_their_bounds() {
    for index in 0..COUNT {
        let input = campus_input(5, index);
        let mut trace = vec![0xA5; input.room];
        let outcome = run(&input.description, &mut trace);
        let written = 8 * outcome.count as usize;
        assert!(trace[written..].iter().all(|&octet| octet == 0xA5));
        if input.room < 640 {
            assert_eq!(outcome.code, 49);
        }
        if outcome.code == 0 {
            check_run(&input.description, &trace[..written]);
        } else {
            assert_eq!(outcome.count, 0);
        }
        if outcome.code != 49 {
            let lines = String::from_utf8(text(&input.description)).unwrap();
            let last = match outcome.code {
                0 => format!("handled {}\n", outcome.count),
                code => format!("refused {code}\n"),
            };
            assert!(lines.ends_with(&last));
            let lines = lines.lines().count();
            assert_eq!(lines, 1 + outcome.count as usize);
        }
    }
}
