//! The crate's numbers are those of the C header, which it repeats, and its
//! calls answer.

use staffripple::*;

const HEADER: &str = include_str!("../../staffripple.h");

/// The lines of a table in the header: constant, number, meaning.
fn table(kind: &str) -> Vec<(&'static str, u32, &'static str)> {
    let opening = format!("    {kind}(");
    let lines = HEADER.lines().filter(|line| line.starts_with(&opening));
    lines
        .map(|line| {
            let line = line.split_once('(').expect("an opening").1;
            let (name, rest) = line.split_once(", ").expect("a name");
            let (number, rest) = rest.split_once(", \"").expect("a number");
            let meaning = rest.split_once("\")").expect("a meaning").0;
            (name, number.parse().expect("a number"), meaning)
        })
        .collect()
}

/// The value of a `#define`.
fn defined(name: &str) -> &'static str {
    let opening = format!("#define {name} ");
    let mut lines = HEADER
        .lines()
        .filter_map(|line| line.strip_prefix(&opening));
    let value = lines.next().unwrap_or_else(|| panic!("no {name}"));
    value.split(' ').next().expect("a value")
}

#[test]
fn answers_are_those_of_the_header() {
    assert_eq!(TRILL_ANSWERS, table("ANSWER"));
}

#[test]
fn codes_are_those_of_the_header() {
    assert_eq!(CAMPUS_CODES, table("CODE"));
}

#[test]
fn sizes_are_those_of_the_header() {
    let sizes = [
        ("TRILL_FRAME_MOST", TRILL_FRAME_MOST),
        ("TRILL_OUTPUT_LEAST", TRILL_OUTPUT_LEAST),
        ("TRILL_BESIDE_LEAST", TRILL_BESIDE_LEAST),
        ("TRILL_CLOCK", TRILL_CLOCK),
        ("TRILL_PREPARED_WORDS", TRILL_PREPARED_WORDS),
        ("TRILL_READER_WORDS", TRILL_READER_WORDS),
        ("TRILL_GATHERED_LEAST", TRILL_GATHERED_LEAST),
        ("TRILL_ANSWER_NUMBERS", TRILL_ANSWER_NUMBERS),
        ("TRILL_LINK_MOST", TRILL_LINK_MOST),
        ("CAMPUS_DESCRIPTION_MOST", CAMPUS_DESCRIPTION_MOST),
        ("CAMPUS_TRACE_LEAST", CAMPUS_TRACE_LEAST),
        ("CAMPUS_TRACE_MOST", CAMPUS_TRACE_MOST),
        ("CAMPUS_ENTRY", CAMPUS_ENTRY),
        ("CAMPUS_TEXT_MOST", CAMPUS_TEXT_MOST),
    ];
    for (name, size) in sizes {
        assert_eq!(defined(name), size.to_string(), "{name}");
    }
}

#[test]
fn version_is_that_of_the_header() {
    let version = format!("\"{}\"", env!("CARGO_PKG_VERSION"));
    assert_eq!(defined("STAFFRIPPLE_VERSION"), version);
}

#[test]
fn a_frame_is_delivered() {
    let settings = [1, 0, 8, 0, 1, 2, 0, 0, 0, 0, 1];
    let link = [2, 0, 0, 0, 0, 1, 2, 0, 0, 0, 0, 2, 0x22, 0xF3];
    let header = [0, 5, 0, 1, 0, 4];
    let inner = [
        2, 0, 0, 0, 0, 7, 2, 0, 0, 0, 0, 8, 0x81, 0, 0, 5, 8, 0, 0x45, 0,
    ];
    let frame = [&link[..], &header, &inner].concat();
    let mut out = [0x5A; TRILL_OUTPUT_LEAST];
    let mut beside = [0x5A; TRILL_BESIDE_LEAST];
    let answer = handle(&frame, &settings, &[0; TRILL_CLOCK], &mut out, &mut beside);
    assert_eq!((answer.number, answer.meaning()), (51, "delivered"));
    assert_eq!(answer.delivered(&frame), inner);
    assert!(answer.written(&out).is_empty());
    assert_eq!(out, [0x5A; TRILL_OUTPUT_LEAST]);
    assert!(answer.beside(&beside).is_empty());
    assert_eq!(beside, [0x5A; TRILL_BESIDE_LEAST]);
}

#[test]
fn a_campus_is_refused() {
    let mut trace = [0; CAMPUS_TRACE_LEAST];
    let outcome = run(&[1, 0, 8], &mut trace);
    assert_eq!((outcome.code, outcome.count), (CAMPUS_REFUSED_CUT, 0));
    assert_eq!(outcome.meaning(), "field cut short");
    let mut room = [0; CAMPUS_TEXT_MOST];
    let printed = text(&[1, 0, 8], &mut room);
    assert_eq!(part(&room, 0, printed.written as usize), b"refused 41\n");
}

#[test]
fn empty_slices_are_taken() {
    let answer = handle(&[], &[], &[], &mut [], &mut []);
    assert_eq!(u32::from(answer.number), TRILL_REFUSED_SETTINGS);
    assert_eq!(run(&[], &mut []).code, CAMPUS_REFUSED_TRACE);
    assert_eq!(text(&[], &mut []).needed, 11);
}

#[test]
fn a_part_lies_within() {
    let octets = [1, 2, 3];
    assert_eq!(part(&octets, 1, 2), [2, 3]);
    assert!(part(&octets, 1, 3).is_empty());
    assert!(part(&octets, 4, 0).is_empty());
    assert!(part(&octets, usize::MAX, usize::MAX).is_empty());
}
