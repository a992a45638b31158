//! The program: description on standard input, run on standard output.

use std::io::Write;
use std::process::{Command, Stdio};

use crate::support::hex;

/// Standard output and success of the program for an input.
fn program(input: &[u8]) -> (String, bool) {
    let mut child = Command::new(env!("CARGO_BIN_EXE_reference"))
        .stdin(Stdio::piped())
        .stdout(Stdio::piped())
        .spawn()
        .unwrap();
    // The program may stop reading past the greatest description.
    let _ = child.stdin.take().unwrap().write_all(input);
    let output = child.wait_with_output().unwrap();
    let printed = String::from_utf8(output.stdout).unwrap();
    (printed, output.status.success())
}

#[test]
fn prints_a_run() {
    let description = hex("01 0008 ABCD 020000000002 05 0016 ABCD
        020000000002 020000000001 22F3 003F FFBF 0001");
    let expected = "ABCD O 21 3F FFBF\nhandled 1\n";
    assert_eq!(program(&description), (expected.to_string(), true));
}

#[test]
fn prints_a_refusal() {
    assert_eq!(program(&[]), ("refused 43\n".to_string(), true));
    assert_eq!(program(&[1]), ("refused 41\n".to_string(), true));
    for (size, code) in [(32_768, 42), (32_769, 40), (500_000, 40)] {
        let expected = format!("refused {code}\n");
        assert_eq!(program(&vec![0; size]), (expected, true), "{size} octets");
    }
}
