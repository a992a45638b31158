//! The printed form of a run.

use std::fmt::Write;

use crate::campus::{run, TRACE_OF_EDITION_2};
use crate::octets::u16_at;

/// The program's whole standard output for a description. Each line ends in
/// LF; a refusal prints only its code.
pub fn text(description: &[u8]) -> Vec<u8> {
    let mut trace = vec![0; TRACE_OF_EDITION_2];
    let outcome = run(description, &mut trace);
    if outcome.code != 0 {
        return format!("refused {}\n", outcome.code).into_bytes();
    }
    let mut lines = String::new();
    for entry in trace.chunks_exact(8).take(outcome.count as usize) {
        write_line(&mut lines, entry);
    }
    lines += &format!("handled {}\n", outcome.count);
    lines.into_bytes()
}

/// Switch, O(riginal) or R(eply), answer in decimal, hop count, egress.
fn write_line(lines: &mut String, entry: &[u8]) {
    let kind = if entry[2] == 0 { 'O' } else { 'R' };
    let (switch, egress) = (u16_at(entry, 0), u16_at(entry, 6));
    let (answer, hops) = (entry[3], entry[4]);
    writeln!(
        lines,
        "{switch:04X} {kind} {answer} {hops:02X} {egress:04X}"
    )
    .expect("a string takes all");
}
