//! The program, run as a user runs it.

use std::collections::BTreeMap;
use std::io::Write;
use std::path::Path;
use std::process::{Command, Stdio};

use reference::generate::campus_input;

use crate::hex;
use crate::tally::{Hit, Tally};
use crate::text::code;

/// Descriptions of each class; a program is too slow to start for all of them.
const QUOTA: u64 = 30;
/// Generated descriptions among which they are sought.
const SOUGHT: u64 = 50_000;

/// Lengths of runs, each a class of its own beside the codes.
const CLASSES: [(&str, std::ops::RangeInclusive<usize>); 7] = [
    ("1 handling", 1..=1),
    ("2 to 15 handlings", 2..=15),
    ("16 to 63 handlings", 16..=63),
    ("64 to 79 handlings", 64..=79),
    ("80 handlings", 80..=80),
    ("81 to 4,095 handlings", 81..=4095),
    ("4,096 handlings", 4096..=4096),
];

/// Runs the program on descriptions of each class, on an empty one and on one
/// that is much too long.
pub fn compare(program: &Path, seed: u64) -> Result<Tally, String> {
    let mut tally = Tally::new(QUOTA, expected());
    let extremes = [Vec::new(), vec![1; 200_000]];
    for description in chosen(seed).into_iter().chain(extremes) {
        let text = reference::text(&description);
        trial(program, &description, &text)?;
        tally.add([class(&text)]);
    }
    Ok(tally)
}

/// Every code that a file can give, and every length of runs.
fn expected() -> impl Iterator<Item = Hit> {
    let features = CLASSES.iter().map(|&(name, _)| Hit::Feature(name));
    (40..=48).map(Hit::Code).chain(features)
}

/// The first descriptions of each class, up to the quota.
fn chosen(seed: u64) -> Vec<Vec<u8>> {
    let mut left: BTreeMap<Hit, u64> = expected().map(|hit| (hit, QUOTA)).collect();
    let mut chosen = Vec::new();
    for index in 0..SOUGHT {
        let description = campus_input(seed, index).description;
        let class = class(&reference::text(&description));
        if let Some(left) = left.get_mut(&class).filter(|left| **left > 0) {
            *left -= 1;
            chosen.push(description);
        }
        if left.values().all(|&left| left == 0) {
            break;
        }
    }
    chosen
}

/// The code of a refusal, or the length of a run.
fn class(text: &[u8]) -> Hit {
    let code = code(text);
    if code != 0 {
        return Hit::Code(code);
    }
    // The last line holds the count.
    let handlings = text.iter().filter(|&&octet| octet == b'\n').count() - 1;
    let mut classes = CLASSES.iter();
    let class = classes.find(|(_, lengths)| lengths.contains(&handlings));
    Hit::Feature(class.expect("a run has 1 to 4,096 handlings").0)
}

/// Standard output must be the text, octet by octet, and the exit status 0.
fn trial(program: &Path, description: &[u8], text: &[u8]) -> Result<(), String> {
    let bad = |what: String| format!("{what}\ndescription {}", hex::write(description));
    let mut child = Command::new(program)
        .stdin(Stdio::piped())
        .stdout(Stdio::piped())
        .spawn()
        .map_err(|error| format!("{}: {error}", program.display()))?;
    // The program may stop reading past the greatest description.
    let _ = child
        .stdin
        .take()
        .expect("it is piped")
        .write_all(description);
    let output = child
        .wait_with_output()
        .map_err(|error| error.to_string())?;
    if output.stdout != text {
        let [printed, text] = [&output.stdout[..], text].map(String::from_utf8_lossy);
        return Err(bad(format!("printed {printed:?} and not {text:?}")));
    }
    if !output.status.success() {
        return Err(bad(output.status.to_string()));
    }
    Ok(())
}
