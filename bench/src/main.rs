//! Times the proved library beside the second program, on the same inputs in
//! one process, and prints a table in Markdown.
//!
//! `one` makes the calls of one case alone, for counting instructions.

#![forbid(unsafe_code)]

mod cases;
mod measure;
mod octets;

use std::env;
use std::process::ExitCode;

use cases::{Case, Program};
use measure::{measure, Times};

const USAGE: &str = "\
usage: bench [--only TEXT]..                      (cases whose name has one of the texts)
       bench one CASE proved|second|copy TIMES    (makes the calls and prints nothing)
       bench names";

/// Goals: the proved program's time beside the second program's, and that of
/// [`COPIED`] beside a plain copy.
const RATIO: f64 = 1.25;
const COPY_RATIO: f64 = 4.0;
const COPIED: &str = "forward-1500-8";

const NOTES: &str = "\
Not there: strip at 64 octets, for an area of 31 words has 124; echo at 1,500 and 2,048 octets, for an echo body has at most 530. The echo
of 600 octets has an area of 7 words. Destinations and serials of records are in no order; rising: they go up by one; crowded: one
destination, serials that go up by 256; tagged: each record has an outer VLAN. Prepared: settings prepared once, outside what is timed.
Counted and in bursts: the frame of forward; the time of bursts has the start in it, which prepares the settings. For a run the octets are
those of the frame put in, and the copy is one for each handling.";

fn main() -> ExitCode {
    let words: Vec<String> = env::args().skip(1).collect();
    let words: Vec<&str> = words.iter().map(String::as_str).collect();
    match perform(&words) {
        Ok(()) => ExitCode::SUCCESS,
        Err(message) => {
            eprintln!("bench: {message}\n{USAGE}");
            ExitCode::from(2)
        }
    }
}

fn perform(words: &[&str]) -> Result<(), String> {
    match words {
        ["names"] => cases::all()
            .iter()
            .for_each(|case| println!("{}", case.name)),
        ["one", name, program, times] => one(name, program, times)?,
        _ => table(&wanted(words)?),
    }
    Ok(())
}

fn one(name: &str, program: &str, times: &str) -> Result<(), String> {
    let program = match program {
        "proved" => Program::Proved,
        "second" => Program::Second,
        "copy" => Program::Copy,
        _ => return Err(format!("no program {program}")),
    };
    let times = times.parse().map_err(|_| format!("{times} is no number"))?;
    let mut cases = cases::all().into_iter();
    let case = cases.find(|case| case.name == name);
    let case = case.ok_or_else(|| format!("no case {name}"))?;
    case.check();
    case.repeat(program, times);
    Ok(())
}

/// The cases that the options ask for.
fn wanted(words: &[&str]) -> Result<Vec<Case>, String> {
    let mut texts = Vec::new();
    for option in words.chunks(2) {
        match option {
            ["--only", text] => texts.push(*text),
            _ => return Err(format!("unknown option {}", option[0])),
        }
    }
    let named = |case: &Case| texts.iter().any(|text| case.name.contains(text));
    let cases = cases::all().into_iter();
    let cases: Vec<_> = cases
        .filter(|case| texts.is_empty() || named(case))
        .collect();
    if cases.is_empty() {
        return Err("no such case".into());
    }
    Ok(cases)
}

/// Prints a line for each case, then how far the goals are met.
fn table(cases: &[Case]) {
    cases.iter().for_each(Case::check);
    println!(
        "| case | octets | records | proved ns | second ns | ratio | plain copy ns | proved/copy |"
    );
    println!("|---|---:|---:|---:|---:|---:|---:|---:|");
    let mut all = Vec::new();
    for case in cases {
        let times = measure(case);
        println!("{}", line(case, &times));
        all.push((case, times));
    }
    println!("\n{NOTES}");
    print_goals(&all);
}

fn line(case: &Case, times: &Times) -> String {
    let Times {
        proved,
        second,
        copy,
    } = times;
    format!(
        "| {} | {} | {} | {proved:.1} | {second:.1} | {:.2} | {copy:.1} | {:.1} |",
        case.name,
        case.frame.len(),
        case.records,
        proved / second,
        proved / copy,
    )
}

fn print_goals(all: &[(&Case, Times)]) {
    let over = |times: &Times| times.proved / times.second > RATIO;
    let slow: Vec<_> = all.iter().filter(|(_, times)| over(times)).collect();
    println!(
        "\nover {RATIO} times the second program: {} of {}",
        slow.len(),
        all.len()
    );
    for (case, times) in slow {
        println!("  {} {:.2}", case.name, times.proved / times.second);
    }
    for (case, times) in all.iter().filter(|(case, _)| case.name == COPIED) {
        let ratio = times.proved / times.copy;
        println!(
            "{} is {ratio:.2} times its plain copy; the goal is {COPY_RATIO}",
            case.name
        );
    }
}
