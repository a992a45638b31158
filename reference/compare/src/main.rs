//! Compares the proved libraries, linked as a C driver links them, and the
//! program with the second program on seeded inputs.
//!
//! A module for each call of the product; [`COMPARISONS`] lists them.

#![forbid(unsafe_code)]

mod buffers;
mod call;
mod campus;
mod counted;
mod forged;
mod handling;
mod hex;
mod prepared;
mod program;
mod reader;
mod run;
mod tally;
mod text;
mod way;
mod words;

use std::env;
use std::path::PathBuf;
use std::process::ExitCode;

use call::Call;
use campus::CampusRun;
use counted::Counted;
use forged::Forged;
use handling::Handling;
use prepared::{HandlePrepared, Prepare};
use reader::Bursts;
use tally::Tally;
use text::Text;
use way::WayOut;

const USAGE: &str = "\
usage: compare [--seed S] [--count N] [--campus-count N] [--program PATH]
       compare --replay SETTINGS CLOCK ROOM BESIDE FRAME    (all in hex)
       compare --replay-counted COUNTERS (SETTINGS CLOCK ROOM BESIDE FRAME)..
       compare --replay-bursts SETTINGS CLOCK ROOM BESIDE (OCTETS | ROOM,BESIDE)..
       compare --replay-forged FORGERY SETTINGS CLOCK ROOM BESIDE (OCTETS | ROOM,BESIDE)..
       compare --replay-prepare SETTINGS WORDS
       compare --replay-prepared SETTINGS CLOCK ROOM BESIDE FRAME
       compare --replay-way SETTINGS DESTINATION ROOM
       compare --replay-campus ROOM DESCRIPTION
       compare --replay-text ROOM DESCRIPTION";

/// What is compared: inputs of a seed, how many for each call, and the program
/// if it is to be run.
struct Plan {
    seed: u64,
    count: u64,
    campus_count: u64,
    program: Option<PathBuf>,
}

/// Compares a call on the inputs of a plan, or says on which it differs.
type Comparison = fn(&Plan) -> Result<Tally, String>;

const COMPARISONS: [(&str, Comparison); 9] = [
    ("handling", |plan| {
        call::compare::<Handling>(plan.seed, plan.count)
    }),
    ("counted handlings", |plan| {
        call::compare::<Counted>(plan.seed, plan.count / 4)
    }),
    ("frames in bursts", |plan| {
        call::compare::<Bursts>(plan.seed, plan.count / 4)
    }),
    ("forged readers", |plan| {
        call::compare::<Forged>(plan.seed, plan.count / 4)
    }),
    ("preparing", |plan| {
        call::compare::<Prepare>(plan.seed, plan.count)
    }),
    ("handling with prepared settings", |plan| {
        call::compare::<HandlePrepared>(plan.seed, plan.count)
    }),
    ("way out", |plan| {
        call::compare::<WayOut>(plan.seed, plan.count)
    }),
    ("campus", |plan| {
        call::compare::<CampusRun>(plan.seed, plan.campus_count)
    }),
    ("text", |plan| {
        call::compare::<Text>(plan.seed, plan.campus_count)
    }),
];

/// Runs one input given in hex; whether both programs agree.
type Replay = fn(&[String]) -> Result<bool, String>;

const REPLAYS: [(&str, Replay); 9] = [
    (Handling::REPLAY, call::replay::<Handling>),
    (Counted::REPLAY, call::replay::<Counted>),
    (Bursts::REPLAY, call::replay::<Bursts>),
    (Forged::REPLAY, call::replay::<Forged>),
    (Prepare::REPLAY, call::replay::<Prepare>),
    (HandlePrepared::REPLAY, call::replay::<HandlePrepared>),
    (WayOut::REPLAY, call::replay::<WayOut>),
    (CampusRun::REPLAY, call::replay::<CampusRun>),
    (Text::REPLAY, call::replay::<Text>),
];

enum Task {
    Compare(Plan),
    Replay(Replay, Vec<String>),
}

fn main() -> ExitCode {
    let done = task(env::args().skip(1)).and_then(|task| match task {
        Task::Compare(plan) => Ok(compare(&plan)),
        Task::Replay(replay, words) => replay(&words),
    });
    match done {
        Ok(true) => ExitCode::SUCCESS,
        Ok(false) => ExitCode::FAILURE,
        Err(message) => {
            eprintln!("compare: {message}\n{USAGE}");
            ExitCode::from(2)
        }
    }
}

fn task(mut words: impl Iterator<Item = String>) -> Result<Task, String> {
    let mut plan = Plan {
        seed: 1,
        count: 200_000,
        campus_count: 50_000,
        program: None,
    };
    while let Some(word) = words.next() {
        match word.as_str() {
            "--seed" => plan.seed = number(words.next())?,
            "--count" => plan.count = number(words.next())?,
            "--campus-count" => plan.campus_count = number(words.next())?,
            "--program" => {
                let path = words.next().ok_or("--program lacks its path")?;
                plan.program = Some(path.into());
            }
            _ => {
                let found = REPLAYS.iter().find(|(option, _)| *option == word);
                let (_, replay) = found.ok_or_else(|| format!("unknown option {word}"))?;
                return Ok(Task::Replay(*replay, words.collect()));
            }
        }
    }
    Ok(Task::Compare(plan))
}

fn number(word: Option<String>) -> Result<u64, String> {
    let word = word.ok_or("an option lacks its number")?;
    word.parse().map_err(|_| format!("{word} is no number"))
}

/// Runs every comparison; whether all passed.
fn compare(plan: &Plan) -> bool {
    let mut results = Vec::new();
    for (name, comparison) in COMPARISONS {
        results.push(passes(name, comparison(plan)));
    }
    if let Some(path) = &plan.program {
        results.push(passes("program", program::compare(path, plan.seed)));
    }
    let passed = results.iter().filter(|&&good| good).count();
    let failed = results.len() - passed;
    println!("compare: {passed} passed, {failed} failed");
    failed == 0
}

fn passes(name: &str, result: Result<Tally, String>) -> bool {
    match result {
        Ok(tally) => {
            print!("{name}: hits\n{tally}");
            for hit in tally.rare() {
                println!("{name}: too few hits of {hit}");
            }
            println!("{name}: {} inputs compared", tally.inputs());
            tally.rare().next().is_none()
        }
        Err(difference) => {
            println!("{name}: {difference}");
            false
        }
    }
}
