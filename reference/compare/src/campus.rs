//! The campus call.

use reference::generate::{campus_input, CampusInput};
use reference::Outcome;

use crate::call::{start, with_emptied, Call, Lent};
use crate::hex;
use crate::run::{Run, FEATURES};
use crate::tally::Hit;

pub struct CampusRun;

impl Call for CampusRun {
    type Input = CampusInput;
    type Answer = Outcome;
    type Why = ();

    const REPLAY: &'static str = "--replay-campus";
    /// Of each code, each answer within a run and each feature.
    const ENOUGH: u64 = 50;

    /// Some without description, without trace and without both.
    fn inputs(seed: u64, count: u64) -> impl Iterator<Item = CampusInput> {
        let input = move |index| campus_input(seed, index);
        with_emptied(count, 2, input, |input, part| match part {
            0 => input.description.clear(),
            _ => input.room = 0,
        })
    }

    /// Every code, every feature, and every answer that a run can give: 1, 2, 3
    /// and 37 need bad settings, too little room or too long a frame, which no
    /// accepted description has.
    fn expected() -> impl Iterator<Item = Hit> {
        let codes = [0].into_iter().chain(40..=49).map(Hit::Code);
        let refusals = (10..=18).chain(20..=35).chain([38]);
        let answers = refusals.chain(50..=56).map(Hit::Answer);
        let features = FEATURES.iter().map(|&(name, _)| Hit::Feature(name));
        codes.chain(answers).chain(features)
    }

    fn words(input: &CampusInput) -> Vec<String> {
        vec![
            hex::write_number(input.room),
            hex::write(&input.description),
        ]
    }

    fn read(words: &[String]) -> Result<CampusInput, String> {
        let [room, description] = words else {
            return Err("a replay of a campus takes two words".into());
        };
        Ok(CampusInput {
            description: hex::read(description)?,
            room: hex::read_number(room)?,
        })
    }

    fn rooms(input: &CampusInput) -> [usize; 2] {
        [input.room, 0]
    }

    fn product(input: &CampusInput, [trace, _]: Lent) -> Outcome {
        product::run(&input.description, trace)
    }

    fn reference(input: &CampusInput, [trace, _]: Lent) -> (Outcome, ()) {
        (reference::run(&input.description, trace), ())
    }

    fn fields(outcome: &Outcome) -> Vec<(&'static str, u64)> {
        vec![
            ("code", outcome.code.into()),
            ("count", outcome.count.into()),
        ]
    }

    fn written(outcome: &Outcome, [trace, _]: Lent) -> String {
        let entries = start(trace, outcome.count.saturating_mul(8));
        format!("entries {}", hex::write(entries))
    }

    fn hits(input: &CampusInput, outcome: &Outcome, (): (), trace: &[u8]) -> Vec<Hit> {
        let mut hits = vec![Hit::Code(outcome.code)];
        if outcome.code == 0 {
            let run = Run::new(&input.description, outcome.count, trace);
            hits.extend(run.answers().map(Hit::Answer));
            let shown = FEATURES.iter().filter(|(_, shows)| shows(&run));
            hits.extend(shown.map(|&(name, _)| Hit::Feature(name)));
        }
        hits
    }
}
