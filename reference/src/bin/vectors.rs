//! Writes generated inputs, with what this program answers to them, as a crate
//! of cases that the proved definitions must compute to:
//! `vectors DIR [SEED [COUNT]]`, with COUNT handlings and COUNT campuses.

use std::fmt::Write as _;
use std::path::Path;
use std::{env, fs, io};

use reference::generate::{campus_input, handle_input, part_input, HandleInput};
use reference::{handle, part, run, text, Answer};

/// Cases to a claim: a claim is checked under a limit of steps.
const CLAIM: usize = 10;
/// Longer inputs add checking time and no new rule but answer 29.
const LONGEST: usize = 700;
/// Longer runs likewise.
const HANDLINGS: u32 = 100;
/// Room for every trace.
const TRACE_MOST: usize = 32768;

const HEADER: &str = "\
-- Generated cases, each with what the second program answers.
use mathlib.Core.Path.{◌≡◌, refl}
use Rattle.std.specs.Prelude.{ℕ, Bool, true, false, ◌&&◌, List, [], ◌∷◌, ◌++◌, ◌==◌, if◌then◌else◌}
use Prim.Native.String.{String}
use Rattle.rules.specs.Answer.{Handled}
use Rattle.rules.specs.Campus.{Outcome, campus}
use Rattle.rules.specs.Cases.{Case, computed_in, hex}
use Rattle.rules.specs.Handling.{handled, part_of}
use Rattle.rules.specs.Text.{printed}

-- 256, which is no octet, stands between what is written and the reply beside it
unfoldable answer : Handled → List ℕ
answer a = a.number ∷ a.start ∷ a.size ∷ a.via ∷ a.beside_via ∷ (a.octets ++ 256 ∷ a.beside)

unfoldable outcome : Outcome → List ℕ
outcome o = o.code ∷ o.count ∷ o.trace

unfoldable same : List ℕ → List ℕ → Bool
same [] [] = true
same [] (b ∷ t) = false
same (a ∷ s) [] = false
same (a ∷ s) (b ∷ t) = (a == b) && same s t

-- the names of the cases that do not come out as expected: tested and not compared, which is quick on long octet strings
unfoldable failing : List Case → List String
unfolding same computed_in
failing [] = []
failing (c ∷ cases) = if same c.computed c.expected then failing cases else c.name ∷ failing cases
";

fn main() -> io::Result<()> {
    let arguments: Vec<String> = env::args().skip(1).collect();
    let number = |at: usize, default| arguments.get(at).map_or(default, |a| a.parse().unwrap());
    let directory = arguments.first().expect("vectors DIR [SEED [COUNT]]");
    let (seed, count) = (number(1, 1), number(2, 100));
    let cases: Vec<String> = handlings(seed)
        .take(count as usize)
        .chain(parts(seed).take(count as usize / 4))
        .chain(campuses(seed).take(count as usize))
        .collect();
    write_crate(Path::new(directory), &cases)
}

fn handlings(seed: u64) -> impl Iterator<Item = String> {
    (0..).filter_map(move |index| {
        let input = handle_input(seed, index);
        let (mut out, mut beside) = (vec![0; input.room], vec![0; input.beside_room]);
        let (frame, settings, clock) = (&input.frame, &input.settings, &input.clock);
        let answer = handle(frame, settings, clock, &mut out, &mut beside);
        let long = input.frame.len() > LONGEST && answer.number != 29;
        if long || input.settings.len() > LONGEST {
            return None;
        }
        let name = format!("handling {index}");
        let (out, beside) = (
            &out[..answer.written.into()],
            &beside[..answer.beside.into()],
        );
        Some(case(
            &name,
            &computed(&input),
            &expected(answer, out, beside),
        ))
    })
}

/// What the definitions compute, by `answer` of [`HEADER`].
fn computed(input: &HandleInput) -> String {
    format!(
        "answer (handled {} {} {} {} {})",
        hex(&input.settings),
        hex(&input.clock),
        input.room,
        input.beside_room,
        hex(&input.frame)
    )
}

/// The list that `answer` of [`HEADER`] makes of this answer.
fn expected(answer: Answer, out: &[u8], beside: &[u8]) -> String {
    format!(
        "{} ∷ {} ∷ {} ∷ {} ∷ {} ∷ ({} ++ 256 ∷ {})",
        answer.number,
        answer.start,
        answer.length,
        answer.neighbour,
        answer.beside_neighbour,
        hex(out),
        hex(beside)
    )
}

fn parts(seed: u64) -> impl Iterator<Item = String> {
    (0..).filter_map(move |index| {
        let input = part_input(seed, index);
        if input.frame.len() > LONGEST {
            return None;
        }
        let octets = part(&input.frame, input.start as usize, input.length as usize);
        let computed = format!(
            "part_of {} {} {}",
            hex(&input.frame),
            input.start,
            input.length
        );
        Some(case(&format!("part {index}"), &computed, &hex(octets)))
    })
}

fn campuses(seed: u64) -> impl Iterator<Item = String> {
    (0..).filter_map(move |index| {
        let input = campus_input(seed, index);
        let mut trace = vec![0; input.room];
        let outcome = run(&input.description, &mut trace);
        // A run that the trace has no room for is printed all the same.
        let handlings = run(&input.description, &mut [0; TRACE_MOST]).count;
        if input.description.len() > LONGEST || handlings > HANDLINGS {
            return None;
        }
        let file = hex(&input.description);
        let computed = format!("outcome (campus {file} {}) ++ printed {file}", input.room);
        let mut octets = trace[..outcome.count as usize * 8].to_vec();
        octets.extend(text(&input.description));
        let expected = format!("{} ∷ {} ∷ {}", outcome.code, outcome.count, hex(&octets));
        Some(case(&format!("campus {index}"), &computed, &expected))
    })
}

fn case(name: &str, computed: &str, expected: &str) -> String {
    format!("record {{ name = \"{name}\"; computed = {computed}; expected = {expected} }}")
}

fn hex(octets: &[u8]) -> String {
    let digits: String = octets.iter().map(|octet| format!("{octet:02X}")).collect();
    format!("(hex \"{digits}\")")
}

/// A crate with no code: a claim for each few cases.
fn write_crate(directory: &Path, cases: &[String]) -> io::Result<()> {
    let mut file = String::from(HEADER);
    for (place, claim) in cases.chunks(CLAIM).enumerate() {
        let table = claim.join("\n    ∷ ");
        write!(
            file,
            "\nabbrev table{place} : List Case\ntable{place} =\n    {table}\n    ∷ []\n\n\
             claim{place} : failing table{place} ≡ []\nunfolding failing answer outcome\nclaim{place} = refl\n"
        )
        .unwrap();
    }
    fs::create_dir_all(directory.join("src"))?;
    fs::create_dir_all(directory.join("proofs"))?;
    fs::write(
        directory.join("src/lib.rt"),
        "// Cases alone.\n\n#![tactic(auto)]\n",
    )?;
    fs::write(directory.join("proofs/Lib.antt"), "mod Vectors\n")?;
    fs::write(directory.join("proofs/Vectors.antt"), file)
}
