//! What the comparisons share: one input to both programs, with equal buffers.

use std::hash::{DefaultHasher, Hash, Hasher};
use std::hint::black_box;

use crate::buffers::Buffers;
use crate::tally::{Hit, Tally};

/// A call of the product, and what the second program says to the same input.
pub trait Call {
    type Input: Clone + PartialEq + Hash;
    type Answer;
    /// Why the second program answers as it does.
    type Why;

    /// The option that replays an input.
    const REPLAY: &'static str;
    /// Hits that each expected thing needs.
    const ENOUGH: u64;

    /// The inputs of a seed, `count` of them and some special ones.
    fn inputs(seed: u64, count: u64) -> impl Iterator<Item = Self::Input>;
    /// What the inputs must show.
    fn expected() -> impl Iterator<Item = Hit>;

    /// The words after the replay option, and the input that they tell.
    fn words(input: &Self::Input) -> Vec<String>;
    fn read(words: &[String]) -> Result<Self::Input, String>;

    /// Octets of both lent outputs; a call with one output is lent none of the
    /// second.
    fn rooms(input: &Self::Input) -> [usize; 2];
    fn product(input: &Self::Input, lent: Lent) -> Self::Answer;
    fn reference(input: &Self::Input, lent: Lent) -> (Self::Answer, Self::Why);

    /// The answer's fields with their names.
    fn fields(answer: &Self::Answer) -> Vec<(&'static str, u64)>;
    /// What was written, as it is reported.
    fn written(answer: &Self::Answer, lent: Lent) -> String;
    /// What an input shows, by the second program's answer and first output.
    fn hits(input: &Self::Input, answer: &Self::Answer, why: Self::Why, out: &[u8]) -> Vec<Hit>;
}

/// The outputs that a call is lent: the first one, and the one beside it.
pub type Lent<'a> = [&'a mut [u8]; 2];

/// Names of the outputs in reports.
const NAMES: [&str; 2] = ["output", "second output"];

/// Both programs' answers to one input.
struct Trial<C: Call> {
    product: C::Answer,
    reference: C::Answer,
    why: C::Why,
    difference: Option<String>,
}

/// Tries all inputs of a seed, or says on which the programs differ.
pub fn compare<C: Call>(seed: u64, count: u64) -> Result<Tally, String> {
    let mut tally = Tally::new(C::ENOUGH, C::expected());
    let mut buffers = <[Buffers; 2]>::default();
    for input in C::inputs(seed, count) {
        let trial = trial::<C>(&input, &mut buffers);
        if let Some(difference) = &trial.difference {
            let report = report(&input, &trial, &mut buffers);
            return Err(format!("{difference}\n{report}"));
        }
        let [out, _] = &mut buffers;
        tally.add(C::hits(
            &input,
            &trial.reference,
            trial.why,
            out.reference(),
        ));
    }
    Ok(tally)
}

/// Runs one input, given in hex, and prints both answers; whether they agree.
pub fn replay<C: Call>(words: &[String]) -> Result<bool, String> {
    let input = C::read(words)?;
    let mut buffers = <[Buffers; 2]>::default();
    let trial = trial::<C>(&input, &mut buffers);
    let verdict = trial.difference.as_deref().unwrap_or("no difference");
    println!("{}\n{verdict}", report(&input, &trial, &mut buffers));
    Ok(trial.difference.is_none())
}

fn trial<C: Call>(input: &C::Input, buffers: &mut [Buffers; 2]) -> Trial<C> {
    for (buffer, room) in buffers.iter_mut().zip(C::rooms(input)) {
        buffer.fill(room, key(input));
    }
    let (reference, why) = C::reference(input, buffers.each_mut().map(Buffers::reference));
    let read = input.clone();
    let product = C::product(&read, buffers.each_mut().map(Buffers::product));
    let written = || (black_box(&read) != input).then(|| "the input was written to".into());
    let mut named = buffers.iter().zip(NAMES);
    let difference = field::<C>(&product, &reference)
        .or_else(|| named.find_map(|(buffer, name)| buffer.difference(name)))
        .or_else(written);
    Trial {
        product,
        reference,
        why,
        difference,
    }
}

/// The pattern's key: the same when an input is replayed.
fn key(input: &impl Hash) -> u64 {
    let mut hasher = DefaultHasher::new();
    input.hash(&mut hasher);
    hasher.finish()
}

/// The first field that differs.
fn field<C: Call>(product: &C::Answer, reference: &C::Answer) -> Option<String> {
    let mut fields = C::fields(product).into_iter().zip(C::fields(reference));
    let ((name, left), (_, right)) = fields.find(|(left, right)| left != right)?;
    Some(format!("{name} is {left} and not {right}"))
}

/// The input as it is replayed, and both answers with what was written.
fn report<C: Call>(input: &C::Input, trial: &Trial<C>, buffers: &mut [Buffers; 2]) -> String {
    format!(
        "{} {}\nproduct        {}\nsecond program {}",
        C::REPLAY,
        C::words(input).join(" "),
        shown::<C>(&trial.product, buffers.each_mut().map(Buffers::product)),
        shown::<C>(&trial.reference, buffers.each_mut().map(Buffers::reference)),
    )
}

fn shown<C: Call>(answer: &C::Answer, lent: Lent) -> String {
    let mut words: Vec<String> = C::fields(answer)
        .into_iter()
        .map(|(name, value)| format!("{name} {value}"))
        .collect();
    words.push(C::written(answer, lent));
    words.join(" ")
}

/// A number that stands for octets, so that they can be a field.
pub fn digest(octets: impl Hash) -> u64 {
    key(&octets)
}

/// Inputs that are tried with parts of them emptied too.
const EMPTIED: u64 = 64;

/// Generated inputs, then some of them with each choice of their `parts`
/// emptied.
pub fn with_emptied<I>(
    count: u64,
    parts: u32,
    input: impl Fn(u64) -> I + Clone,
    empty: impl Fn(&mut I, u32) + Clone,
) -> impl Iterator<Item = I> {
    let again = input.clone();
    let emptied = (0..EMPTIED).flat_map(move |index| {
        let (input, empty) = (again.clone(), empty.clone());
        (1..1_u32 << parts).map(move |choice| {
            let mut input = input(index);
            for part in (0..parts).filter(|part| choice >> part & 1 == 1) {
                empty(&mut input, part);
            }
            input
        })
    });
    (0..count).map(input).chain(emptied)
}

/// The first octets of an output, all of them if it has fewer.
pub fn start(out: &[u8], octets: u32) -> &[u8] {
    out.get(..octets as usize).unwrap_or(out)
}
