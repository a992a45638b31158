//! How often each thing that inputs should show was met.

use std::collections::BTreeMap;
use std::fmt;

use reference::Role;

/// What an input can show.
#[derive(Clone, Copy, PartialEq, Eq, PartialOrd, Ord)]
pub enum Hit {
    /// An answer of one handling.
    Answer(u32),
    /// An answer of one handling in this role.
    AtRole(u32, Role),
    /// A code of a campus call.
    Code(u32),
    /// Something else, in words.
    Feature(&'static str),
}

pub struct Tally {
    /// Hits that each expected thing needs.
    enough: u64,
    inputs: u64,
    hits: BTreeMap<Hit, u64>,
}

impl Tally {
    pub fn new(enough: u64, expected: impl IntoIterator<Item = Hit>) -> Self {
        Tally {
            enough,
            inputs: 0,
            hits: expected.into_iter().map(|hit| (hit, 0)).collect(),
        }
    }

    /// Counts one input by all that it shows.
    pub fn add(&mut self, hits: impl IntoIterator<Item = Hit>) {
        self.inputs += 1;
        for hit in hits {
            *self.hits.entry(hit).or_default() += 1;
        }
    }

    pub fn inputs(&self) -> u64 {
        self.inputs
    }

    /// What was met too few times.
    pub fn rare(&self) -> impl Iterator<Item = Hit> + '_ {
        let rare = self.hits.iter().filter(|(_, &hits)| hits < self.enough);
        rare.map(|(&hit, _)| hit)
    }
}

impl fmt::Display for Hit {
    fn fmt(&self, f: &mut fmt::Formatter) -> fmt::Result {
        match self {
            Hit::Answer(number) => write!(f, "{number:>2}"),
            Hit::AtRole(number, Role::Transit) => write!(f, "{number:>2} in transit"),
            Hit::AtRole(number, Role::Egress) => write!(f, "{number:>2} at the egress"),
            Hit::Code(code) => write!(f, "code {code:>2}"),
            Hit::Feature(words) => f.write_str(words),
        }
    }
}

/// Four answers or codes to a line, then a line for each feature.
impl fmt::Display for Tally {
    fn fmt(&self, f: &mut fmt::Formatter) -> fmt::Result {
        let cells: Vec<_> = self.hits.iter().collect();
        for kind in cells.chunk_by(|(one, _), (other, _)| same_kind(one, other)) {
            let cells_to_a_line = match kind[0].0 {
                Hit::Feature(_) => 1,
                _ => 4,
            };
            for line in kind.chunks(cells_to_a_line) {
                for (hit, hits) in line {
                    write!(f, "  {hit} {hits:>9}")?;
                }
                writeln!(f)?;
            }
        }
        Ok(())
    }
}

fn same_kind(one: &Hit, other: &Hit) -> bool {
    std::mem::discriminant(one) == std::mem::discriminant(other)
}
