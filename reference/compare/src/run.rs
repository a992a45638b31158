//! What a run shows beside its answers.

use std::collections::BTreeSet;

/// An accepted description and its trace.
pub struct Run<'a> {
    description: &'a [u8],
    entries: Vec<Entry>,
}

/// One trace entry.
struct Entry {
    switch: u16,
    reply: bool,
    answer: u8,
    hops: u8,
    egress: u16,
}

/// Whether a run shows a feature.
type Shows = fn(&Run) -> bool;

/// Features that the compared runs must have.
pub const FEATURES: [(&str, Shows); 11] = [
    ("loop: a switch handles the original twice", |run| {
        run.loops()
    }),
    ("self-loop: a switch sends to itself", |run| {
        run.sends_to_itself()
    }),
    ("the frame leaves the campus", |run| run.leaves()),
    ("a ruling withdrawal ends the run", |run| {
        run.meets_a_withdrawal()
    }),
    ("an error reply travels", |run| run.reply_travels(53)),
    ("an echo reply travels", |run| run.reply_travels(54)),
    ("64 handlings or more", |run| run.entries.len() >= 64),
    ("80 handlings", |run| run.entries.len() == 80),
    ("replies wait", |run| run.replies() > 1),
    ("63 replies", |run| run.replies() == 63),
    ("4,096 handlings", |run| run.entries.len() == 4096),
];

impl<'a> Run<'a> {
    pub fn new(description: &'a [u8], count: u32, trace: &[u8]) -> Self {
        let entries = trace.chunks_exact(8).take(count as usize);
        Run {
            description,
            entries: entries.map(Entry::read).collect(),
        }
    }

    pub fn answers(&self) -> impl Iterator<Item = u32> + '_ {
        self.entries.iter().map(|entry| u32::from(entry.answer))
    }

    fn last(&self) -> &Entry {
        self.entries.last().expect("a run has an entry")
    }

    /// Each entry with the one after it, if its frame was forwarded there.
    fn forwarded(&self) -> impl Iterator<Item = (&Entry, &Entry)> {
        let pairs = self.entries.iter().zip(&self.entries[1..]);
        pairs.filter(|(from, to)| from.answer == 50 && from.hops == to.hops + 1)
    }

    /// Replies that were handled: each begins with the greatest hop count.
    fn replies(&self) -> usize {
        let first = |entry: &&Entry| entry.reply && entry.hops == 63;
        self.entries.iter().filter(first).count()
    }

    fn loops(&self) -> bool {
        let mut met = BTreeSet::new();
        let mut originals = self.entries.iter().filter(|entry| !entry.reply);
        originals.any(|entry| !met.insert(entry.switch))
    }

    fn sends_to_itself(&self) -> bool {
        self.forwarded().any(|(from, to)| from.switch == to.switch)
    }

    /// A frame was written, but no switch of the campus is its neighbour.
    fn leaves(&self) -> bool {
        matches!(self.last().answer, 50 | 53 | 54)
    }

    /// No next hop, but there are records: the newest one is a withdrawal.
    fn meets_a_withdrawal(&self) -> bool {
        let last = self.last();
        last.answer == 21 && self.has_record(last.switch, last.egress)
    }

    /// This answer wrote a reply, and one reply alone was handled.
    fn reply_travels(&self, answer: u8) -> bool {
        let answered = self.entries.iter().any(|entry| entry.answer == answer);
        answered && self.replies() == 1
    }

    fn has_record(&self, switch: u16, destination: u16) -> bool {
        let mut latest = None;
        let mut rest = self.description;
        while let [tag, high, low, after @ ..] = rest {
            let (value, after) = after.split_at(usize::from(u16_of(*high, *low)));
            match (tag, value) {
                (1, &[n0, n1, ..]) => latest = Some(u16_of(n0, n1)),
                (2, &[d0, d1, ..]) if latest == Some(switch) && u16_of(d0, d1) == destination => {
                    return true;
                }
                _ => {}
            }
            rest = after;
        }
        false
    }
}

impl Entry {
    fn read(octets: &[u8]) -> Self {
        Entry {
            switch: u16_of(octets[0], octets[1]),
            reply: octets[2] == 1,
            answer: octets[3],
            hops: octets[4],
            egress: u16_of(octets[6], octets[7]),
        }
    }
}

fn u16_of(high: u8, low: u8) -> u16 {
    u16::from_be_bytes([high, low])
}
