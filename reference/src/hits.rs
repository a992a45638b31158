//! Counts how often generated inputs meet each answer, cause and refusal, and
//! says what they meet too rarely.

mod areas;
mod expected;
mod feature;
mod links;
mod readers;

pub use feature::Feature;
pub use readers::ReaderHit;

use std::collections::BTreeMap;
use std::fmt;

use crate::generate::{
    campus_input, counted_input, handle_input, part_input, reader_input, way_input,
};
use crate::settings::Field;
use crate::{explain, explain_run, handle_counted, part, way_out, Cause, Fault};

/// The counts of one seed.
#[derive(Default)]
pub struct Hits {
    pub handle: BTreeMap<Cause, u64>,
    /// Places of options at fault in their areas.
    pub places: BTreeMap<u16, u64>,
    /// Answers of counted calls.
    pub counted: BTreeMap<u16, u64>,
    /// Answers of a reader's calls.
    pub reader: BTreeMap<readers::ReaderHit, u64>,
    /// Answers of the way-out call.
    pub ways: BTreeMap<u32, u64>,
    /// Answers within runs, by number and by original (false) or reply.
    pub entries: BTreeMap<(u16, bool), u64>,
    pub refusals: BTreeMap<Fault, u64>,
    pub accepted: u64,
    pub features: BTreeMap<Feature, u64>,
}

fn add<K: Ord>(hits: &mut BTreeMap<K, u64>, key: K) {
    *hits.entry(key).or_default() += 1;
}

impl Hits {
    /// Runs `count` inputs of each kind.
    pub fn count(seed: u64, count: u64) -> Self {
        let mut hits = Hits::default();
        for index in 0..count {
            hits.count_handle(seed, index);
            hits.count_counted(seed, index);
            hits.count_reader(seed, index);
            hits.count_part(seed, index);
            hits.count_way(seed, index);
            hits.count_campus(seed, index);
        }
        hits
    }

    fn show(&mut self, features: impl IntoIterator<Item = (Feature, bool)>) {
        for (feature, _) in features.into_iter().filter(|&(_, shown)| shown) {
            add(&mut self.features, feature);
        }
    }

    fn count_handle(&mut self, seed: u64, index: u64) {
        let input = handle_input(seed, index);
        let mut out = vec![0; input.room];
        let mut beside = vec![0; input.beside_room];
        let (frame, settings, clock) = (&input.frame, &input.settings, &input.clock);
        let (answer, cause) = explain(frame, settings, clock, &mut out, &mut beside);
        add(&mut self.handle, cause);
        self.show(links::shown(frame, &out, answer));
        self.show(areas::flags(frame, cause));
        self.show(links::beside(&out, &beside, answer));
        match answer.number {
            20 | 34 | 35 => self.show(areas::good_options(frame)),
            30..34 => {
                add(&mut self.places, answer.start);
                self.show(areas::faulty_option(frame, answer));
            }
            50 => self.show(areas::forwarded(frame, &out, cause)),
            _ => {}
        }
    }

    fn count_counted(&mut self, seed: u64, index: u64) {
        let input = counted_input(seed, index);
        let mut counters = input.counters;
        let mut handled = 0;
        for call in &input.calls {
            let (mut out, mut beside) = (vec![0; call.room], vec![0; call.beside_room]);
            let (frame, settings, clock) = (&call.frame, &call.settings, &call.clock);
            let before = counters.clone();
            let counted = &mut counters;
            let answer = handle_counted(counted, frame, settings, clock, &mut out, &mut beside);
            add(&mut self.counted, answer.number);
            if answer.number != 4 {
                handled += 1;
                continue;
            }
            let (plain, _) = explain(frame, settings, clock, &mut out, &mut beside);
            let own = before.by_answer[usize::from(plain.number)] == u64::MAX;
            let total = before.total == u64::MAX;
            self.show([
                (Feature::OwnCounterFull, own),
                (Feature::OtherCounterFull, !own && !total),
                (Feature::TotalFull, total),
                (Feature::FilledByCalls, handled > 0),
                (Feature::FullBeforeBadSettings, plain.number == 1),
            ]);
        }
    }

    fn count_reader(&mut self, seed: u64, index: u64) {
        let shown = readers::run(&reader_input(seed, index));
        for hit in shown.answers {
            add(&mut self.reader, hit);
        }
        self.show(shown.features);
    }

    fn count_part(&mut self, seed: u64, index: u64) {
        let input = part_input(seed, index);
        let size = input.frame.len() as u64;
        let end = input.start.checked_add(input.length);
        let within = end.is_some_and(|end| end <= size);
        let full = !part(&input.frame, input.start as usize, input.length as usize).is_empty();
        self.show([
            (Feature::PartFull, full),
            (Feature::PartEmpty, within && !full),
            (Feature::PartOutside, !within),
            (Feature::PartWraps, end.is_none()),
        ]);
    }

    fn count_way(&mut self, seed: u64, index: u64) {
        let input = way_input(seed, index);
        let mut out = vec![0; input.room];
        let way = way_out(&input.settings, input.destination, &mut out);
        add(&mut self.ways, way.number);
        let written = way.number == 0;
        let header = way_out(&input.settings, input.destination, &mut [0; 18]).length;
        let fits = |length| written && header == length && input.room == length as usize;
        let short = |length, octets| {
            way.number == 2 && header == length && input.room + octets == length as usize
        };
        // Good settings begin with tag, length and the own nickname.
        let own = input.settings.get(3..5) == Some(&input.destination.to_be_bytes());
        self.show([
            (Feature::WayOfOwnNickname, written && own),
            (
                Feature::WayWithdrawn,
                way.number == 21 && has_record(&input.settings, input.destination),
            ),
            (Feature::WayFitsExactly, fits(14)),
            (Feature::WayOneShort, short(14, 1)),
            (Feature::TaggedWayFitsExactly, fits(18)),
            (Feature::TaggedWayOneShort, short(18, 1)),
            (Feature::TaggedWayFourShort, short(18, 4)),
            (Feature::WayWithMoreRoom, written && input.room >= 100),
        ]);
    }

    fn count_campus(&mut self, seed: u64, index: u64) {
        let input = campus_input(seed, index);
        let mut trace = vec![0; input.room];
        match explain_run(&input.description, &mut trace) {
            Err(fault) => {
                add(&mut self.refusals, fault);
                let short = (640..32_768).contains(&input.room);
                let earlier = short && has_edition_2(&input.description) && fault.code() != 49;
                self.show([(Feature::FaultBeforeTraceRoom, earlier)]);
            }
            Ok(count) => self.count_run(&input.description, &trace[..8 * count as usize]),
        }
    }

    fn count_run(&mut self, description: &[u8], trace: &[u8]) {
        self.accepted += 1;
        let entries = || trace.chunks_exact(8);
        for entry in entries() {
            add(&mut self.entries, (u16::from(entry[3]), entry[2] == 1));
        }
        let count = entries().count();
        let wrote = entries()
            .last()
            .is_some_and(|last| matches!(last[3], 50 | 53 | 54));
        let replies = entries().filter(|entry| entry[2] == 1).count();
        // A reply begins with the greatest hop count.
        let first = |entry: &&[u8]| entry[2] == 1 && entry[4] == 63;
        let waited = entries().filter(first).count() > 1;
        let bound = 65 * usize::from(trace[4]) + 1;
        self.show([
            (Feature::LeftCampus, wrote),
            (Feature::ReplyTravels, replies > 1),
            (Feature::RepliesWait, waited),
            (Feature::RepliesWaitInMixed, waited && is_mixed(description)),
            (Feature::BoundOfEdition2, bound > 66 && count == bound),
            (Feature::Handled4096, count == 4096),
            (Feature::Handled64OrMore, count >= 64),
            (Feature::Handled80, count == 80),
            (Feature::GreatestFile, description.len() == 32_768),
        ]);
    }

    /// Hits of the handling call by answer number.
    pub fn numbers(&self) -> BTreeMap<u16, u64> {
        let mut numbers = BTreeMap::new();
        for (cause, hits) in &self.handle {
            *numbers.entry(cause.number()).or_default() += hits;
        }
        numbers
    }

    /// Hits of the campus call by code, 0 included.
    pub fn codes(&self) -> BTreeMap<u32, u64> {
        let mut codes = BTreeMap::from([(0, self.accepted)]);
        for (fault, hits) in &self.refusals {
            *codes.entry(fault.code()).or_default() += hits;
        }
        codes
    }

    /// A line for all that must be met and is met fewer than `least` times, and
    /// for all that is met and is not expected.
    pub fn shortfalls(&self, least: u64) -> Vec<String> {
        let mut lines = rare(least, &self.handle, expected::causes());
        lines.extend(rare(least, &self.numbers(), expected::numbers()));
        lines.extend(rare(least, &self.places, expected::places()));
        lines.extend(rare(least, &self.counted, expected::counted()));
        lines.extend(rare(least, &self.reader, expected::reader()));
        lines.extend(rare(least, &self.ways, expected::WAYS));
        lines.extend(rare(least, &self.refusals, expected::REFUSALS));
        lines.extend(rare(least, &self.codes(), expected::codes()));
        lines.extend(rare(least, &self.entries, expected::entries()));
        lines.extend(rare(least, &self.features, expected::FEATURES));
        lines
    }
}

/// The fields up to the first that cannot be read.
fn fields(mut octets: &[u8]) -> impl Iterator<Item = Field<'_>> {
    std::iter::from_fn(move || Field::take(&mut octets).ok())
}

/// Whether an edition 2 is given, by a field that may not be the last.
fn has_edition_2(description: &[u8]) -> bool {
    fields(description).any(|field| matches!(field, Field::Edition(2)))
}

/// Whether an accepted campus has switches of both editions.
fn is_mixed(description: &[u8]) -> bool {
    let mut editions = Vec::new();
    for field in fields(description) {
        match (field, editions.last_mut()) {
            (Field::Switch(_), _) => editions.push(1),
            (Field::Edition(edition), Some(last)) => *last = edition,
            _ => {}
        }
    }
    editions.contains(&1) && editions.contains(&2)
}

/// Whether good settings have a record for the destination.
fn has_record(settings: &[u8], destination: u16) -> bool {
    let mut records = fields(settings).filter_map(|field| match field {
        Field::Record(record) => Some(record.destination),
        _ => None,
    });
    records.any(|known| known == destination)
}

fn rare<K: Ord + Copy + fmt::Debug>(
    least: u64,
    hits: &BTreeMap<K, u64>,
    expected: impl IntoIterator<Item = K>,
) -> Vec<String> {
    let mut left = hits.clone();
    let mut lines = Vec::new();
    for key in expected {
        let hits = left.remove(&key).unwrap_or_default();
        if hits < least {
            lines.push(format!("{key:?} is met {hits} times"));
        }
    }
    lines.extend(left.keys().map(|key| format!("{key:?} is not expected")));
    lines
}

impl fmt::Display for Hits {
    fn fmt(&self, f: &mut fmt::Formatter) -> fmt::Result {
        writeln!(f, "answers of one handling")?;
        for (number, total) in self.numbers() {
            writeln!(f, "  {number:>2} {total:>9}")?;
            let causes = self.handle.iter();
            for (cause, hits) in causes.filter(|(cause, _)| cause.number() == number) {
                writeln!(f, "     {hits:>9}  {cause:?}")?;
            }
        }
        writeln!(f, "places of an option at fault")?;
        for (place, hits) in &self.places {
            writeln!(f, "  {place:>3} {hits:>8}")?;
        }
        writeln!(f, "answers of counted calls")?;
        for (number, hits) in &self.counted {
            writeln!(f, "  {number:>2} {hits:>9}")?;
        }
        writeln!(f, "answers of a reader")?;
        for (hit, hits) in &self.reader {
            writeln!(f, "     {hits:>9}  {hit:?}")?;
        }
        writeln!(f, "answers of the way out")?;
        for (number, hits) in &self.ways {
            writeln!(f, "  {number:>2} {hits:>9}")?;
        }
        writeln!(f, "codes of a campus")?;
        for (code, total) in self.codes() {
            writeln!(f, "  {code:>2} {total:>9}")?;
            let faults = self.refusals.iter();
            for (fault, hits) in faults.filter(|(fault, _)| fault.code() == code) {
                writeln!(f, "     {hits:>9}  {fault:?}")?;
            }
        }
        writeln!(f, "answers within runs")?;
        for (&(number, reply), hits) in &self.entries {
            let kind = if reply { 'R' } else { 'O' };
            writeln!(f, "  {number:>2} {kind} {hits:>9}")?;
        }
        writeln!(f, "features")?;
        for (feature, hits) in &self.features {
            writeln!(f, "  {hits:>9}  {feature:?}")?;
        }
        Ok(())
    }
}
