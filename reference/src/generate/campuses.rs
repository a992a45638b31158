//! Campuses: topologies, the frame that is put in, and refusals.

use super::faults;
use super::flags;
use super::frames::{self, Draft, Site};
use super::rng::{Mac, Rng};
use super::switches::{self, field, frame_field, switch_field, Record};

const MAX_FILE: usize = 32_768;

/// A campus description in the making.
pub(super) struct Plan {
    switches: Vec<(u16, Mac)>,
    /// Edition of each switch, 1 or 2.
    editions: Vec<u8>,
    /// Records of each switch.
    records: Vec<Vec<Record>>,
    entry: u16,
    frame: Vec<u8>,
}

/// To which switch each one sends frames for a destination.
#[derive(Clone, Copy)]
enum Shape {
    /// Along a line to the destination.
    Line,
    /// To the next switch, the last to the first.
    Ring,
    /// To any switch, itself too.
    Random,
    /// To its partner in a pair.
    Pairs,
    /// To itself.
    Own,
}

impl Shape {
    fn any(rng: &mut Rng) -> Self {
        rng.pick(&[
            Shape::Line,
            Shape::Line,
            Shape::Line,
            Shape::Ring,
            Shape::Random,
            Shape::Pairs,
            Shape::Own,
        ])
    }
}

impl Plan {
    pub(super) fn new(rng: &mut Rng) -> Self {
        match rng.below(20) {
            0 => Self::longest(rng),
            1 => Self::looping(rng),
            2 => Self::waiting(rng),
            _ => Self::mixed(rng),
        }
    }

    /// Whether some switch has edition 2.
    pub(super) fn has_edition_2(&self) -> bool {
        self.editions.contains(&2)
    }

    /// 1 to 16 switches with different nicknames and, mostly, MACs, of edition 1
    /// alone, of edition 2 alone or mixed.
    fn with_switches(rng: &mut Rng, count: usize) -> Self {
        let mut switches: Vec<(u16, Mac)> = Vec::new();
        while switches.len() < count {
            let nickname = rng.nickname();
            if switches.iter().all(|&(other, _)| other != nickname) {
                switches.push((nickname, rng.mac()));
            }
        }
        let mut editions = vec![1; count];
        match rng.below(6) {
            0 => editions.fill(2),
            1 => editions.fill_with(|| 1 + rng.below(2) as u8),
            _ => {}
        }
        Plan {
            records: vec![Vec::new(); count],
            editions,
            entry: switches[0].0,
            switches,
            frame: Vec::new(),
        }
    }

    fn nicknames(&self) -> Vec<u16> {
        self.switches
            .iter()
            .map(|&(nickname, _)| nickname)
            .collect()
    }

    /// A nickname of no switch here.
    fn outsider(&self, rng: &mut Rng) -> u16 {
        loop {
            let nickname = rng.nickname();
            if !self.nicknames().contains(&nickname) {
                return nickname;
            }
        }
    }

    /// Any shape, any frame.
    fn mixed(rng: &mut Rng) -> Self {
        let count = match rng.below(3) {
            0 => 1 + rng.below(16),
            _ => 1 + rng.below(5),
        };
        let mut plan = Self::with_switches(rng, count);
        let mut targets = plan.nicknames();
        rng.shuffle(&mut targets);
        targets.truncate(4);
        targets.push(plan.outsider(rng));
        let common = Shape::any(rng);
        for &target in &targets {
            let shape = if rng.one_in(4) {
                Shape::any(rng)
            } else {
                common
            };
            plan.route(rng, target, shape);
        }
        for records in &mut plan.records {
            rng.shuffle(records);
        }
        let place = rng.below(plan.switches.len());
        let (entry, mac) = plan.switches[place];
        let site = Site {
            mac,
            edition: plan.editions[place],
            egress: rng.pick(&targets[..targets.len() - 1]),
            live: targets,
            dead: vec![plan.outsider(rng)],
        };
        plan.entry = entry;
        plan.frame = frames::frame(rng, &site);
        plan.frame.truncate(2048);
        plan
    }

    /// Place of the switch that is next for `target`.
    fn next_place(&self, rng: &mut Rng, place: usize, target: u16, shape: Shape) -> usize {
        let count = self.switches.len();
        let to = self.nicknames().iter().position(|&other| other == target);
        match shape {
            Shape::Line => match to.unwrap_or(count) {
                to if to > place => (place + 1).min(count - 1),
                to if to < place => place - 1,
                _ => place,
            },
            Shape::Ring => (place + 1) % count,
            Shape::Random => rng.below(count),
            Shape::Pairs => (place ^ 1).min(count - 1),
            Shape::Own => place,
        }
    }

    /// The record of the switch at `place` for `target`.
    fn record(&self, rng: &mut Rng, place: usize, target: u16, shape: Shape) -> Record {
        let next = self.next_place(rng, place, target, shape);
        let (neighbour, mac) = self.switches[next];
        Record {
            destination: target,
            neighbour,
            mac,
            serial: switches::serial(rng),
            vlan: switches::outer_vlan(rng),
        }
    }

    /// Gives each switch a record for `target`, some of them wrong, missing or
    /// withdrawn, and older records.
    fn route(&mut self, rng: &mut Rng, target: u16, shape: Shape) {
        for place in 0..self.switches.len() {
            let mut record = self.record(rng, place, target, shape);
            match rng.below(40) {
                0 => continue,
                1 => record.neighbour = 0,
                2 => record.mac = rng.mac(),
                3 => record.neighbour = self.outsider(rng),
                _ => {}
            }
            let records = &mut self.records[place];
            records.push(record);
            switches::add_older(rng, records, record);
        }
    }

    /// A line on which an echo request goes from end to end, or dies near it,
    /// and whose egress names itself for the ingress.
    fn longest(rng: &mut Rng) -> Self {
        let count = if rng.one_in(3) { 1 + rng.below(16) } else { 16 };
        let mut plan = Self::with_switches(rng, count);
        let ingress = plan.outsider(rng);
        let egress = plan.switches[count - 1].0;
        plan.route_exactly(rng, egress, Shape::Line);
        plan.route_exactly(rng, ingress, Shape::Own);
        let site = Site {
            mac: plan.switches[0].1,
            edition: plan.editions[0],
            egress,
            live: vec![ingress],
            dead: Vec::new(),
        };
        let inner = frames::echo_request(rng);
        let mut draft = Draft::new(rng, &site, inner);
        draft.ingress = ingress;
        draft.egress = egress;
        draft.hops = match rng.below(3) {
            0 => (count - 1 + rng.below(3)) as u16,
            1 => 63,
            _ => draft.hops,
        };
        plan.frame = draft.octets();
        plan
    }

    /// One record for `target` at each switch, as the shape says.
    fn route_exactly(&mut self, rng: &mut Rng, target: u16, shape: Shape) {
        for place in 0..self.switches.len() {
            let record = self.record(rng, place, target, shape);
            self.records[place].push(record);
        }
    }

    /// C10: a frame for an outsider goes round until its hop count is 0.
    fn looping(rng: &mut Rng) -> Self {
        let count = 1 + rng.below(16);
        let mut plan = Self::with_switches(rng, count);
        let target = plan.outsider(rng);
        let shape = rng.pick(&[Shape::Pairs, Shape::Ring, Shape::Random, Shape::Own]);
        plan.route_exactly(rng, target, shape);
        let site = Site {
            mac: plan.switches[0].1,
            edition: plan.editions[0],
            egress: target,
            live: vec![target],
            dead: Vec::new(),
        };
        let inner = frames::echo_request(rng);
        let mut draft = Draft::new(rng, &site, inner);
        draft.egress = target;
        plan.frame = draft.octets();
        plan
    }

    /// An echo request with an alert: each switch of edition 2 on its way makes a
    /// reply, and the replies go round or home.
    fn waiting(rng: &mut Rng) -> Self {
        let count = match rng.below(4) {
            0 => 1 + rng.below(16),
            _ => 1 + rng.below(4),
        };
        let mut plan = Self::with_switches(rng, count);
        let mixed = rng.one_in(3);
        plan.editions
            .fill_with(|| if mixed { 1 + rng.below(2) as u8 } else { 2 });
        // An outsider is never reached, as egress or as ingress.
        let [egress, ingress] = [(); 2].map(|()| {
            if rng.one_in(3) {
                rng.pick(&plan.switches).0
            } else {
                plan.outsider(rng)
            }
        });
        let onward = rng.pick(&[Shape::Line, Shape::Pairs, Shape::Ring, Shape::Own]);
        let back = rng.pick(&[Shape::Line, Shape::Ring, Shape::Own]);
        plan.route_exactly(rng, egress, onward);
        if ingress != egress {
            plan.route_exactly(rng, ingress, back);
        }
        let site = Site {
            mac: plan.switches[0].1,
            edition: 2,
            egress,
            live: vec![ingress],
            dead: Vec::new(),
        };
        let inner = frames::echo_request(rng);
        let mut draft = Draft::new(rng, &site, inner);
        draft.ingress = ingress;
        draft.egress = egress;
        match rng.below(4) {
            0 => draft.hops = 63,
            1 => draft.hops = 1 + rng.below(4) as u16,
            _ => {}
        }
        let area = if mixed || rng.one_in(2) {
            flags::noticed()
        } else {
            flags::alerted(rng)
        };
        plan.frame = draft.with_area(area).octets();
        plan
    }

    /// The fields in file order; tag 5 is the last.
    fn fields(&self, rng: &mut Rng) -> Vec<Vec<u8>> {
        let mut fields = Vec::new();
        for (place, &(nickname, mac)) in self.switches.iter().enumerate() {
            let mut own = vec![switch_field(nickname, mac)];
            own.extend(self.records[place].iter().map(Record::field));
            switches::add_strips(rng, &mut own);
            switches::add_editions(rng, &mut own, self.editions[place]);
            fields.extend(own);
        }
        if !rng.one_in(3) {
            let place = rng.below(fields.len() + 1);
            fields.insert(place, field(4, &rng.octets(6)));
        }
        fields.push(frame_field(self.entry, &self.frame));
        fields
    }

    pub(super) fn description(&self, rng: &mut Rng) -> Vec<u8> {
        let mut fields = self.fields(rng);
        match rng.below(800) {
            0..2 => faults::fill_all_records(rng, &mut fields),
            2..4 => faults::fill_file(&mut fields, MAX_FILE),
            4 => faults::fill_file(&mut fields, MAX_FILE - 1),
            _ => {}
        }
        fields.concat()
    }

    /// A description with one fault, sometimes two.
    pub(super) fn spoiled(&self, rng: &mut Rng) -> Vec<u8> {
        let mut fields = self.fields(rng);
        for _ in 0..if rng.one_in(6) { 2 } else { 1 } {
            faults::spoil(rng, &mut fields);
        }
        if rng.one_in(60) {
            faults::fill_file(&mut fields, MAX_FILE + 1 + rng.below(2));
        }
        let mut octets = fields.concat();
        match rng.below(12) {
            0 => octets.truncate(rng.below(octets.len() + 1)),
            1 => frames::mutate(rng, &mut octets),
            _ => {}
        }
        octets
    }
}
