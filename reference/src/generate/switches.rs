//! Settings of one switch, good and bad.

use super::rng::{Mac, Rng};

pub(super) fn field(tag: u8, value: &[u8]) -> Vec<u8> {
    let length = (value.len() as u16).to_be_bytes();
    [&[tag], &length[..], value].concat()
}

pub(super) fn switch_field(nickname: u16, mac: Mac) -> Vec<u8> {
    field(1, &[&nickname.to_be_bytes()[..], &mac].concat())
}

pub(super) fn frame_field(entry: u16, frame: &[u8]) -> Vec<u8> {
    field(5, &[&entry.to_be_bytes()[..], frame].concat())
}

#[derive(Clone, Copy)]
pub(super) struct Record {
    pub destination: u16,
    /// 0 is a withdrawal.
    pub neighbour: u16,
    pub mac: Mac,
    pub serial: u32,
    /// The VLAN of a field of length 16.
    pub vlan: Option<u16>,
}

impl Record {
    pub(super) fn field(&self) -> Vec<u8> {
        let vlan = self.vlan.map(u16::to_be_bytes);
        let value = [
            &self.destination.to_be_bytes()[..],
            &self.neighbour.to_be_bytes(),
            &self.mac,
            &self.serial.to_be_bytes(),
            vlan.as_ref().map_or(&[], |vlan| &vlan[..]),
        ];
        field(2, &value.concat())
    }

    /// Any valid record.
    pub(super) fn any(rng: &mut Rng) -> Self {
        Record {
            destination: rng.nickname(),
            neighbour: if rng.one_in(4) { 0 } else { rng.nickname() },
            mac: rng.mac(),
            serial: serial(rng),
            vlan: outer_vlan(rng),
        }
    }
}

/// Not given, given as none, or a VLAN, often at an end of the range.
pub(super) fn outer_vlan(rng: &mut Rng) -> Option<u16> {
    match rng.below(8) {
        0..3 => None,
        3 => Some(0),
        4 => Some(rng.pick(&[1, 1, 2, 4093, 4094, 4094])),
        _ => Some(1 + rng.below(4094) as u16),
    }
}

/// Above 4,094, in the priority bits too.
fn bad_vlan(rng: &mut Rng) -> u16 {
    match rng.below(4) {
        0 => rng.word() | 0x1000,
        _ => rng.pick(&[4095, 4096, 0x2005, 0x8000, 0xFFFF]),
    }
}

pub(super) fn serial(rng: &mut Rng) -> u32 {
    match rng.below(3) {
        0 => rng.below(4) as u32,
        1 => rng.pick(&[0, 7, 8, 0x7FFF_FFFF, 0x8000_0000, u32::MAX - 1, u32::MAX]),
        _ => rng.next() as u32,
    }
}

/// Adds older records of the ruling record's destination, live and withdrawn.
pub(super) fn add_older(rng: &mut Rng, records: &mut Vec<Record>, ruling: Record) {
    let mut serial = ruling.serial;
    for _ in 0..rng.below(4) {
        if serial == 0 || records.len() >= 64 {
            return;
        }
        serial = match rng.below(2) {
            0 => serial - 1,
            _ => rng.below(serial as usize) as u32,
        };
        records.push(Record {
            destination: ruling.destination,
            serial,
            ..Record::any(rng)
        });
    }
}

/// A switch of its own for the handling call.
pub(super) struct Settings {
    pub nickname: u16,
    pub mac: Mac,
    /// 1 or 2.
    pub edition: u8,
    records: Vec<Record>,
    /// Destinations other than the switch with a live ruling record.
    pub live: Vec<u16>,
    /// Withdrawn destinations.
    pub dead: Vec<u16>,
}

impl Settings {
    pub(super) fn new(rng: &mut Rng) -> Self {
        let mut settings = Settings {
            nickname: rng.nickname(),
            mac: rng.mac(),
            edition: if rng.below(5) < 2 { 2 } else { 1 },
            records: Vec::new(),
            live: Vec::new(),
            dead: Vec::new(),
        };
        let count = match rng.below(12) {
            0 => 0,
            1 => rng.pick(&[62, 63, 64]),
            2 => rng.below(65),
            _ => 1 + rng.below(8),
        };
        while settings.records.len() < count {
            settings.add_destination(rng);
        }
        rng.shuffle(&mut settings.records);
        settings
    }

    /// A new destination: its ruling record and perhaps older ones.
    fn add_destination(&mut self, rng: &mut Rng) {
        let mut ruling = Record::any(rng);
        let known = |record: &Record| record.destination == ruling.destination;
        if self.records.iter().any(known) {
            return;
        }
        if ruling.neighbour != 0 && rng.one_in(8) {
            ruling.neighbour = self.nickname;
        }
        match ruling.neighbour {
            _ if ruling.destination == self.nickname => {}
            0 => self.dead.push(ruling.destination),
            _ => self.live.push(ruling.destination),
        }
        self.records.push(ruling);
        add_older(rng, &mut self.records, ruling);
    }

    /// A record for the own nickname, if there is room for it.
    pub(super) fn add_own(&mut self, rng: &mut Rng) {
        let destination = self.nickname;
        let known = |record: &Record| record.destination == destination;
        if self.records.len() < 64 && !self.records.iter().any(known) {
            let place = rng.below(self.records.len() + 1);
            let record = Record {
                destination,
                ..Record::any(rng)
            };
            self.records.insert(place, record);
        }
    }

    /// A destination with a next hop, withdrawn, the switch itself, any other
    /// or none.
    pub(super) fn destination(&self, rng: &mut Rng) -> u16 {
        let known = match rng.below(8) {
            0 => return rng.nickname(),
            1 => return rng.bad_nickname(),
            2 | 3 => return self.nickname,
            4 => &self.dead,
            _ => &self.live,
        };
        if known.is_empty() {
            rng.nickname()
        } else {
            rng.pick(known)
        }
    }

    /// Tag 1, then records, strip flags and editions in any mixture.
    pub(super) fn fields(&self, rng: &mut Rng) -> Vec<Vec<u8>> {
        let mut fields = vec![switch_field(self.nickname, self.mac)];
        fields.extend(self.records.iter().map(Record::field));
        add_strips(rng, &mut fields);
        add_editions(rng, &mut fields, self.edition);
        fields
    }
}

/// Strip flags after the first field; the last one counts.
pub(super) fn add_strips(rng: &mut Rng, fields: &mut Vec<Vec<u8>>) {
    let count = match rng.below(4) {
        0 => 0,
        1 => 1 + rng.below(4),
        _ => 1,
    };
    for _ in 0..count {
        let place = 1 + rng.below(fields.len());
        let flag = u8::from(!rng.one_in(3));
        fields.insert(place, field(3, &[flag]));
    }
}

/// Editions after the first field, or none where it is 1; the last one counts.
pub(super) fn add_editions(rng: &mut Rng, fields: &mut Vec<Vec<u8>>, edition: u8) {
    let count = match rng.below(4) {
        0 => 1 + rng.below(3),
        _ => usize::from(edition == 2),
    };
    for _ in 0..count {
        let place = 1 + rng.below(fields.len());
        fields.insert(place, field(6, &[1 + rng.below(2) as u8]));
    }
    let editions = fields.iter_mut().filter(|field| field[0] == 6);
    if let Some(last) = editions.last() {
        last[3] = edition;
    }
}

/// Makes the settings bad in one way.
pub(super) fn spoil(rng: &mut Rng, fields: &mut Vec<Vec<u8>>) {
    let place = 1 + rng.below(fields.len());
    match rng.below(15) {
        0 => fields.clear(),
        1 => {
            let octets = fields.concat();
            let left = 1 + rng.below(octets.len());
            *fields = vec![octets[..left].to_vec()];
        }
        2 => fields[0] = bad_switch(rng),
        3 => drop(fields.remove(0)),
        4 => fields.swap(0, place - 1),
        5 | 6 => fields.insert(place, bad_record(rng)),
        7 => fields.insert(place, bad_strip(rng)),
        8 => fields.insert(place, switch_field(rng.nickname(), rng.mac())),
        9 => {
            let (tag, length) = rng.pick(&[(4, 6), (5, 2), (5, 40)]);
            fields.insert(place, field(tag, &rng.octets(length)));
        }
        10 => fields.insert(place - 1, wrong_length(rng)),
        11 => fields.insert(place - 1, unknown_tag(rng)),
        12 => add_records(rng, fields, 65),
        13 => fields.insert(place, bad_edition(rng)),
        _ => repeat_serial(rng, fields),
    }
}

/// A nickname or MAC outside the rules.
pub(super) fn bad_switch(rng: &mut Rng) -> Vec<u8> {
    if rng.one_in(2) {
        switch_field(rng.bad_nickname(), rng.mac())
    } else {
        switch_field(rng.nickname(), rng.bad_mac())
    }
}

/// One value outside the rules, in a withdrawal too.
pub(super) fn bad_record(rng: &mut Rng) -> Vec<u8> {
    let mut record = Record::any(rng);
    match rng.below(4) {
        0 => record.destination = rng.bad_nickname(),
        1 => record.neighbour = 0xFFC0 | rng.word(),
        2 => record.mac = rng.bad_mac(),
        _ => record.vlan = Some(bad_vlan(rng)),
    }
    record.field()
}

pub(super) fn bad_strip(rng: &mut Rng) -> Vec<u8> {
    let flag = rng.pick(&[2, 3, 0x80, 0xFF]);
    field(3, &[flag])
}

pub(super) fn bad_edition(rng: &mut Rng) -> Vec<u8> {
    let edition = rng.pick(&[0, 3, 0x12, 0x82, 0xFF]);
    field(6, &[edition])
}

/// A known tag with a length it does not have.
pub(super) fn wrong_length(rng: &mut Rng) -> Vec<u8> {
    let (tag, lengths) = rng.pick(&[
        (1, [0, 7, 9]),
        (2, [13, 15, 17]),
        (3, [0, 2, 3]),
        (4, [0, 5, 7]),
        (5, [0, 1, 2051]),
        (6, [0, 2, 3]),
    ]);
    let length = rng.pick(&lengths);
    field(tag, &rng.octets(length))
}

pub(super) fn unknown_tag(rng: &mut Rng) -> Vec<u8> {
    let tag = rng.pick(&[0, 7, 8, 0x10, 0x80, 0xFF]);
    let length = rng.pick(&[0, 1, 6, 8, 14]);
    field(tag, &rng.octets(length))
}

/// Adds records of new serials until there are `count`.
fn add_records(rng: &mut Rng, fields: &mut Vec<Vec<u8>>, count: usize) {
    let mut present = fields.iter().filter(|field| field[0] == 2).count();
    while present < count {
        let record = Record {
            destination: 0x8000 + present as u16,
            ..Record::any(rng)
        };
        fields.push(record.field());
        present += 1;
    }
}

/// Two records of one destination and serial; the rest equal or not.
fn repeat_serial(rng: &mut Rng, fields: &mut Vec<Vec<u8>>) {
    let first = Record::any(rng);
    let mut second = first;
    if rng.one_in(2) {
        second.neighbour = rng.nickname();
        second.mac = rng.mac();
    }
    // Room for both among 64 records.
    fields.truncate(60);
    for record in [first, second] {
        let place = 1 + rng.below(fields.len());
        fields.insert(place, record.field());
    }
}
