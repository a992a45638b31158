//! The octets of the cases: frames, the settings of one switch, campuses.

/// The switch that is asked.
const OWN: u16 = 0x0002;
/// Egress of forwarded frames and ingress of the others: the one destination
/// that is looked up.
const FAR: u16 = 0x0400;
const HOPS: u16 = 5;
pub const CLOCK: [u8; 6] = [0, 0, 1, 0, 0, 9];

/// Words of the greatest options area.
const AREA_WORDS: usize = 31;
/// Octets that a stripped area loses.
pub const STRIPPED: usize = (AREA_WORDS - 1) / 2 * 4;
/// Key of the Flow ID option, which stays when an area is stripped.
const FLOW_ID: u16 = 0x083;
/// First of 30 keys that are hop-by-hop, non-critical and not implemented; the
/// odd ones are mutable, so that these options go when an area is stripped.
const UNKNOWN: u16 = 0x084;

/// An area of edition 2: summary bit and critical channel alert.
const CRITICAL_ALERT: [u8; 4] = [0x81, 0, 0, 0];

const ALL_EGRESS_RBRIDGES: [u8; 6] = [0x01, 0x80, 0xC2, 0x00, 0x00, 0x42];
/// An Ethertype that no rule names.
const OTHER: [u8; 2] = [0x08, 0x00];
/// Inner SA, and a tag of VLAN 1.
const INNER: [u8; 10] = [2, 0, 0, 0, 0, 1, 0x81, 0, 0, 1];
/// Channel header with its Ethertype, then the fixed part of a body that asks
/// for an echo, with reply mode 2.
const ECHO: [u8; 24] = [
    0x89, 0x46, 0x0F, 0xF8, 0x40, 0, 0x30, 0, 0, 1, 2, 0, 0, 0, 1, 0, 0, 2, 0, 0, 0, 0, 0, 0,
];
/// Octets before an echo body.
const ECHO_AT: usize = 42;
/// Greatest echo body.
const ECHO_MAX: usize = 530;

/// Where a frame is met, and what its TRILL header says.
struct Way {
    at: u16,
    hops: u16,
    egress: u16,
    ingress: u16,
}

impl Way {
    const TRANSIT: Way = Way {
        at: OWN,
        hops: HOPS,
        egress: FAR,
        ingress: 1,
    };
    const EGRESS: Way = Way {
        at: OWN,
        hops: HOPS,
        egress: OWN,
        ingress: FAR,
    };

    /// Link header, TRILL header and area.
    fn head(&self, area: &[u8]) -> Vec<u8> {
        let word = (area.len() as u16 / 4) << 6 | self.hops;
        let mut frame = [mac(self.at), mac(1)].concat();
        for value in [0x22F3, word, self.egress, self.ingress] {
            frame.extend(value.to_be_bytes());
        }
        frame.extend(area);
        frame
    }

    /// An echo request.
    fn echo(&self, area: &[u8]) -> Vec<u8> {
        let head = self.head(area);
        [&head[..], &ALL_EGRESS_RBRIDGES, &INNER, &ECHO].concat()
    }
}

fn mac(nickname: u16) -> [u8; 6] {
    let [high, low] = nickname.to_be_bytes();
    [2, 0, 0, 0, high, low]
}

/// The frame with octets at its end up to this size.
fn filled(mut frame: Vec<u8>, size: usize) -> Vec<u8> {
    assert!(frame.len() <= size, "{size} octets are too few");
    frame.extend((frame.len()..size).map(|place| place as u8));
    frame
}

/// In transit, without options.
pub fn transit(size: usize) -> Vec<u8> {
    filled(Way::TRANSIT.head(&[]), size)
}

/// In transit with an area of 31 words, of whose 30 options every other goes.
pub fn transit_stripped(size: usize) -> Vec<u8> {
    let mut area = vec![0; 4];
    for key in (UNKNOWN..).take(AREA_WORDS - 1) {
        area.extend((key << 7 | 2).to_be_bytes());
        area.extend([0xAA, 0xBB]);
    }
    filled(Way::TRANSIT.head(&area), size)
}

/// At its egress with an ordinary inner frame.
pub fn ordinary(size: usize) -> Vec<u8> {
    let head = Way::EGRESS.head(&[]);
    filled([&head[..], &mac(3), &INNER, &OTHER].concat(), size)
}

/// At its egress with a channel message of a wrong Ethertype.
pub fn faulty(size: usize) -> Vec<u8> {
    let head = Way::EGRESS.head(&[]);
    let parts = [&head[..], &ALL_EGRESS_RBRIDGES, &INNER, &OTHER];
    filled(parts.concat(), size)
}

/// No TRILL frame.
pub fn foreign(size: usize) -> Vec<u8> {
    let mut frame = ordinary(size);
    frame[12..14].copy_from_slice(&OTHER);
    frame
}

/// An echo request at its egress. What is over the greatest body, up to 124
/// octets, is an options area.
pub fn echo(size: usize) -> Vec<u8> {
    let over = size.saturating_sub(ECHO_AT + ECHO_MAX);
    filled(Way::EGRESS.echo(&flow_area(over.div_ceil(4))), size)
}

/// An echo request in transit with the critical alert.
pub fn alerted(size: usize) -> Vec<u8> {
    let way = Way {
        ingress: FAR,
        ..Way::TRANSIT
    };
    filled(way.echo(&CRITICAL_ALERT), size)
}

/// An area of this many words with one Flow ID option.
fn flow_area(words: usize) -> Vec<u8> {
    let mut area = vec![0; 4 * words];
    if words > 1 {
        let length = 4 * (words as u16 - 1) - 2;
        area[4..6].copy_from_slice(&(FLOW_ID << 7 | length).to_be_bytes());
    }
    area
}

/// How the destinations and serials of records lie. Both programs look for
/// equal ones with a table of hashes, so this counts.
#[derive(Clone, Copy)]
pub enum Layout {
    /// In no order.
    Scattered,
    /// Both go up by one.
    Rising,
    /// One destination, serials that go up by 256.
    Crowded,
    /// In no order, each record with an outer VLAN.
    Tagged,
}

/// What the switch is beside its records.
#[derive(Clone, Copy)]
pub enum Own {
    Plain,
    /// With the strip flag.
    Stripping,
    /// Of edition 2.
    Edition2,
}

/// Settings with this many records; the last one rules for [`FAR`].
pub fn settings(records: usize, layout: Layout, own: Own) -> Vec<u8> {
    let mut fields = switch(OWN);
    for place in 1..=records {
        let (destination, serial) = match layout {
            Layout::Scattered | Layout::Tagged => scattered(records - place),
            Layout::Rising => (FAR - (records - place) as u16, place as u32),
            Layout::Crowded => (FAR, (place as u32) << 8),
        };
        let vlan: &[u8] = match layout {
            Layout::Tagged => &[0, 5],
            _ => &[],
        };
        fields.extend(record_with(destination, destination, serial, vlan));
    }
    fields.extend(match own {
        Own::Plain => field(3, &[0]),
        Own::Stripping => field(3, &[1]),
        Own::Edition2 => field(6, &[2]),
    });
    fields
}

/// A destination and a serial: [`FAR`] for 0, any greater nickname for others.
fn scattered(index: usize) -> (u16, u32) {
    let word = (index as u64).wrapping_mul(0x9E37_79B9_7F4A_7C15);
    let word = (word ^ word >> 29).wrapping_mul(0xBF58_476D_1CE4_E5B9);
    let above = (word >> 48) as u16 % 0xF000;
    let destination = if index == 0 { FAR } else { FAR + 1 + above };
    (destination, word as u32)
}

/// One field: tag, length, value.
fn field(tag: u8, value: &[u8]) -> Vec<u8> {
    let length = (value.len() as u16).to_be_bytes();
    [&[tag], &length[..], value].concat()
}

fn switch(nickname: u16) -> Vec<u8> {
    let value = [&nickname.to_be_bytes()[..], &mac(nickname)];
    field(1, &value.concat())
}

fn record(destination: u16, neighbour: u16, serial: u32) -> Vec<u8> {
    record_with(destination, neighbour, serial, &[])
}

/// A record with the octets of its VLAN, or with none.
fn record_with(destination: u16, neighbour: u16, serial: u32, vlan: &[u8]) -> Vec<u8> {
    let value = [
        &destination.to_be_bytes()[..],
        &neighbour.to_be_bytes(),
        &mac(neighbour),
        &serial.to_be_bytes(),
        vlan,
    ];
    field(2, &value.concat())
}

/// A campus, the frame put in, and the description that holds both.
pub struct Campus {
    pub records: usize,
    pub frame: Vec<u8>,
    pub description: Vec<u8>,
}

impl Campus {
    /// From a description's fields before clock and frame, one in each slice.
    fn new(fields: &[Vec<u8>], at: u16, frame: Vec<u8>) -> Self {
        let entry = [&at.to_be_bytes()[..], &frame].concat();
        let last = [field(4, &CLOCK), field(5, &entry)];
        Campus {
            records: fields.iter().filter(|field| field[0] == 2).count(),
            frame,
            description: [fields, &last].concat().concat(),
        }
    }

    /// C1 of document 01: an echo over three switches, and its reply.
    pub fn c1() -> Self {
        let fields = [
            switch(1),
            record(3, 2, 1),
            switch(2),
            record(3, 3, 1),
            record(1, 1, 1),
            switch(3),
            record(1, 2, 1),
        ];
        let way = Way {
            at: 2,
            hops: 5,
            egress: 3,
            ingress: 1,
        };
        Campus::new(&fields, way.at, way.echo(&[]))
    }

    /// C11 of document 01: an echo reply that goes round at one switch.
    pub fn c11() -> Self {
        let way = Way {
            at: 2,
            hops: 1,
            egress: 2,
            ingress: 9,
        };
        let fields = [switch(2), record(9, 2, 1)];
        Campus::new(&fields, way.at, way.echo(&[]))
    }

    /// An echo request with an alert that goes round at one switch of edition 2,
    /// and so do the 63 replies: the longest run of that edition.
    pub fn waiting() -> Self {
        let way = Way {
            at: 2,
            hops: 63,
            egress: 9,
            ingress: 8,
        };
        let fields = [switch(2), field(6, &[2]), record(9, 2, 1), record(8, 2, 1)];
        Campus::new(&fields, way.at, way.echo(&CRITICAL_ALERT))
    }

    /// An echo request along 16 switches, the last of which names itself for
    /// the ingress: the longest run of edition 1.
    pub fn longest(size: usize) -> Self {
        let last = 16;
        let way = Way {
            at: 1,
            hops: 63,
            egress: last,
            ingress: FAR,
        };
        let line = (1..last).flat_map(|at| [switch(at), record(last, at + 1, 1)]);
        let end = [switch(last), record(FAR, last, 1)];
        let fields: Vec<_> = line.chain(end).collect();
        Campus::new(&fields, way.at, filled(way.echo(&[]), size))
    }
}
