//! Frames: each kind of answer aimed at from a valid draft.

use super::areas;
use super::flags;
use super::rng::{Mac, Rng};

const ALL_EGRESS_RBRIDGES: Mac = [0x01, 0x80, 0xC2, 0x00, 0x00, 0x42];
const ANY_RBRIDGE: u16 = 0xFFC0;
const SL: u16 = 0x8000;
const NA: u16 = 0x2000;

/// The switches a frame is made for.
pub(super) struct Site {
    /// MAC of the switch that receives the frame.
    pub mac: Mac,
    /// Edition for which areas are made, 1 or 2.
    pub edition: u8,
    /// Nickname of the switch that is to be the egress.
    pub egress: u16,
    /// Nicknames with a next hop.
    pub live: Vec<u16>,
    /// Withdrawn nicknames.
    pub dead: Vec<u16>,
}

impl Site {
    /// A nickname with a next hop, if there is one.
    fn reachable(&self, rng: &mut Rng) -> u16 {
        if self.live.is_empty() {
            return rng.nickname();
        }
        rng.pick(&self.live)
    }

    /// A nickname that probably has no next hop.
    fn unreachable(&self, rng: &mut Rng) -> u16 {
        if self.dead.is_empty() || rng.one_in(3) {
            return rng.nickname();
        }
        rng.pick(&self.dead)
    }

    /// An area that is well formed and not critical.
    fn carried(&self, rng: &mut Rng) -> Vec<u8> {
        match self.edition {
            1 => areas::carried(rng),
            _ => flags::carried(rng),
        }
    }

    fn ingress(&self, rng: &mut Rng) -> u16 {
        match rng.below(7) {
            0 => self.egress,
            1 => self.unreachable(rng),
            _ => self.reachable(rng),
        }
    }
}

/// A frame by its fields.
pub(super) struct Draft {
    destination: Mac,
    source: Mac,
    tag: Option<u16>,
    ethertype: u16,
    version: u16,
    reserved: u16,
    multi: u16,
    op_length: u16,
    pub hops: u16,
    pub egress: u16,
    pub ingress: u16,
    area: Vec<u8>,
    inner: Vec<u8>,
}

impl Draft {
    /// A valid header for the site's egress, with an area that is carried and
    /// this inner frame.
    pub(super) fn new(rng: &mut Rng, site: &Site, inner: Vec<u8>) -> Self {
        let any_rbridge = rng.one_in(8);
        Draft {
            destination: site.mac,
            source: rng.mac(),
            tag: rng.one_in(4).then(|| rng.word()),
            ethertype: 0x22F3,
            version: 0,
            reserved: rng.pick(&[0, 0, 0, 1, 2, 3]),
            multi: 0,
            op_length: 0,
            hops: hops(rng),
            egress: if any_rbridge {
                ANY_RBRIDGE
            } else {
                site.egress
            },
            ingress: site.ingress(rng),
            area: Vec::new(),
            inner,
        }
        .with_area(site.carried(rng))
    }

    pub(super) fn with_area(mut self, area: Vec<u8>) -> Self {
        // An area one word too long for Op-Length 31 makes it 0.
        self.op_length = (area.len() / 4) as u16 & 0x1F;
        self.area = area;
        self
    }

    pub(super) fn octets(&self) -> Vec<u8> {
        let word = self.version << 14
            | self.reserved << 12
            | self.multi << 11
            | self.op_length << 6
            | self.hops;
        let mut octets = [self.destination, self.source].concat();
        if let Some(tag) = self.tag {
            octets.extend([0x81, 0x00]);
            octets.extend(tag.to_be_bytes());
        }
        for value in [self.ethertype, word, self.egress, self.ingress] {
            octets.extend(value.to_be_bytes());
        }
        octets.extend(&self.area);
        octets.extend(&self.inner);
        octets
    }
}

fn hops(rng: &mut Rng) -> u16 {
    match rng.below(4) {
        0 => rng.pick(&[1, 2, 62, 63]),
        _ => 1 + rng.below(63) as u16,
    }
}

/// A frame for the site; one in nine is then mutated.
pub(super) fn frame(rng: &mut Rng, site: &Site) -> Vec<u8> {
    let mut octets = if site.edition == 1 {
        frame_of_edition_1(rng, site)
    } else {
        frame_of_edition_2(rng, site)
    };
    match rng.below(36) {
        0 => resize(rng, &mut octets),
        1 => append(rng, &mut octets),
        2 | 3 => mutate(rng, &mut octets),
        _ => {}
    }
    octets
}

fn frame_of_edition_1(rng: &mut Rng, site: &Site) -> Vec<u8> {
    match rng.below(100) {
        0..3 => random(rng, site),
        3..14 => header_fault(rng, site),
        14..20 => long_transit(rng, site),
        20..42 => option_fault(rng, site),
        42..62 => transit(rng, site),
        62..69 => inner_fault(rng, site),
        69..74 => delivered(rng, site),
        _ => {
            let message = message(rng);
            Draft::new(rng, site, message).octets()
        }
    }
}

/// Mostly what differs from edition 1; at times with an area of that edition.
fn frame_of_edition_2(rng: &mut Rng, site: &Site) -> Vec<u8> {
    match rng.below(100) {
        0..2 => random(rng, site),
        2..6 => header_fault(rng, site),
        6..8 => long_transit(rng, site),
        8..22 => flag_fault(rng, site),
        22..82 => alerted_transit(rng, site),
        82..84 => transit(rng, site),
        84..88 => inner_fault(rng, site),
        88..92 => delivered(rng, site),
        _ => {
            let message = message(rng);
            Draft::new(rng, site, message).octets()
        }
    }
}

/// Random octets, mostly after a valid link header and first word.
fn random(rng: &mut Rng, site: &Site) -> Vec<u8> {
    let size = rng.below(120);
    let rest = rng.octets(size);
    if rng.one_in(4) {
        return rest;
    }
    let hops_and_area = (rng.word() & 0x00FF).to_be_bytes();
    let link = [&site.mac[..], &rng.mac(), &[0x22, 0xF3], &hops_and_area];
    [&link.concat()[..], &rest].concat()
}

/// Changes one to three octets, most of them near the start.
pub(super) fn mutate(rng: &mut Rng, octets: &mut [u8]) {
    if octets.is_empty() {
        return;
    }
    for _ in 0..1 + rng.below(3) {
        let most = if rng.one_in(2) { 64 } else { octets.len() };
        let place = rng.below(most.min(octets.len()));
        octets[place] = match rng.below(3) {
            0 => rng.octet(),
            1 => octets[place] ^ 1 << rng.below(8),
            _ => rng.pick(&[0, 1, 0x7F, 0x80, 0xFF]),
        };
    }
}

/// Truncates, or stretches to a size near a limit.
fn resize(rng: &mut Rng, octets: &mut Vec<u8>) {
    let size = match rng.below(4) {
        0 => rng.pick(&[13, 14, 17, 18, 19, 20, 23, 24]),
        1 => rng.pick(&[2047, 2048, 2049, 2050]),
        2 => 510 + rng.below(80),
        _ => rng.below(octets.len() + 1),
    };
    octets.resize(size, 0);
}

fn append(rng: &mut Rng, octets: &mut Vec<u8>) {
    let size = match rng.below(3) {
        0 => 2049_usize.saturating_sub(octets.len()),
        _ => 1 + rng.below(40),
    };
    octets.extend(rng.octets(size));
}

/// Answers 3 and 10 to 18, and the good side of their boundaries.
fn header_fault(rng: &mut Rng, site: &Site) -> Vec<u8> {
    let inner = any_inner(rng);
    let mut draft = Draft::new(rng, site, inner);
    match rng.below(13) {
        0 => return cut_header(rng, draft),
        1 => draft.ethertype = rng.pick(&[0x0800, 0x22F2, 0x22F4, 0x8100, 0x88A8, 0x8946, 0xF322]),
        2 => draft.destination[rng.below(6)] ^= 1 << rng.below(8),
        3 => draft.destination = rng.pick(&[ALL_EGRESS_RBRIDGES, [0xFF; 6], [0; 6]]),
        4 => draft.version = 1 + rng.below(3) as u16,
        5 => draft.multi = 1,
        6 => draft.ingress = rng.bad_nickname(),
        7 => draft.egress = rng.bad_egress(),
        8 => draft.hops = 0,
        9 | 10 => return area_past(rng, draft),
        11 => {
            let size = rng.pick(&[2047, 2048, 2049, 2049, 2100]);
            let missing = size - draft.octets().len().min(size);
            draft.inner.extend(rng.octets(missing));
        }
        _ => {
            draft.ingress = rng.pick(&[1, 0xFFBF]);
            draft.egress = rng.pick(&[1, 0xFFBF, 0xFFC0]);
        }
    }
    draft.octets()
}

/// Cut at or near an end of the link header or of the TRILL header.
fn cut_header(rng: &mut Rng, mut draft: Draft) -> Vec<u8> {
    if rng.one_in(2) {
        draft.tag = Some(rng.word());
    }
    let mut octets = draft.octets();
    let size = match rng.below(3) {
        0 => rng.pick(&[0, 1, 6, 12, 13, 14, 15, 16, 17, 18, 19, 20, 23, 24]),
        1 => 12 + rng.below(6),
        _ => 14 + rng.below(12),
    };
    octets.truncate(size);
    octets
}

/// The area ends at, or one octet or more past, the end of the frame.
fn area_past(rng: &mut Rng, draft: Draft) -> Vec<u8> {
    let words = 1 + rng.below(31);
    let area = rng.octets(4 * words);
    let mut draft = draft.with_area(area);
    let size = draft.octets().len() - draft.inner.len();
    draft.area[0] &= 0x3F;
    let mut octets = draft.octets();
    octets.truncate(size - rng.pick(&[0, 1, 1, 2, 4, 4 * words]));
    octets
}

/// Answers 20 and 30 to 35 at the egress and in transit.
fn option_fault(rng: &mut Rng, site: &Site) -> Vec<u8> {
    let inner = any_inner(rng);
    let mut draft = Draft::new(rng, site, inner);
    if rng.one_in(2) {
        draft.egress = site.reachable(rng);
    }
    let area = match rng.below(8) {
        0..5 => areas::ill_formed(rng),
        5 => areas::critical(rng),
        6 => areas::longest(rng),
        _ => {
            let words = rng.below(32);
            rng.octets(4 * words)
        }
    };
    draft.with_area(area).octets()
}

/// Answers 20 and 38 at the egress and in transit, and areas of edition 1.
fn flag_fault(rng: &mut Rng, site: &Site) -> Vec<u8> {
    let inner = any_inner(rng);
    let mut draft = Draft::new(rng, site, inner);
    if rng.one_in(2) {
        draft.egress = site.reachable(rng);
    }
    let area = match rng.below(8) {
        0..4 => flags::faulty(rng),
        4..7 => flags::critical(rng),
        _ => areas::carried(rng),
    };
    draft.with_area(area).octets()
}

/// An alert in transit: mostly a message, now and then one that cannot be read.
fn alerted_transit(rng: &mut Rng, site: &Site) -> Vec<u8> {
    let inner = match rng.below(16) {
        0 => unreadable(rng),
        1 => any_inner(rng),
        2..6 => echo(rng),
        6 => echo_request_of(rng, 530),
        _ => fault_message(rng),
    };
    let mut draft = Draft::new(rng, site, inner);
    draft.egress = match rng.below(12) {
        0 => site.unreachable(rng),
        _ => site.reachable(rng),
    };
    draft.ingress = match rng.below(4) {
        0 => site.egress,
        1 => site.unreachable(rng),
        _ => site.reachable(rng),
    };
    draft.with_area(flags::alerted(rng)).octets()
}

/// Answers 50 and 21; whatever stands in the inner frame is not read.
fn transit(rng: &mut Rng, site: &Site) -> Vec<u8> {
    let inner = if rng.one_in(8) {
        let size = rng.below(20);
        rng.octets(size)
    } else {
        any_inner(rng)
    };
    let mut draft = Draft::new(rng, site, inner);
    draft.egress = match rng.below(4) {
        0 => site.unreachable(rng),
        _ => site.reachable(rng),
    };
    if rng.one_in(2) {
        draft = draft.with_area(areas::flow_id(rng));
    }
    draft.octets()
}

/// Answers 50 and 29: near the greatest frame, with options that go or without.
fn long_transit(rng: &mut Rng, site: &Site) -> Vec<u8> {
    let inner = any_inner(rng);
    let mut draft = Draft::new(rng, site, inner);
    draft.egress = match rng.below(8) {
        0 => site.unreachable(rng),
        _ => site.reachable(rng),
    };
    if !rng.one_in(3) {
        draft = draft.with_area(areas::flow_id(rng));
    }
    let size = match rng.below(4) {
        0 => 2044,
        1 => 2048,
        _ => 2041 + rng.below(8),
    };
    let (present, inner) = (draft.octets().len(), draft.inner.len());
    let size = (size + inner).saturating_sub(present);
    draft.inner.resize(size, rng.octet());
    draft.octets()
}

fn any_inner(rng: &mut Rng) -> Vec<u8> {
    match rng.below(3) {
        0 => message(rng),
        _ => {
            let (destination, size) = (rng.mac(), payload(rng, 100));
            let rest = rng.octets(size);
            let (vlan, ethertype) = (vlan(rng), rng.word());
            inner(rng, destination, vlan, ethertype, &rest)
        }
    }
}

/// Mostly fewer octets than `few`, sometimes as many as a long frame has.
fn payload(rng: &mut Rng, few: usize) -> usize {
    let most = if rng.one_in(8) { 1700 } else { few };
    rng.below(most)
}

/// A tag's two octets with a VLAN that is taken, often at an end.
fn vlan(rng: &mut Rng) -> u16 {
    let priority = rng.word() & 0xF000;
    let id = match rng.below(4) {
        0 => rng.pick(&[1, 2, 4093, 4094]),
        _ => 1 + rng.below(4094) as u16,
    };
    priority | id
}

fn inner(rng: &mut Rng, destination: Mac, vlan: u16, ethertype: u16, rest: &[u8]) -> Vec<u8> {
    let mut octets = [destination, rng.mac()].concat();
    for value in [0x8100, vlan, ethertype] {
        octets.extend(value.to_be_bytes());
    }
    octets.extend(rest);
    octets
}

/// Answers 22, 23 and 24.
fn inner_fault(rng: &mut Rng, site: &Site) -> Vec<u8> {
    if !rng.one_in(5) {
        let inner = unreadable(rng);
        return Draft::new(rng, site, inner).octets();
    }
    let mut inner = any_inner(rng);
    inner[rng.below(6)] ^= 1 << rng.below(8);
    let mut draft = Draft::new(rng, site, inner);
    draft.egress = ANY_RBRIDGE;
    draft.octets()
}

/// An inner frame that is cut or whose tag is bad.
fn unreadable(rng: &mut Rng) -> Vec<u8> {
    let mut inner = any_inner(rng);
    match rng.below(4) {
        0 => inner.truncate(rng.pick(&[0, 1, 12, 14, 16, 17, 17, 18])),
        1 => inner[12] = rng.octet(),
        2 => inner[13] = rng.pick(&[0x01, 0x80, 0xFF]),
        _ => {
            let vlan = rng.pick(&[0, 0xFFF]) | rng.word() & 0xF000;
            inner[14..16].copy_from_slice(&vlan.to_be_bytes());
        }
    }
    inner
}

/// Answers 51 and 52.
fn delivered(rng: &mut Rng, site: &Site) -> Vec<u8> {
    let handed_up = rng.one_in(2);
    let (destination, ethertype) = if handed_up {
        (ALL_EGRESS_RBRIDGES, 0x22F4)
    } else {
        (rng.mac(), rng.pick(&[0x22F4, 0x8946, 0x0800]))
    };
    let size = payload(rng, 60);
    let rest = rng.octets(size);
    let vlan = vlan(rng);
    let inner = inner(rng, destination, vlan, ethertype, &rest);
    let mut draft = Draft::new(rng, site, inner);
    if !handed_up {
        draft.egress = site.egress;
    }
    draft.octets()
}

/// A message to All-Egress-RBridges: faults, errors and echoes.
fn message(rng: &mut Rng) -> Vec<u8> {
    match rng.below(16) {
        0..10 => fault_message(rng),
        _ => echo(rng),
    }
}

/// A fault, an error, or ERR where it may not be.
fn fault_message(rng: &mut Rng) -> Vec<u8> {
    match rng.below(12) {
        0 | 1 => {
            let size = rng.below(4);
            let rest = rng.octets(size);
            to_all_egress(rng, 0x8946, &rest)
        }
        2 => {
            let ethertype = rng.pick(&[0x0800, 0x22F3, 0x22F5, 0x8100, 0x8945, 0x8947]);
            let rest = filling(rng);
            to_all_egress(rng, ethertype, &rest)
        }
        3 | 4 => {
            let version = 1 + rng.below(15) as u16;
            let protocol = protocol(rng);
            channel_with_filling(rng, version << 12 | protocol, 0)
        }
        5..8 => {
            let protocol = protocol(rng);
            channel_with_filling(rng, protocol, NA)
        }
        8 | 9 => {
            let protocol = rng.pick(&[0, 2, 4, 0xFF7, 0xFF9, 0xFFF, 0x801]);
            channel_with_filling(rng, protocol, 0)
        }
        10 => channel_with_filling(rng, 0x001, 0),
        _ => {
            let err = 1 + rng.below(15) as u16;
            channel_with_filling(rng, 0xFF8, err)
        }
    }
}

fn to_all_egress(rng: &mut Rng, ethertype: u16, rest: &[u8]) -> Vec<u8> {
    let vlan = vlan(rng);
    inner(rng, ALL_EGRESS_RBRIDGES, vlan, ethertype, rest)
}

fn protocol(rng: &mut Rng) -> u16 {
    match rng.below(6) {
        0 => rng.word() & 0xFFF,
        _ => rng.pick(&[0x001, 0xFF8, 0xFF8, 0x004]),
    }
}

/// Octets after a header, often near the end of an error's body.
fn filling(rng: &mut Rng) -> Vec<u8> {
    let size = match rng.below(4) {
        0 => 0,
        1 => 90 + rng.below(16),
        _ => payload(rng, 140),
    };
    rng.octets(size)
}

/// `flags` are set besides MH and reserved flags, sometimes SL and ERR.
fn channel_with_filling(rng: &mut Rng, word: u16, flags: u16) -> Vec<u8> {
    let unread = rng.word() & 0x5FF0;
    let mut flags = flags | rng.pick(&[0, 0x4000, unread]);
    if rng.one_in(5) {
        flags |= SL;
    }
    if rng.one_in(4) {
        flags |= rng.word() & 0xF;
    }
    let body = filling(rng);
    channel(rng, word, flags, &body)
}

fn channel(rng: &mut Rng, word: u16, flags: u16, body: &[u8]) -> Vec<u8> {
    let header = [word.to_be_bytes(), flags.to_be_bytes()].concat();
    to_all_egress(rng, 0x8946, &[&header[..], body].concat())
}

/// Answers 27, 56, 54 and 28.
fn echo(rng: &mut Rng) -> Vec<u8> {
    let size = match rng.below(16) {
        0 => rng.pick(&[0, 1, 12, 16, 17, 17, 17]),
        1 => rng.pick(&[531, 531, 532, 600]),
        2 => rng.pick(&[529, 530, 530]),
        3..6 => 18,
        6 => 19 + rng.below(500),
        _ => 18 + rng.below(30),
    };
    let mut body = rng.octets(size);
    if let Some(first) = body.first_mut() {
        let spid = match rng.below(8) {
            0 => rng.below(16) as u8,
            1 => 4,
            _ => 3,
        };
        *first = spid << 4 | *first & 0x0F;
    }
    if let Some(mode) = body.get_mut(4) {
        *mode = match rng.below(6) {
            0 => rng.pick(&[0, 1, 3, 4, 0x82, 0xFF]),
            _ => 2,
        };
    }
    let unread = rng.word() & !(NA | 0xF);
    let flags = rng.pick(&[0, 0x4000, unread]);
    channel(rng, 0xFF8, flags, &body)
}

/// A short echo request that asks for a reply.
pub(super) fn echo_request(rng: &mut Rng) -> Vec<u8> {
    echo_request_of(rng, 18)
}

/// The same with a body of this size.
fn echo_request_of(rng: &mut Rng, size: usize) -> Vec<u8> {
    let mut body = rng.octets(size);
    body[0] = 0x30;
    body[4] = 2;
    channel(rng, 0xFF8, 0x4000, &body)
}
