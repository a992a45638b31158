//! Fields of settings and descriptions, the settings rules, next-hop records.

use crate::cause::{Edition, Fault};
use crate::header::{TRILL, VLAN_TAG};
use crate::octets::{put_u16, Mac};

/// Greatest valid nickname of a switch; the least is 1.
const LAST_NICKNAME: u16 = 0xFFBF;
const MAX_RECORDS: usize = 64;
/// Greatest outer VLAN of a record; 0 is none.
const LAST_VLAN: u16 = 4094;
/// Greatest frame, and least output buffer.
pub(crate) const MAX_FRAME: usize = 2048;
/// Greatest reply, an echo reply with a tag, and least second output buffer.
pub(crate) const MAX_REPLY: usize = 576;
const MAC_BITS: u64 = 0xFFFF_FFFF_FFFF;

/// One field: one-byte tag, two-byte length, value.
pub(crate) enum Field<'a> {
    /// Tag 1: nickname, MAC.
    Switch(&'a [u8; 8]),
    /// Tag 2: destination, neighbour, MAC, serial, and an outer VLAN or none.
    Record(Record),
    /// Tag 3: strip flag.
    Strip(u8),
    /// Tag 4: clock.
    Clock(&'a [u8; 6]),
    /// Tag 5: entry switch, frame.
    Frame(u16, &'a [u8]),
    /// Tag 6: edition of the header extension.
    Edition(u8),
}

impl<'a> Field<'a> {
    /// Takes the first field off `rest`: cut short is tested before tag and
    /// length.
    #[inline]
    pub(crate) fn take(rest: &mut &'a [u8]) -> Result<Self, Fault> {
        // Most fields are records. Their lengths are constants here, so that
        // the next field's place need not wait for one to be loaded.
        if let Some((record, after)) = Record::take(rest) {
            *rest = after;
            return Ok(Field::Record(record));
        }
        let [tag, high, low, after @ ..] = *rest else {
            return Err(Fault::HeadCut);
        };
        let length = usize::from(u16::from_be_bytes([*high, *low]));
        let (value, after) = after.split_at_checked(length).ok_or(Fault::ValueCut)?;
        *rest = after;
        Self::known(*tag, value)
    }

    #[inline]
    fn known(tag: u8, value: &'a [u8]) -> Result<Self, Fault> {
        let field = match (tag, value) {
            (1, _) => value.try_into().ok().map(Field::Switch),
            (3, &[flag]) => Some(Field::Strip(flag)),
            (4, _) => value.try_into().ok().map(Field::Clock),
            (5, &[e0, e1, ref frame @ ..]) if frame.len() <= MAX_FRAME => {
                Some(Field::Frame(u16::from_be_bytes([e0, e1]), frame))
            }
            (6, &[edition]) => Some(Field::Edition(edition)),
            (2 | 3 | 5 | 6, _) => None,
            _ => return Err(Fault::UnknownTag),
        };
        field.ok_or(Fault::Length)
    }
}

/// A live next hop, small enough to be passed on in registers.
#[derive(Clone, Copy)]
pub(crate) struct NextHop {
    /// Neighbour above MAC.
    hop: u64,
    /// Outer VLAN, 0 for none.
    vlan: u16,
}

impl NextHop {
    pub(crate) fn neighbour(self) -> u16 {
        (self.hop >> 48) as u16
    }

    fn mac(self) -> Mac {
        let [_, _, mac @ ..] = self.hop.to_be_bytes();
        mac
    }

    /// Octets of the link header written: neighbour MAC, own MAC, a tag if
    /// there is a VLAN, 0x22F3.
    pub(crate) fn link_header(self) -> usize {
        if self.vlan == 0 {
            14
        } else {
            18
        }
    }
}

/// Octets of a tag 2 field without a VLAN.
const RECORD_FIELD: usize = 17;

/// What a switch is, without its records.
#[derive(Clone, Copy)]
pub(crate) struct Own {
    pub nickname: u16,
    pub mac: Mac,
    pub strip: bool,
    pub edition: Edition,
}

impl Own {
    /// Writes the link header of frames to a next hop at the start of `out`
    /// and gives its octets. A tag has zero priority.
    #[inline]
    pub(crate) fn write_link(&self, hop: NextHop, out: &mut [u8]) -> usize {
        out[..6].copy_from_slice(&hop.mac());
        out[6..12].copy_from_slice(&self.mac);
        let length = hop.link_header();
        if hop.vlan != 0 {
            put_u16(out, 12, VLAN_TAG);
            put_u16(out, 14, hop.vlan);
        }
        put_u16(out, length - 2, TRILL);
        length
    }
}

/// A switch that can handle frames.
pub(crate) trait Station {
    fn own(&self) -> &Own;

    /// The record with the greatest serial rules, a withdrawal included.
    fn next_hop(&self, destination: u16) -> Option<NextHop>;
}

/// Settings of one switch, tested. Its records stay where they were read: a
/// handling asks for one destination, and copying all costs more than that.
#[derive(Clone, Copy)]
pub(crate) struct Switch<'a> {
    own: Own,
    /// Number of records.
    count: usize,
    /// The octets after its tag 1 field, its records among them.
    fields: &'a [u8],
}

impl<'a> Switch<'a> {
    pub(crate) const EMPTY: Switch<'static> = Switch {
        own: Own {
            nickname: 0,
            mac: [0; 6],
            strip: false,
            edition: Edition::First,
        },
        count: 0,
        fields: &[],
    };

    /// Fills an empty switch from settings octets: one tag 1 field, then tag 2,
    /// 3 and 6 fields alone.
    #[inline]
    pub(crate) fn read(&mut self, settings: &'a [u8]) -> Result<(), Fault> {
        let mut rest = settings;
        let Field::Switch(value) = Field::take(&mut rest)? else {
            return Err(Fault::BeforeSwitch);
        };
        self.begin(value, rest)?;
        let mut seen = Seen::default();
        while !rest.is_empty() {
            match Field::take(&mut rest)? {
                Field::Record(record) => self.add_record(record, &mut seen)?,
                Field::Strip(flag) => self.set_strip(flag)?,
                Field::Edition(edition) => self.set_edition(edition)?,
                _ => return Err(Fault::NotSettings),
            }
        }
        Ok(())
    }

    /// Nickname and MAC of an empty switch, and the octets after them.
    #[inline]
    pub(crate) fn begin(&mut self, value: &[u8; 8], fields: &'a [u8]) -> Result<(), Fault> {
        let both = u64::from_be_bytes(*value);
        self.own.nickname = (both >> 48) as u16;
        if !(1..=LAST_NICKNAME).contains(&self.own.nickname) {
            return Err(Fault::OwnNickname);
        }
        if !is_station(both) {
            return Err(Fault::OwnMac);
        }
        self.own.mac.copy_from_slice(&value[2..]);
        self.fields = fields;
        Ok(())
    }

    /// Takes the next record of `fields`. Values are tested first, then the
    /// number of records, then the serial.
    #[inline(always)]
    pub(crate) fn add_record(&mut self, record: Record, seen: &mut Seen) -> Result<(), Fault> {
        if !(1..=LAST_NICKNAME).contains(&record.destination) {
            return Err(Fault::Destination);
        }
        // Neighbour 0 is a withdrawal; the rest is tested all the same.
        if (record.hop >> 48) as u16 > LAST_NICKNAME {
            return Err(Fault::Neighbour);
        }
        if !is_station(record.hop) {
            return Err(Fault::NeighbourMac);
        }
        // All 16 bits count: a priority is no VLAN.
        if record.vlan > LAST_VLAN {
            return Err(Fault::OuterVlan);
        }
        if self.count == MAX_RECORDS {
            return Err(Fault::Records);
        }
        if seen.mark(record.key()) && self.met(record.key()) {
            return Err(Fault::SerialMet);
        }
        self.count += 1;
        Ok(())
    }

    /// The last flag given counts.
    #[inline]
    pub(crate) fn set_strip(&mut self, flag: u8) -> Result<(), Fault> {
        if flag > 1 {
            return Err(Fault::StripFlag);
        }
        self.own.strip = flag == 1;
        Ok(())
    }

    /// The last edition given counts.
    #[inline]
    pub(crate) fn set_edition(&mut self, edition: u8) -> Result<(), Fault> {
        self.own.edition = match edition {
            1 => Edition::First,
            2 => Edition::Second,
            _ => return Err(Fault::Edition),
        };
        Ok(())
    }

    /// The records taken so far, in their order.
    #[inline]
    pub(crate) fn records(&self) -> Records<'a> {
        Records {
            left: self.count,
            rest: self.fields,
        }
    }

    /// Whether a record has this destination and serial.
    #[cold]
    fn met(&self, key: u64) -> bool {
        self.records().any(|record| record.key() == key)
    }
}

impl Station for Switch<'_> {
    #[inline]
    fn own(&self) -> &Own {
        &self.own
    }

    #[inline]
    fn next_hop(&self, destination: u16) -> Option<NextHop> {
        let mut ruling: Option<Record> = None;
        for record in self.records() {
            let newer = ruling.is_none_or(|ruling| ruling.serial < record.serial);
            if record.destination == destination && newer {
                ruling = Some(record);
            }
        }
        ruling?.next_hop()
    }
}

/// Goes over the records among fields that are known to be good.
pub(crate) struct Records<'a> {
    /// Records still to come.
    left: usize,
    rest: &'a [u8],
}

impl Iterator for Records<'_> {
    type Item = Record;

    #[inline]
    fn next(&mut self) -> Option<Record> {
        self.left = self.left.checked_sub(1)?;
        loop {
            if let Some((record, after)) = Record::take(self.rest) {
                self.rest = after;
                return Some(record);
            }
            // A record is still to come, so that there are enough octets.
            self.rest = &self.rest[3 + usize::from(self.rest[2])..];
        }
    }
}

/// A next-hop record.
#[derive(Clone, Copy)]
pub(crate) struct Record {
    pub destination: u16,
    /// Neighbour above MAC.
    hop: u64,
    pub serial: u32,
    /// Outer VLAN, 0 for none.
    vlan: u16,
}

impl Record {
    /// No record: no destination is 0.
    pub(crate) const EMPTY: Record = Record {
        destination: 0,
        hop: 0,
        serial: 0,
        vlan: 0,
    };

    /// The record of a tag 2 field at the start of `rest`, and what is after
    /// it: of length 14 without a VLAN, of length 16 with one.
    #[inline]
    fn take(rest: &[u8]) -> Option<(Self, &[u8])> {
        let (field, after) = rest.split_first_chunk::<RECORD_FIELD>()?;
        let (vlan, after) = match field {
            [2, 0, 14, ..] => (0, after),
            [2, 0, 16, ..] => {
                let (vlan, after) = after.split_first_chunk()?;
                (u16::from_be_bytes(*vlan), after)
            }
            _ => return None,
        };
        let [_, _, _, d0, d1, hop @ .., s0, s1, s2, s3] = *field;
        let record = Record {
            destination: u16::from_be_bytes([d0, d1]),
            hop: u64::from_be_bytes(hop),
            serial: u32::from_be_bytes([s0, s1, s2, s3]),
            vlan,
        };
        Some((record, after))
    }

    /// None if the record is a withdrawal, or empty.
    #[inline]
    pub(crate) fn next_hop(&self) -> Option<NextHop> {
        let hop = NextHop {
            hop: self.hop,
            vlan: self.vlan,
        };
        (hop.neighbour() != 0).then_some(hop)
    }

    /// What no two records of a switch share.
    #[inline]
    fn key(&self) -> u64 {
        u64::from(self.destination) << 32 | u64::from(self.serial)
    }
}

/// Bits of the hashed keys of one switch's records, so that few records have
/// to be looked for among the earlier ones.
#[derive(Default)]
pub(crate) struct Seen([u64; 16]);

impl Seen {
    /// Marks the key with two bits of a word; false if it is certainly new.
    #[inline]
    fn mark(&mut self, key: u64) -> bool {
        let hash = key.wrapping_mul(0x9E37_79B9_7F4A_7C15);
        let bits = 1 << (hash >> 54 & 63) | 1 << (hash >> 48 & 63);
        let word = &mut self.0[(hash >> 60) as usize];
        let maybe = *word & bits == bits;
        *word |= bits;
        maybe
    }
}

/// Individual and not all zero; the MAC is the low 48 bits.
#[inline]
fn is_station(low_mac: u64) -> bool {
    low_mac & MAC_BITS != 0 && low_mac >> 40 & 1 == 0
}
