//! The options area: summary word, then TLV options in order of their keys.

use crate::cause::{Alert, OptionFault};
use crate::octets::u16_at;

/// Places in an option's key: IE 1, NC 1, Type 6, MT 1.
const IE: u16 = 1 << 8;
const NC: u16 = 1 << 7;
const TYPE: u16 = 0x3F << 1;
const MT: u16 = 1;
/// Type 0x01 with IE 0, NC 1, MT 1; of another Length it is no Flow ID.
const FLOW_ID: u16 = NC | 0x01 << 1 | MT;
const FLOW_ID_LENGTH: u16 = 2;
/// Type 0x20 with NC 1, whatever IE and MT are.
const PAD: u16 = NC | 0x20 << 1;
/// First of the reserved Lengths.
const RESERVED_LENGTH: u16 = 119;

/// What a well-formed area says to the handler, in either edition.
#[derive(Default)]
pub(crate) struct Summary {
    /// CHbH; in edition 2 a critical hop-by-hop flag other than the alert.
    pub critical_hop_by_hop: bool,
    /// CItE or CRItE.
    pub critical_to_egress: bool,
    /// Octets of the options that go when the strip flag is set.
    pub removable: usize,
    /// Edition 2 alone.
    pub alert: Option<Alert>,
}

/// Why an area is ill formed, and the place in it of the option at fault: 0 if
/// a summary bit is missing.
pub(crate) struct IllFormed {
    pub fault: OptionFault,
    pub at: usize,
}

/// Head and octets of a TLV option.
struct TlvOption {
    /// The nine high bits.
    key: u16,
    /// Octets of data.
    length: u16,
    /// Two leading octets, data and padding.
    size: usize,
}

impl TlvOption {
    /// The first option in `rest`, a multiple of four octets and not empty.
    #[inline]
    fn first(rest: &[u8]) -> Self {
        let head = u16_at(rest, 0);
        let length = head & 0x7F;
        TlvOption {
            key: head >> 7,
            length,
            size: (usize::from(length) + 2).next_multiple_of(4),
        }
    }

    /// The tests of one option: `left` octets of area begin with it, and
    /// `previous` is the key before.
    #[inline]
    fn test(&self, left: usize, previous: Option<u16>) -> Result<(), OptionFault> {
        if self.length >= RESERVED_LENGTH {
            return Err(OptionFault::ReservedLength);
        }
        if self.size > left {
            return Err(OptionFault::PastArea);
        }
        if Some(self.key) < previous {
            return Err(OptionFault::FallingKey);
        }
        if Some(self.key) == previous {
            return Err(OptionFault::EqualKey);
        }
        Ok(())
    }

    /// Hop-by-hop, non-critical, mutable and not implemented.
    #[inline]
    fn removable(&self) -> bool {
        let flow_id = self.key == FLOW_ID && self.length == FLOW_ID_LENGTH;
        let pad = self.key & (NC | TYPE) == PAD;
        self.key & (IE | NC | MT) == NC | MT && !flow_id && !pad
    }
}

/// Tests that the area is well formed: each option from the first on, then the
/// summary bits. Padding is not tested, and a summary bit may be set with no
/// such TLV.
#[inline]
pub(crate) fn check(area: &[u8]) -> Result<Summary, IllFormed> {
    let Some((&[first, ..], mut rest)) = area.split_first_chunk::<4>() else {
        return Ok(Summary::default());
    };
    let mut summary = Summary {
        critical_hop_by_hop: first & 0x80 != 0,
        critical_to_egress: first & 0x40 != 0,
        ..Summary::default()
    };
    let mut previous = None;
    // Kinds of critical option met.
    let (mut hop_by_hop, mut to_egress) = (false, false);
    while !rest.is_empty() {
        let option = TlvOption::first(rest);
        let at = area.len() - rest.len();
        let tested = option.test(rest.len(), previous);
        tested.map_err(|fault| IllFormed { fault, at })?;
        match option.key & (IE | NC) {
            0 => hop_by_hop = true,
            IE => to_egress = true,
            _ if option.removable() => summary.removable += option.size,
            _ => {}
        }
        previous = Some(option.key);
        rest = &rest[option.size..];
    }
    let missing = |fault| Err(IllFormed { fault, at: 0 });
    if hop_by_hop && !summary.critical_hop_by_hop {
        return missing(OptionFault::UnsummedHopByHop);
    }
    if to_egress && !summary.critical_to_egress {
        return missing(OptionFault::UnsummedToEgress);
    }
    Ok(summary)
}

/// Writes a well-formed area without its removable options at the start of
/// `out`. The first word always stays.
pub(crate) fn strip(area: &[u8], out: &mut [u8]) {
    out[..4].copy_from_slice(&area[..4]);
    let mut written = 4;
    let mut rest = &area[4..];
    while !rest.is_empty() {
        let option = TlvOption::first(rest);
        let (octets, after) = rest.split_at(option.size);
        if !option.removable() {
            out[written..written + option.size].copy_from_slice(octets);
            written += option.size;
        }
        rest = after;
    }
}
