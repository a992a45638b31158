//! Link header and TRILL header.

use crate::cause::Cause;
use crate::octets::u16_at;

pub(crate) const TRILL: u16 = 0x22F3;
pub(crate) const VLAN_TAG: u16 = 0x8100;
/// Any-RBridge (RFC 7178); greater nicknames and 0 are no egress.
pub(crate) const ANY_RBRIDGE: u16 = 0xFFC0;
/// Octets from the TRILL Ethertype to the options area.
const TYPE_AND_HEADER: usize = 8;

/// A frame readable as TRILL.
pub(crate) struct Header<'a> {
    /// The whole frame as received.
    pub frame: &'a [u8],
    /// Place of the TRILL Ethertype, 12 or 16.
    pub ethertype_at: usize,
    /// V 2, R 2, M 1, Op-Length 5, Hop Count 6.
    word: u16,
    pub egress: u16,
    pub ingress: u16,
}

impl<'a> Header<'a> {
    /// Answers 10 and 11; one tag 0x8100 is skipped unread.
    #[inline]
    pub(crate) fn read(frame: &'a [u8]) -> Result<Self, Cause> {
        if frame.len() < 14 {
            return Err(Cause::LinkCut);
        }
        let tagged = u16_at(frame, 12) == VLAN_TAG;
        if tagged && frame.len() < 18 {
            return Err(Cause::TagCut);
        }
        let ethertype_at = if tagged { 16 } else { 12 };
        if u16_at(frame, ethertype_at) != TRILL {
            return Err(Cause::NotTrill);
        }
        let header = frame.get(ethertype_at + 2..ethertype_at + TYPE_AND_HEADER);
        let header = header.ok_or(Cause::TrillCut)?;
        Ok(Header {
            frame,
            ethertype_at,
            word: u16_at(header, 0),
            egress: u16_at(header, 2),
            ingress: u16_at(header, 4),
        })
    }

    pub(crate) fn version(&self) -> u16 {
        self.word >> 14
    }

    pub(crate) fn multi_destination(&self) -> bool {
        self.word >> 11 & 1 == 1
    }

    pub(crate) fn hop_count(&self) -> u8 {
        (self.word & 0x3F) as u8
    }

    /// The first word of the forwarded frame: R bits unchanged, hop count one
    /// less. V and M are 0 and the hop count is not.
    pub(crate) fn forwarded_word(&self, area_octets: usize) -> u16 {
        let op_length = (area_octets / 4) as u16;
        self.word & 0x3000 | op_length << 6 | ((self.word & 0x3F) - 1)
    }

    /// Place of the options area.
    pub(crate) fn area_at(&self) -> usize {
        self.ethertype_at + TYPE_AND_HEADER
    }

    /// Place of the inner frame, after 4 × Op-Length octets of options.
    pub(crate) fn inner_at(&self) -> usize {
        self.area_at() + usize::from(self.word >> 6 & 0x1F) * 4
    }

    /// The options area, if it does not run past the frame.
    pub(crate) fn area(&self) -> Option<&'a [u8]> {
        self.frame.get(self.area_at()..self.inner_at())
    }

    /// The inner frame, behind an area that does not run past the frame.
    pub(crate) fn inner(&self) -> &'a [u8] {
        &self.frame[self.inner_at()..]
    }
}
