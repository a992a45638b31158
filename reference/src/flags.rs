//! The extended flags word of RFC 7179, the first of an area of edition 2. The
//! octets after it are carried unread.

use crate::cause::{Alert, FlagFault, FlagKind};
use crate::options::Summary;

/// Each kind's summary bit and critical flags, bit 0 being the highest: bits 0
/// to 2, then 3 to 7, 21 to 26 and 14 to 16.
const KINDS: [(FlagKind, u32, u32); 3] = [
    (FlagKind::HopByHop, 0x8000_0000, 0x1F00_0000),
    (FlagKind::ToEgress, 0x4000_0000, 0x0000_07E0),
    (FlagKind::Reserved, 0x2000_0000, 0x0003_8000),
];
/// Bit 7, the one critical flag that is known.
const CRITICAL_ALERT: u32 = 0x0100_0000;
/// Bit 8.
const NON_CRITICAL_ALERT: u32 = 0x0080_0000;

/// Tests that flags and summary bits agree. A summary bit with no flag of its
/// kind counts as an unknown critical flag where words follow.
#[inline]
pub(crate) fn check(area: &[u8]) -> Result<Summary, FlagFault> {
    let Some((word, later)) = area.split_first_chunk::<4>() else {
        return Ok(Summary::default());
    };
    let word = u32::from_be_bytes(*word);
    let mut summary = Summary {
        alert: alert(word),
        ..Summary::default()
    };
    for (kind, bit, flags) in KINDS {
        let (summed, flagged) = (word & bit != 0, word & flags != 0);
        if flagged && !summed {
            return Err(FlagFault::Unsummed(kind));
        }
        if summed && !flagged && later.is_empty() {
            return Err(FlagFault::Bare(kind));
        }
        let unknown = summed && word & flags != CRITICAL_ALERT;
        match kind {
            FlagKind::HopByHop => summary.critical_hop_by_hop = unknown,
            FlagKind::ToEgress => summary.critical_to_egress = unknown,
            // Affects no switch there is.
            FlagKind::Reserved => {}
        }
    }
    Ok(summary)
}

fn alert(word: u32) -> Option<Alert> {
    if word & CRITICAL_ALERT != 0 {
        Some(Alert::Critical)
    } else if word & NON_CRITICAL_ALERT != 0 {
        Some(Alert::NonCritical)
    } else {
        None
    }
}
