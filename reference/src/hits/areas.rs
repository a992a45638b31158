//! What the options area of a handled frame shows.

use super::Feature;
use crate::header::Header;
use crate::octets::u16_at;
use crate::{Answer, Cause, Edition};

/// Nine-bit key of the Flow ID, and its Length.
const FLOW_ID: u16 = 0x083;
const FLOW_ID_LENGTH: u16 = 2;
const MAX_LENGTH: u16 = 118;

/// The area of a readable frame.
fn area_of(frame: &[u8]) -> &[u8] {
    let header = Header::read(frame).ok();
    header.and_then(|header| header.area()).unwrap_or_default()
}

/// Heads of the options from the first on.
fn heads(mut options: &[u8]) -> impl Iterator<Item = u16> + '_ {
    std::iter::from_fn(move || {
        let head = u16_at(options.get(..2)?, 0);
        let size = (usize::from(head & 0x7F) + 2).next_multiple_of(4);
        options = options.get(size..).unwrap_or_default();
        Some(head)
    })
}

fn key(head: u16) -> u16 {
    head >> 7
}

/// An area whose options are all good.
pub(super) fn good_options(frame: &[u8]) -> [(Feature, bool); 1] {
    let mut heads = heads(area_of(frame).get(4..).unwrap_or_default());
    let zero = heads.next().is_some_and(|head| key(head) == 0);
    [(Feature::FirstKeyZero, zero)]
}

/// An area with an option at fault, where the answer says.
pub(super) fn faulty_option(frame: &[u8], answer: Answer) -> [(Feature, bool); 2] {
    let area = area_of(frame);
    let (before, rest) = area.split_at(answer.start.into());
    let before = || heads(&before[4..]).map(key);
    let at_fault = key(u16_at(rest, 0));
    let not_above = before().last().is_some_and(|key| key >= at_fault);
    let unsummed = |key: u16| match key >> 7 {
        0 => area[0] & 0x80 == 0,
        2 => area[0] & 0x40 == 0,
        _ => false,
    };
    [
        (Feature::LengthAndKey, answer.number < 32 && not_above),
        (Feature::UnsummedBefore, before().any(unsummed)),
    ]
}

/// Answers of edition 2 that an area's length or a flag beside others leads to.
pub(super) fn flags(frame: &[u8], cause: Cause) -> Vec<(Feature, bool)> {
    let area = area_of(frame);
    let longer = area.len() > 4;
    let word = |mask: u32| {
        let word = area
            .first_chunk()
            .map_or(0, |word| u32::from_be_bytes(*word));
        word & mask
    };
    match cause {
        Cause::Flags(..) => vec![(Feature::FlagFaultInLongerArea, longer)],
        Cause::CriticalHopByHop(Edition::Second, _) => vec![
            (Feature::BareHopByHop, word(0x1F00_0000) == 0),
            (Feature::AlertWithUnknownFlag, word(0x0100_0000) != 0),
        ],
        Cause::CriticalToEgress(Edition::Second) => {
            vec![(Feature::BareToEgress, word(0x07E0) == 0)]
        }
        Cause::Forwarded | Cause::ForwardedAlerted(..) | Cause::Delivered => vec![
            (
                Feature::BareReserved,
                longer && word(0x2003_8000) == 0x2000_0000,
            ),
            (Feature::AlertInLongerArea, longer && word(0x0180_0000) != 0),
            (Feature::BothAlerts, word(0x0180_0000) == 0x0180_0000),
        ],
        _ => Vec::new(),
    }
}

/// A forwarded frame as it was received and as it was written.
pub(super) fn forwarded(frame: &[u8], out: &[u8], cause: Cause) -> Vec<(Feature, bool)> {
    let Some(length) = flow_id_length(frame) else {
        return Vec::new();
    };
    let stripped = cause == Cause::ForwardedStripped;
    let gone = stripped && flow_id_length(out).is_none();
    let other = length != FLOW_ID_LENGTH;
    vec![
        (Feature::FlowIdStays, stripped && !gone),
        (Feature::ShorterFlowIdGoes, gone && length < FLOW_ID_LENGTH),
        (Feature::LongerFlowIdGoes, gone && length > FLOW_ID_LENGTH),
        (Feature::LongestFlowIdGoes, gone && length == MAX_LENGTH),
        (Feature::OtherFlowIdCopied, other && !gone),
    ]
}

/// Length of the option with the Flow ID's key.
fn flow_id_length(frame: &[u8]) -> Option<u16> {
    let head = heads(area_of(frame).get(4..)?).find(|&head| key(head) == FLOW_ID)?;
    Some(head & 0x7F)
}
