//! What the link headers of a handled frame and of what is written show.

use super::Feature;
use crate::octets::u16_at;
use crate::Answer;

const LONGEST: usize = 2048;

/// The tag of a frame of at least 14 octets, if it has one.
fn tag(frame: &[u8]) -> Option<u16> {
    (u16_at(frame, 12) == 0x8100).then(|| u16_at(frame, 14))
}

/// A reply beside a forwarded frame, to the same neighbour or to another.
pub(super) fn beside(out: &[u8], beside: &[u8], answer: Answer) -> Vec<(Feature, bool)> {
    if answer.beside == 0 {
        return Vec::new();
    }
    let same = answer.neighbour == answer.beside_neighbour;
    vec![
        (Feature::BesideSameNeighbour, same),
        (Feature::BesideOtherNeighbour, !same),
        (
            Feature::BesideTaggedAlone,
            tag(beside).is_some() && tag(out).is_none(),
        ),
        (Feature::LongestBeside, answer.beside == 576),
    ]
}

/// Tags received and written, and sizes near the greatest.
pub(super) fn shown(frame: &[u8], out: &[u8], answer: Answer) -> Vec<(Feature, bool)> {
    let written = answer.written as usize;
    match answer.number {
        21 => {
            let longer = tag(frame).is_none() && frame.len() + 4 > LONGEST;
            vec![(Feature::LongWithoutNextHop, longer)]
        }
        50 => {
            let (before, after) = (tag(frame).is_some(), tag(out).is_some());
            let added = after && !before;
            vec![
                (Feature::ForwardedUntagged, !before && !after),
                (Feature::ForwardedTagged, before && after),
                (Feature::TagAdded, added),
                (Feature::TagTaken, before && !after),
                (Feature::LongestWithTag, added && written == LONGEST),
                (Feature::StrippedToFit, added && frame.len() + 4 > LONGEST),
                (Feature::FirstVlan, tag(out) == Some(1)),
                (Feature::LastVlan, tag(out) == Some(4094)),
            ]
        }
        53 | 54 => vec![
            (Feature::RepliedUntagged, tag(out).is_none()),
            (Feature::RepliedTagged, tag(out).is_some()),
            (Feature::FirstVlan, tag(out) == Some(1)),
            (Feature::LastVlan, tag(out) == Some(4094)),
        ],
        _ => Vec::new(),
    }
}
