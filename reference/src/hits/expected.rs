//! What generated inputs must meet.

use super::{Feature, ReaderHit};
use crate::Silence::{ErrorCode, ErrorProtocol, OwnIngress, ReplyMode, SilentFlag};
use crate::{
    Alert, Alerted, Cause, Edition, Fault, FlagFault, FlagKind, OptionFault, Role, Silence,
};

const SETTINGS_FAULTS: [Fault; 16] = [
    Fault::HeadCut,
    Fault::ValueCut,
    Fault::UnknownTag,
    Fault::Length,
    Fault::BeforeSwitch,
    Fault::NotSettings,
    Fault::OwnNickname,
    Fault::OwnMac,
    Fault::Destination,
    Fault::Neighbour,
    Fault::NeighbourMac,
    Fault::OuterVlan,
    Fault::StripFlag,
    Fault::Edition,
    Fault::Records,
    Fault::SerialMet,
];

const PLAIN_CAUSES: [Cause; 31] = [
    Cause::ClockLength,
    Cause::OutputRoom,
    Cause::BesideRoom,
    Cause::FrameSize,
    Cause::LinkCut,
    Cause::TagCut,
    Cause::NotTrill,
    Cause::TrillCut,
    Cause::OuterDestination,
    Cause::Version,
    Cause::MultiDestination,
    Cause::Ingress,
    Cause::Egress,
    Cause::HopCount,
    Cause::AreaPastFrame,
    Cause::NoNextHop,
    Cause::ForwardedSize,
    Cause::Forwarded,
    Cause::ForwardedStripped,
    Cause::InnerCut,
    Cause::InnerTag,
    Cause::Vlan,
    Cause::AnyRbridgeUnicast,
    Cause::Delivered,
    Cause::HandedUp,
    Cause::ErrorHeard,
    Cause::EchoShort,
    Cause::EchoLong,
    Cause::EchoKind,
    Cause::EchoHeard,
    Cause::EchoReply,
];

const OPTION_FAULTS: [OptionFault; 6] = [
    OptionFault::ReservedLength,
    OptionFault::PastArea,
    OptionFault::FallingKey,
    OptionFault::EqualKey,
    OptionFault::UnsummedHopByHop,
    OptionFault::UnsummedToEgress,
];

const FLAG_KINDS: [FlagKind; 3] = [FlagKind::HopByHop, FlagKind::ToEgress, FlagKind::Reserved];

/// What either alert meets, and what the non-critical one alone passes over.
const ALERTED: [Alerted; 7] = [
    Alerted::Unreadable,
    Alerted::OtherDestination,
    Alerted::OtherEthertype,
    Alerted::NoRequest,
    Alerted::Unanswered,
    Alerted::StopsEgress,
    Alerted::Answered,
];
const PASSED_OVER: [Alerted; 2] = [Alerted::FaultPassedOver, Alerted::ErrorFieldPassedOver];

/// Every cause of an answer of one handling.
pub(super) fn causes() -> Vec<Cause> {
    let mut causes: Vec<Cause> = SETTINGS_FAULTS.map(Cause::Settings).to_vec();
    causes.extend(PLAIN_CAUSES);
    for role in [Role::Transit, Role::Egress] {
        causes.extend(OPTION_FAULTS.map(|fault| Cause::IllFormed(fault, role)));
        causes.extend(FLAG_KINDS.map(|kind| Cause::Flags(FlagFault::Unsummed(kind), role)));
        causes.extend(FLAG_KINDS.map(|kind| Cause::Flags(FlagFault::Bare(kind), role)));
        causes.push(Cause::ErrorField(role));
        causes.extend(faults(role));
    }
    for edition in [Edition::First, Edition::Second] {
        let roles = [Role::Transit, Role::Egress];
        causes.extend(roles.map(|role| Cause::CriticalHopByHop(edition, role)));
        causes.push(Cause::CriticalToEgress(edition));
    }
    for alert in [Alert::Critical, Alert::NonCritical] {
        causes.extend(ALERTED.map(|found| Cause::ForwardedAlerted(alert, found)));
    }
    let passed_over = |found| Cause::ForwardedAlerted(Alert::NonCritical, found);
    causes.extend(PASSED_OVER.map(passed_over));
    causes.extend([ReplyMode, OwnIngress, Silence::NoNextHop].map(Cause::EchoUnsent));
    causes
}

/// Channel faults; transit does not read another Ethertype, which is code 2.
fn faults(role: Role) -> Vec<Cause> {
    let unsent = |code, why| Cause::ErrorUnsent(code, why, role);
    let mut causes = Vec::new();
    for code in (1..=5).filter(|&code| role == Role::Egress || code != 2) {
        causes.push(Cause::ErrorReply(code, role));
        causes.extend([OwnIngress, Silence::NoNextHop].map(|why| unsent(code, why)));
    }
    for code in 4..=5 {
        causes.extend([SilentFlag, ErrorCode].map(|why| unsent(code, why)));
    }
    causes.push(unsent(4, ErrorProtocol));
    causes
}

pub(super) const REFUSALS: [Fault; 24] = [
    Fault::FileSize,
    Fault::HeadCut,
    Fault::ValueCut,
    Fault::UnknownTag,
    Fault::Length,
    Fault::BeforeSwitch,
    Fault::SecondClock,
    Fault::AfterFrame,
    Fault::NoFrame,
    Fault::OwnNickname,
    Fault::OwnMac,
    Fault::Destination,
    Fault::Neighbour,
    Fault::NeighbourMac,
    Fault::OuterVlan,
    Fault::StripFlag,
    Fault::Edition,
    Fault::NicknameMet,
    Fault::Switches,
    Fault::Records,
    Fault::SerialMet,
    Fault::EntryUnknown,
    Fault::TraceRoom,
    Fault::TraceRoomOfEdition2,
];

/// Answers within a run to an original, and to a reply.
const ORIGINALS: [u16; 33] = [
    10, 11, 12, 13, 14, 15, 16, 17, 18, 20, 21, 22, 23, 24, 25, 26, 27, 28, 29, 30, 31, 32, 33, 34,
    35, 38, 50, 51, 52, 53, 54, 55, 56,
];
const REPLIES: [u16; 6] = [12, 17, 21, 50, 55, 56];

/// Answers within runs, each with whether a reply is answered so.
pub(super) fn entries() -> impl Iterator<Item = (u16, bool)> {
    let originals = ORIGINALS.into_iter().map(|number| (number, false));
    originals.chain(REPLIES.into_iter().map(|number| (number, true)))
}

/// Answers of one handling.
pub(super) fn numbers() -> impl Iterator<Item = u16> {
    let refusals = (1..=3).chain(10..=18).chain(20..=35);
    refusals.chain(37..=38).chain(50..=56)
}

/// Answers of a counted call.
pub(super) fn counted() -> impl Iterator<Item = u16> {
    numbers().chain([4])
}

/// Answers of a reader's calls: early ones wherever they come, the rest at the
/// mark.
pub(super) fn reader() -> impl Iterator<Item = ReaderHit> {
    let starts = [0, 1, 2, 37].map(ReaderHit::Start);
    let bursts = [0, 1, 2, 3, 36, 37].map(ReaderHit::Burst);
    let marks = numbers().chain([36]).map(ReaderHit::Mark);
    starts.into_iter().chain(bursts).chain(marks)
}

/// Places of an option at fault: each word of the greatest area but the first.
pub(super) fn places() -> impl Iterator<Item = u16> {
    (4..124).step_by(4)
}

/// Answers of the way-out call.
pub(super) const WAYS: [u32; 4] = [0, 1, 2, 21];

/// Codes of a campus call, 0 for an accepted description.
pub(super) fn codes() -> impl Iterator<Item = u32> {
    std::iter::once(0).chain(40..=49)
}

pub(super) const FEATURES: [Feature; 65] = [
    Feature::FlowIdStays,
    Feature::ShorterFlowIdGoes,
    Feature::LongerFlowIdGoes,
    Feature::LongestFlowIdGoes,
    Feature::OtherFlowIdCopied,
    Feature::FirstKeyZero,
    Feature::LengthAndKey,
    Feature::UnsummedBefore,
    Feature::FlagFaultInLongerArea,
    Feature::BareHopByHop,
    Feature::BareToEgress,
    Feature::AlertWithUnknownFlag,
    Feature::BareReserved,
    Feature::AlertInLongerArea,
    Feature::BothAlerts,
    Feature::BesideSameNeighbour,
    Feature::BesideOtherNeighbour,
    Feature::BesideTaggedAlone,
    Feature::LongestBeside,
    Feature::ForwardedUntagged,
    Feature::ForwardedTagged,
    Feature::TagAdded,
    Feature::TagTaken,
    Feature::LongestWithTag,
    Feature::StrippedToFit,
    Feature::LongWithoutNextHop,
    Feature::RepliedUntagged,
    Feature::RepliedTagged,
    Feature::FirstVlan,
    Feature::LastVlan,
    Feature::OwnCounterFull,
    Feature::OtherCounterFull,
    Feature::TotalFull,
    Feature::FilledByCalls,
    Feature::FullBeforeBadSettings,
    Feature::EmptyBurst,
    Feature::EmptyBurstAfterAll,
    Feature::OctetTooMany,
    Feature::LongFrameAndShortOutput,
    Feature::AnewAtMark,
    Feature::BesideAnewAtMark,
    Feature::EndedByEarly3,
    Feature::EndedByShortOutput,
    Feature::PartFull,
    Feature::PartEmpty,
    Feature::PartOutside,
    Feature::PartWraps,
    Feature::WayOfOwnNickname,
    Feature::WayWithdrawn,
    Feature::WayFitsExactly,
    Feature::WayOneShort,
    Feature::TaggedWayFitsExactly,
    Feature::TaggedWayOneShort,
    Feature::TaggedWayFourShort,
    Feature::WayWithMoreRoom,
    Feature::LeftCampus,
    Feature::ReplyTravels,
    Feature::RepliesWait,
    Feature::RepliesWaitInMixed,
    Feature::BoundOfEdition2,
    Feature::Handled4096,
    Feature::FaultBeforeTraceRoom,
    Feature::Handled64OrMore,
    Feature::Handled80,
    Feature::GreatestFile,
];
