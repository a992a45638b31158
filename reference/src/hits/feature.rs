//! What inputs must show beside answers and causes.

/// Properties of areas, parts, ways out and runs.
#[derive(Clone, Copy, Debug, PartialEq, Eq, PartialOrd, Ord)]
pub enum Feature {
    /// The strip flag takes another option out and leaves the Flow ID in.
    FlowIdStays,
    /// An option with the Flow ID's key is taken out: of Length 0 or 1, of 3 or
    /// more, of the greatest Length.
    ShorterFlowIdGoes,
    LongerFlowIdGoes,
    LongestFlowIdGoes,
    /// Without the strip flag such an option is copied.
    OtherFlowIdCopied,
    /// An area whose first option has the least key, and is good.
    FirstKeyZero,
    /// An option at fault by its Length and by its key.
    LengthAndKey,
    /// An option at fault after critical ones whose summary bit is missing.
    UnsummedBefore,
    /// 38 in an area of more than one word.
    FlagFaultInLongerArea,
    /// 20 by a summary bit with no flag of its kind in a longer area.
    BareHopByHop,
    BareToEgress,
    /// 20 by an unknown flag beside the critical alert.
    AlertWithUnknownFlag,
    /// Carried with such a summary bit of the reserved kind.
    BareReserved,
    /// Carried with an alert and words that nobody reads, and with both alerts.
    AlertInLongerArea,
    BothAlerts,
    /// A reply beside 50 for the same neighbour, and for another.
    BesideSameNeighbour,
    BesideOtherNeighbour,
    /// A reply beside 50 with a tag, the forwarded frame without.
    BesideTaggedAlone,
    /// A reply beside 50 of 576 octets.
    LongestBeside,
    /// Forwarded without a tag and with one, as it was received.
    ForwardedUntagged,
    ForwardedTagged,
    /// Forwarded with a tag that it did not have, and without the one it had.
    TagAdded,
    TagTaken,
    /// Forwarded with an added tag, to exactly 2,048 octets.
    LongestWithTag,
    /// Forwarded with an added tag, and too long if no option went.
    StrippedToFit,
    /// No next hop for a frame that an added tag would make too long.
    LongWithoutNextHop,
    /// A reply without a tag and with one.
    RepliedUntagged,
    RepliedTagged,
    /// A frame written with VLAN 1 and with VLAN 4,094.
    FirstVlan,
    LastVlan,
    /// 4, since the counter of what would be answered is full, another one, or
    /// the total.
    OwnCounterFull,
    OtherCounterFull,
    TotalFull,
    /// 4 after calls that were counted.
    FilledByCalls,
    /// 4 where 1 would be answered.
    FullBeforeBadSettings,
    /// An empty burst, and one after 2,048 octets.
    EmptyBurst,
    EmptyBurstAfterAll,
    /// 3 by a burst of one octet.
    OctetTooMany,
    /// 3 repeated at a mark that is lent too little.
    LongFrameAndShortOutput,
    /// 2 and 37 at a mark, though the start was told enough.
    AnewAtMark,
    BesideAnewAtMark,
    /// 36 after a mark that answered 3, and 2.
    EndedByEarly3,
    EndedByShortOutput,
    /// A part with octets, an empty one within the frame, one not within it.
    PartFull,
    PartEmpty,
    PartOutside,
    /// Start and length wrap around 2^64.
    PartWraps,
    /// The way out of a record for the own nickname.
    WayOfOwnNickname,
    /// No way out, since the newest record is a withdrawal.
    WayWithdrawn,
    /// Room for the link header and nothing more, and an octet less.
    WayFitsExactly,
    WayOneShort,
    /// The same for a link header with a tag, and room for one without.
    TaggedWayFitsExactly,
    TaggedWayOneShort,
    TaggedWayFourShort,
    /// Room of 100 octets or more.
    WayWithMoreRoom,
    /// The last handling wrote a frame for no switch of the campus.
    LeftCampus,
    /// A reply was handled twice or more.
    ReplyTravels,
    /// Two replies or more were handled, and so in a campus of both editions.
    RepliesWait,
    RepliesWaitInMixed,
    /// 65h + 1 handlings with h of 2 or more, and with h of 63.
    BoundOfEdition2,
    Handled4096,
    /// Another refusal of a file with an edition 2, though the trace is short.
    FaultBeforeTraceRoom,
    Handled64OrMore,
    Handled80,
    /// A description of exactly 32,768 octets is accepted.
    GreatestFile,
}
