//! Why a call answers as it does: one value for each condition of the rules.
//! Several causes share one answer number or refusal code.

/// A fault of the settings octets or of a campus description.
#[derive(Clone, Copy, Debug, PartialEq, Eq, PartialOrd, Ord)]
pub enum Fault {
    /// More than 32,768 octets of description.
    FileSize,
    /// Fewer than the three octets of tag and length.
    HeadCut,
    /// Fewer octets than the length field announces.
    ValueCut,
    UnknownTag,
    /// A length the tag does not have.
    Length,
    /// A field that needs a tag 1 field before it.
    BeforeSwitch,
    SecondClock,
    AfterFrame,
    NoFrame,
    /// A second tag 1, a tag 4 or a tag 5 in settings octets.
    NotSettings,
    OwnNickname,
    OwnMac,
    Destination,
    Neighbour,
    NeighbourMac,
    /// A record's VLAN above 4,094.
    OuterVlan,
    StripFlag,
    /// An edition that is neither 1 nor 2.
    Edition,
    /// Nickname of an earlier switch.
    NicknameMet,
    /// Over 16 switches.
    Switches,
    /// Over 64 records at one switch.
    Records,
    /// Serial met before for that destination at that switch.
    SerialMet,
    EntryUnknown,
    /// Trace buffer under 640 octets.
    TraceRoom,
    /// Trace buffer under 32,768 octets, with a switch of edition 2.
    TraceRoomOfEdition2,
}

impl Fault {
    /// The code with which a campus description is refused.
    pub fn code(self) -> u32 {
        match self {
            Fault::FileSize => 40,
            Fault::HeadCut | Fault::ValueCut => 41,
            Fault::UnknownTag | Fault::Length => 42,
            Fault::BeforeSwitch
            | Fault::SecondClock
            | Fault::AfterFrame
            | Fault::NoFrame
            | Fault::NotSettings => 43,
            Fault::OwnNickname
            | Fault::OwnMac
            | Fault::Destination
            | Fault::Neighbour
            | Fault::NeighbourMac
            | Fault::OuterVlan
            | Fault::StripFlag
            | Fault::Edition => 44,
            Fault::NicknameMet => 45,
            Fault::Switches | Fault::Records => 46,
            Fault::SerialMet => 47,
            Fault::EntryUnknown => 48,
            Fault::TraceRoom | Fault::TraceRoomOfEdition2 => 49,
        }
    }
}

/// Why no reply is made.
#[derive(Clone, Copy, Debug, PartialEq, Eq, PartialOrd, Ord)]
pub enum Silence {
    /// SL is 1.
    SilentFlag,
    /// The message is itself an error, protocol 0x001.
    ErrorProtocol,
    /// ERR is not 0.
    ErrorCode,
    /// The reply mode is not 2.
    ReplyMode,
    /// No return path: the ingress is our own nickname.
    OwnIngress,
    /// No return path: the ingress has no next hop.
    NoNextHop,
}

/// Where we stand on a frame's way.
#[derive(Clone, Copy, Debug, PartialEq, Eq, PartialOrd, Ord)]
pub enum Role {
    Transit,
    /// The egress nickname is our own or Any-RBridge.
    Egress,
}

/// Which header extension a switch speaks.
#[derive(Clone, Copy, Debug, PartialEq, Eq, PartialOrd, Ord)]
pub enum Edition {
    /// The options draft, document 001.
    First,
    /// RFC 7179.
    Second,
}

/// What makes an options area ill formed, in the order of the tests.
#[derive(Clone, Copy, Debug, PartialEq, Eq, PartialOrd, Ord)]
pub enum OptionFault {
    /// Length 119 to 127.
    ReservedLength,
    PastArea,
    /// Key below the one before.
    FallingKey,
    /// Key equal to the one before.
    EqualKey,
    /// A critical hop-by-hop option, but CHbH is 0.
    UnsummedHopByHop,
    /// A critical ingress-to-egress option, but CItE is 0.
    UnsummedToEgress,
}

impl OptionFault {
    fn number(self) -> u16 {
        match self {
            OptionFault::ReservedLength => 30,
            OptionFault::PastArea => 31,
            OptionFault::FallingKey => 32,
            OptionFault::EqualKey => 33,
            OptionFault::UnsummedHopByHop => 34,
            OptionFault::UnsummedToEgress => 35,
        }
    }
}

/// Kinds of critical flag, each with a summary bit.
#[derive(Clone, Copy, Debug, PartialEq, Eq, PartialOrd, Ord)]
pub enum FlagKind {
    HopByHop,
    ToEgress,
    /// For switches of a class that does not exist yet.
    Reserved,
}

/// What makes an extended flags word inconsistent.
#[derive(Clone, Copy, Debug, PartialEq, Eq, PartialOrd, Ord)]
pub enum FlagFault {
    /// A critical flag, but its summary bit is 0.
    Unsummed(FlagKind),
    /// A summary bit with no flag of its kind in an area of one word.
    Bare(FlagKind),
}

/// A channel alert; the critical one counts where both are set.
#[derive(Clone, Copy, Debug, PartialEq, Eq, PartialOrd, Ord)]
pub enum Alert {
    Critical,
    NonCritical,
}

/// What an alert meets in a frame that is forwarded all the same.
#[derive(Clone, Copy, Debug, PartialEq, Eq, PartialOrd, Ord)]
pub enum Alerted {
    /// The inner frame is cut or has no good tag.
    Unreadable,
    /// Not to All-Egress-RBridges.
    OtherDestination,
    /// To All-Egress-RBridges, but not Ethertype 0x8946.
    OtherEthertype,
    /// A channel fault, with only the non-critical alert.
    FaultPassedOver,
    /// ERR is not 0, with only the non-critical alert.
    ErrorFieldPassedOver,
    /// An error, an echo reply or a bad echo body.
    NoRequest,
    /// An echo request that its egress would not answer.
    Unanswered,
    /// An echo request that we as its egress would give 20.
    StopsEgress,
    /// An echo request with a reply beside it.
    Answered,
}

/// The condition that settled one handling, in the order of the answer table.
#[derive(Clone, Copy, Debug, PartialEq, Eq, PartialOrd, Ord)]
pub enum Cause {
    Settings(Fault),
    ClockLength,
    OutputRoom,
    /// Second output buffer under 576 octets.
    BesideRoom,
    FrameSize,
    /// Under 14 octets.
    LinkCut,
    /// Under 18 octets with a tag.
    TagCut,
    NotTrill,
    TrillCut,
    OuterDestination,
    Version,
    MultiDestination,
    Ingress,
    Egress,
    HopCount,
    AreaPastFrame,
    /// The area is ill formed; the role plays no part in the answer.
    IllFormed(OptionFault, Role),
    /// The extended flags word is inconsistent, in either role.
    Flags(FlagFault, Role),
    CriticalHopByHop(Edition, Role),
    CriticalToEgress(Edition),
    NoNextHop,
    /// The forwarded frame would have more than 2,048 octets.
    ForwardedSize,
    Forwarded,
    /// Forwarded with at least one option removed.
    ForwardedStripped,
    /// Forwarded with an alert that met this.
    ForwardedAlerted(Alert, Alerted),
    InnerCut,
    InnerTag,
    /// VLAN 0 or 4,095.
    Vlan,
    AnyRbridgeUnicast,
    Delivered,
    HandedUp,
    /// Error reply with this code, in transit by a critical alert.
    ErrorReply(u8, Role),
    /// Fault of this code with no error reply.
    ErrorUnsent(u8, Silence, Role),
    ErrorField(Role),
    ErrorHeard,
    EchoShort,
    EchoLong,
    EchoKind,
    EchoHeard,
    EchoReply,
    EchoUnsent(Silence),
}

impl Cause {
    /// The answer number of documents 01 and 02.
    pub fn number(self) -> u16 {
        match self {
            Cause::Settings(_) | Cause::ClockLength => 1,
            Cause::OutputRoom => 2,
            Cause::BesideRoom => 37,
            Cause::FrameSize => 3,
            Cause::LinkCut | Cause::TagCut | Cause::TrillCut => 10,
            Cause::NotTrill => 11,
            Cause::OuterDestination => 12,
            Cause::Version => 13,
            Cause::MultiDestination => 14,
            Cause::Ingress => 15,
            Cause::Egress => 16,
            Cause::HopCount => 17,
            Cause::AreaPastFrame => 18,
            Cause::IllFormed(fault, _) => fault.number(),
            Cause::Flags(..) => 38,
            Cause::CriticalHopByHop(..) | Cause::CriticalToEgress(_) => 20,
            Cause::NoNextHop => 21,
            Cause::ForwardedSize => 29,
            Cause::Forwarded | Cause::ForwardedStripped | Cause::ForwardedAlerted(..) => 50,
            Cause::InnerCut => 22,
            Cause::InnerTag | Cause::Vlan => 23,
            Cause::AnyRbridgeUnicast => 24,
            Cause::Delivered => 51,
            Cause::HandedUp => 52,
            Cause::ErrorReply(..) => 53,
            Cause::ErrorUnsent(..) => 25,
            Cause::ErrorField(_) => 26,
            Cause::ErrorHeard => 55,
            Cause::EchoShort | Cause::EchoLong | Cause::EchoKind => 27,
            Cause::EchoHeard => 56,
            Cause::EchoReply => 54,
            Cause::EchoUnsent(_) => 28,
        }
    }
}
