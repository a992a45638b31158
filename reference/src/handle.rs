//! One handling: the answers in the order document 01 lists them.

use crate::cause::{Alert, Alerted, Cause, Edition, Role, Silence};
use crate::channel::{
    return_path, write_echo, write_error, Message, ReplyHead, ALL_EGRESS_RBRIDGES, CHANNEL,
    ECHO_MAX, ECHO_MIN, INNER_HEADER,
};
use crate::flags;
use crate::header::{Header, ANY_RBRIDGE, VLAN_TAG};
use crate::octets::{put_u16, u16_at};
use crate::options::{self, IllFormed, Summary};
use crate::settings::{NextHop, Own, Station, Switch, MAX_FRAME, MAX_REPLY};

/// Inner Ethertype of frames that are handed up.
const HANDED_UP: u16 = 0x22F4;

/// The answer of one handling.
#[repr(C)]
#[derive(Clone, Copy, Debug, PartialEq, Eq, Default)]
pub struct Answer {
    pub number: u16,
    /// Octets written at the start of the output.
    pub written: u16,
    /// Place and length of the delivered part of the received frame; for 30 to
    /// 33 the place of the option at fault in the options area, with length 0.
    pub start: u16,
    pub length: u16,
    /// Neighbour to which the written frame goes.
    pub neighbour: u16,
    /// Octets of the reply made beside 50, at the start of the second output.
    pub beside: u16,
    /// Neighbour to which that reply goes.
    pub beside_neighbour: u16,
}

/// One handling within a run: an answer's fields, and the condition that settled
/// its number. It is small enough to be given back in registers.
#[derive(Clone, Copy)]
pub(crate) struct Step {
    pub cause: Cause,
    pub written: u16,
    pub start: u16,
    pub length: u16,
    pub neighbour: u16,
    pub beside: u16,
    pub beside_neighbour: u16,
}

impl Step {
    /// An answer that neither writes nor delivers.
    fn bare(cause: Cause) -> Self {
        Step {
            cause,
            written: 0,
            start: 0,
            length: 0,
            neighbour: 0,
            beside: 0,
            beside_neighbour: 0,
        }
    }

    fn ill_formed(ill_formed: IllFormed, role: Role) -> Self {
        Step {
            start: ill_formed.at as u16,
            ..Self::bare(Cause::IllFormed(ill_formed.fault, role))
        }
    }

    fn sent(cause: Cause, written: usize, hop: NextHop) -> Self {
        Step {
            written: written as u16,
            neighbour: hop.neighbour(),
            ..Self::bare(cause)
        }
    }

    pub(crate) fn answer(&self) -> Answer {
        Answer {
            number: self.cause.number(),
            written: self.written,
            start: self.start,
            length: self.length,
            neighbour: self.neighbour,
            beside: self.beside,
            beside_neighbour: self.beside_neighbour,
        }
    }
}

/// Answers one received frame (no FCS). Writes `out` for 50, 53 and 54 alone,
/// and then its first `written` octets; of `beside` the octets of a reply made
/// beside 50.
pub fn handle(
    frame: &[u8],
    settings: &[u8],
    clock: &[u8],
    out: &mut [u8],
    beside: &mut [u8],
) -> Answer {
    explain(frame, settings, clock, out, beside).0
}

/// [`handle`], with the condition that settled the answer.
pub fn explain(
    frame: &[u8],
    settings: &[u8],
    clock: &[u8],
    out: &mut [u8],
    beside: &mut [u8],
) -> (Answer, Cause) {
    let mut switch = Switch::EMPTY;
    let step = match switch.read(settings) {
        Ok(()) => admitted(&switch, frame, clock, out, beside),
        Err(fault) => Step::bare(Cause::Settings(fault)),
    };
    (step.answer(), step.cause)
}

/// [`handle`] for settings that are good.
#[inline]
pub(crate) fn admitted(
    switch: &impl Station,
    frame: &[u8],
    clock: &[u8],
    out: &mut [u8],
    beside: &mut [u8],
) -> Step {
    match admit(frame, clock, out, beside) {
        Ok(clock) => step(switch, frame, clock, out, beside),
        Err(cause) => Step::bare(cause),
    }
}

/// Answers 1, 2, 37 and 3 for settings that are good.
#[inline]
fn admit<'a>(
    frame: &[u8],
    clock: &'a [u8],
    out: &[u8],
    beside: &[u8],
) -> Result<&'a [u8; 6], Cause> {
    let clock = admit_clock(clock)?;
    admit_rooms(out.len(), beside.len())?;
    if frame.len() > MAX_FRAME {
        return Err(Cause::FrameSize);
    }
    Ok(clock)
}

/// Answer 1 for a clock.
#[inline]
pub(crate) fn admit_clock(clock: &[u8]) -> Result<&[u8; 6], Cause> {
    clock.try_into().map_err(|_| Cause::ClockLength)
}

/// Answers 2 and 37.
#[inline]
pub(crate) fn admit_rooms(room: usize, beside_room: usize) -> Result<(), Cause> {
    if room < MAX_FRAME {
        return Err(Cause::OutputRoom);
    }
    if beside_room < MAX_REPLY {
        return Err(Cause::BesideRoom);
    }
    Ok(())
}

/// Hands back the part of `frame` that an answer delivers, or an empty part if
/// the range does not lie within the frame.
pub fn part(frame: &[u8], start: usize, length: usize) -> &[u8] {
    frame
        .get(start..)
        .and_then(|rest| rest.get(..length))
        .unwrap_or_default()
}

/// One handling of a frame of at most 2,048 octets. The outputs have room for
/// the frame and for the longest reply.
pub(crate) fn step(
    switch: &impl Station,
    frame: &[u8],
    clock: &[u8; 6],
    out: &mut [u8],
    beside: &mut [u8],
) -> Step {
    receive(switch, frame, clock, out, beside).unwrap_or_else(Step::bare)
}

/// From the link header to the decision between transit and egress.
fn receive(
    switch: &impl Station,
    frame: &[u8],
    clock: &[u8; 6],
    out: &mut [u8],
    beside: &mut [u8],
) -> Result<Step, Cause> {
    let own = switch.own();
    let header = Header::read(frame)?;
    check_header(&header, own)?;
    let area = header.area().ok_or(Cause::AreaPastFrame)?;
    let role = role(&header, own);
    let summary = match own.edition {
        Edition::First => match options::check(area) {
            Ok(summary) => summary,
            Err(ill_formed) => return Ok(Step::ill_formed(ill_formed, role)),
        },
        Edition::Second => flags::check(area).map_err(|fault| Cause::Flags(fault, role))?,
    };
    if summary.critical_hop_by_hop {
        return Err(Cause::CriticalHopByHop(own.edition, role));
    }
    if role == Role::Egress {
        if summary.critical_to_egress {
            return Err(Cause::CriticalToEgress(own.edition));
        }
        return deliver(switch, &header, clock, out);
    }
    let hop = switch.next_hop(header.egress).ok_or(Cause::NoNextHop)?;
    let Some(alert) = summary.alert else {
        return forward(own, &header, hop, &summary, out);
    };
    let (found, request) = match alerted(switch, &header, &summary, alert) {
        Found::Fault(code, silence) => {
            return fault(switch, &header, Role::Transit, code, silence, out);
        }
        Found::ErrorField => return Err(Cause::ErrorField(Role::Transit)),
        Found::Request(request) => (Alerted::Answered, Some(request)),
        Found::Other(found) => (found, None),
    };
    let mut step = forward(own, &header, hop, &summary, out)?;
    step.cause = Cause::ForwardedAlerted(alert, found);
    if let Some(request) = request {
        step.beside = request.answer(own, clock, beside) as u16;
        step.beside_neighbour = request.hop.neighbour();
    }
    Ok(step)
}

fn role(header: &Header, own: &Own) -> Role {
    if header.egress == own.nickname || header.egress == ANY_RBRIDGE {
        Role::Egress
    } else {
        Role::Transit
    }
}

/// Answers 12 to 17.
fn check_header(header: &Header, own: &Own) -> Result<(), Cause> {
    if header.frame[..6] != own.mac {
        return Err(Cause::OuterDestination);
    }
    if header.version() != 0 {
        return Err(Cause::Version);
    }
    if header.multi_destination() {
        return Err(Cause::MultiDestination);
    }
    if !(1..ANY_RBRIDGE).contains(&header.ingress) {
        return Err(Cause::Ingress);
    }
    if !(1..=ANY_RBRIDGE).contains(&header.egress) {
        return Err(Cause::Egress);
    }
    // Tested as received, at an egress too.
    if header.hop_count() == 0 {
        return Err(Cause::HopCount);
    }
    Ok(())
}

/// What an alert makes transit do with a message.
enum Found<'a> {
    /// A fault of this code, and what keeps its error reply back: no forwarding.
    Fault(u8, Option<Silence>),
    /// ERR is not 0: no forwarding.
    ErrorField,
    /// An echo request to be answered beside.
    Request(Request<'a>),
    /// Forwarded and nothing else.
    Other(Alerted),
}

/// Reads a message in transit. An alert acts only on a readable inner frame to
/// All-Egress-RBridges with Ethertype 0x8946, and only the critical one
/// discards. A reply is made where we as the egress would make it.
fn alerted<'a>(
    switch: &impl Station,
    header: &Header<'a>,
    summary: &Summary,
    alert: Alert,
) -> Found<'a> {
    let inner = header.inner();
    if check_inner(inner).is_err() {
        return Found::Other(Alerted::Unreadable);
    }
    if inner[..6] != ALL_EGRESS_RBRIDGES {
        return Found::Other(Alerted::OtherDestination);
    }
    if u16_at(inner, 16) != CHANNEL {
        return Found::Other(Alerted::OtherEthertype);
    }
    match (Message::read(inner), alert) {
        (Message::Fault(code, silence), Alert::Critical) => Found::Fault(code, silence),
        (Message::Fault(..), Alert::NonCritical) => Found::Other(Alerted::FaultPassedOver),
        (Message::ErrorField, Alert::Critical) => Found::ErrorField,
        (Message::ErrorField, Alert::NonCritical) => Found::Other(Alerted::ErrorFieldPassedOver),
        (Message::Error, _) => Found::Other(Alerted::NoRequest),
        (Message::Echo(body), _) => match Request::read(switch, header, body) {
            Ok(_) if summary.critical_to_egress => Found::Other(Alerted::StopsEgress),
            Ok(request) => Found::Request(request),
            Err(Cause::EchoUnsent(_)) => Found::Other(Alerted::Unanswered),
            Err(_) => Found::Other(Alerted::NoRequest),
        },
    }
}

/// Answers 29 and 50: the link header of the next hop, hop count one less, area
/// without its removable options if the strip flag is set, inner frame
/// unchanged.
fn forward(
    own: &Own,
    header: &Header,
    hop: NextHop,
    summary: &Summary,
    out: &mut [u8],
) -> Result<Step, Cause> {
    let frame = header.frame;
    let (area_at, inner_at) = (header.area_at(), header.inner_at());
    let removed = if own.strip { summary.removable } else { 0 };
    let start = hop.link_header() + 6;
    let written = start + (frame.len() - area_at) - removed;
    // What would be written counts, not what was received.
    if written > MAX_FRAME {
        return Err(Cause::ForwardedSize);
    }
    let (head, rest) = out[..written].split_at_mut(start);
    let area_octets = inner_at - area_at - removed;
    let cause = if removed == 0 {
        rest.copy_from_slice(&frame[area_at..]);
        Cause::Forwarded
    } else {
        options::strip(&frame[area_at..inner_at], rest);
        rest[area_octets..].copy_from_slice(&frame[inner_at..]);
        Cause::ForwardedStripped
    };
    own.write_link(hop, head);
    put_u16(head, start - 6, header.forwarded_word(area_octets));
    put_u16(head, start - 4, header.egress);
    put_u16(head, start - 2, header.ingress);
    Ok(Step::sent(cause, written, hop))
}

/// Answers 22 and 23.
fn check_inner(inner: &[u8]) -> Result<(), Cause> {
    if inner.len() < INNER_HEADER {
        return Err(Cause::InnerCut);
    }
    if u16_at(inner, 12) != VLAN_TAG {
        return Err(Cause::InnerTag);
    }
    if matches!(u16_at(inner, 14) & 0x0FFF, 0 | 0xFFF) {
        return Err(Cause::Vlan);
    }
    Ok(())
}

/// Answers from 22 on: we are the egress.
fn deliver(
    switch: &impl Station,
    header: &Header,
    clock: &[u8; 6],
    out: &mut [u8],
) -> Result<Step, Cause> {
    let inner = header.inner();
    check_inner(inner)?;
    let delivered = |cause| Step {
        start: header.inner_at() as u16,
        length: inner.len() as u16,
        ..Step::bare(cause)
    };
    if inner[..6] != ALL_EGRESS_RBRIDGES {
        if header.egress == ANY_RBRIDGE {
            return Err(Cause::AnyRbridgeUnicast);
        }
        return Ok(delivered(Cause::Delivered));
    }
    if u16_at(inner, 16) == HANDED_UP {
        return Ok(delivered(Cause::HandedUp));
    }
    match Message::read(inner) {
        Message::Fault(code, silence) => fault(switch, header, Role::Egress, code, silence, out),
        Message::ErrorField => Err(Cause::ErrorField(Role::Egress)),
        Message::Error => Err(Cause::ErrorHeard),
        Message::Echo(body) => {
            let request = Request::read(switch, header, body)?;
            let written = request.answer(switch.own(), clock, out);
            Ok(Step::sent(Cause::EchoReply, written, request.hop))
        }
    }
}

/// Answers 53 and 25.
fn fault(
    switch: &impl Station,
    header: &Header,
    role: Role,
    code: u8,
    silence: Option<Silence>,
    out: &mut [u8],
) -> Result<Step, Cause> {
    let unsent = |silence| Cause::ErrorUnsent(code, silence, role);
    if let Some(silence) = silence {
        return Err(unsent(silence));
    }
    let hop = return_path(switch, header.ingress).map_err(unsent)?;
    let head = ReplyHead {
        own: switch.own(),
        ingress: header.ingress,
        hop,
    };
    let written = write_error(out, &head, code, &header.frame[header.ethertype_at..]);
    Ok(Step::sent(Cause::ErrorReply(code, role), written, hop))
}

/// An echo request that is answered: 54 at its egress.
struct Request<'a> {
    ingress: u16,
    /// The way back.
    hop: NextHop,
    body: &'a [u8],
}

impl<'a> Request<'a> {
    /// Answers 27, 56 and 28.
    fn read(switch: &impl Station, header: &Header, body: &'a [u8]) -> Result<Self, Cause> {
        if body.len() < ECHO_MIN {
            return Err(Cause::EchoShort);
        }
        if body.len() > ECHO_MAX {
            return Err(Cause::EchoLong);
        }
        match body[0] >> 4 {
            3 => {}
            4 => return Err(Cause::EchoHeard),
            _ => return Err(Cause::EchoKind),
        }
        if body[4] != 2 {
            return Err(Cause::EchoUnsent(Silence::ReplyMode));
        }
        let ingress = header.ingress;
        let hop = return_path(switch, ingress).map_err(Cause::EchoUnsent)?;
        Ok(Request { ingress, hop, body })
    }

    /// Writes the reply and gives its octets.
    fn answer(&self, own: &Own, clock: &[u8; 6], out: &mut [u8]) -> usize {
        let (ingress, hop) = (self.ingress, self.hop);
        write_echo(out, &ReplyHead { own, ingress, hop }, self.body, clock)
    }
}
