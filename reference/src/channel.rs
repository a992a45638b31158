//! RBridge Channel messages and the two replies.

use crate::cause::Silence;
use crate::octets::{put_u16, u16_at, Mac};
use crate::settings::{NextHop, Own, Station};

pub(crate) const ALL_EGRESS_RBRIDGES: Mac = [0x01, 0x80, 0xC2, 0x00, 0x00, 0x42];
pub(crate) const CHANNEL: u16 = 0x8946;
const ERROR_PROTOCOL: u16 = 0x001;
const ECHO_PROTOCOL: u16 = 0xFF8;
/// SL and MH, set in each reply.
const REPLY_FLAGS: u16 = 0xC000;
const SL: u16 = 0x8000;
const NA: u16 = 0x2000;
const ERR: u16 = 0x000F;

/// Inner DA 6, SA 6, tag 4, Ethertype 2.
pub(crate) const INNER_HEADER: usize = 18;
/// TRILL header 6, inner header, channel header 4.
const REPLY_HEADER: usize = 6 + INNER_HEADER + 4;
const ERROR_BODY: usize = 128;

/// Smallest and greatest echo body.
pub(crate) const ECHO_MIN: usize = 18;
pub(crate) const ECHO_MAX: usize = 530;
const TIME_RECEIVED: usize = 12;

/// A message to All-Egress-RBridges that is not 0x22F4.
pub(crate) enum Message<'a> {
    /// A fault's code, and what keeps its error reply back.
    Fault(u8, Option<Silence>),
    /// Not an error, but ERR is not 0.
    ErrorField,
    Error,
    /// Echo body.
    Echo(&'a [u8]),
}

impl<'a> Message<'a> {
    /// `inner` has at least its 18 leading octets. The first fault counts.
    pub(crate) fn read(inner: &'a [u8]) -> Self {
        if u16_at(inner, 16) != CHANNEL {
            return Message::Fault(2, None);
        }
        let Some((header, body)) = inner[INNER_HEADER..].split_first_chunk::<4>() else {
            return Message::Fault(1, None);
        };
        let (word, flags) = (u16_at(header, 0), u16_at(header, 2));
        let protocol = word & 0x0FFF;
        if word >> 12 != 0 {
            return Message::Fault(3, None);
        }
        if flags & NA != 0 {
            return Message::Fault(4, silence(protocol, flags));
        }
        match protocol {
            ERROR_PROTOCOL => Message::Error,
            ECHO_PROTOCOL if flags & ERR != 0 => Message::ErrorField,
            ECHO_PROTOCOL => Message::Echo(body),
            _ => Message::Fault(5, silence(protocol, flags)),
        }
    }
}

/// No error reply to codes 4 and 5 if SL is 1, the protocol is 0x001 or ERR is
/// not 0.
fn silence(protocol: u16, flags: u16) -> Option<Silence> {
    if flags & SL != 0 {
        Some(Silence::SilentFlag)
    } else if protocol == ERROR_PROTOCOL {
        Some(Silence::ErrorProtocol)
    } else if flags & ERR != 0 {
        Some(Silence::ErrorCode)
    } else {
        None
    }
}

/// The next hop to the old ingress, unless that is our own nickname.
pub(crate) fn return_path(switch: &impl Station, ingress: u16) -> Result<NextHop, Silence> {
    if ingress == switch.own().nickname {
        return Err(Silence::OwnIngress);
    }
    switch.next_hop(ingress).ok_or(Silence::NoNextHop)
}

/// Writes an error reply; `received` is the frame from its TRILL Ethertype on.
pub(crate) fn write_error(out: &mut [u8], head: &ReplyHead, code: u8, received: &[u8]) -> usize {
    let body = &received[..received.len().min(ERROR_BODY)];
    let start = head.write(out, ERROR_PROTOCOL, REPLY_FLAGS + u16::from(code));
    let end = start + body.len();
    out[start..end].copy_from_slice(body);
    end
}

/// Writes an echo reply: the body with SPID 4 and the clock as time received.
pub(crate) fn write_echo(out: &mut [u8], head: &ReplyHead, body: &[u8], clock: &[u8; 6]) -> usize {
    let start = head.write(out, ECHO_PROTOCOL, REPLY_FLAGS);
    let end = start + body.len();
    let copy = &mut out[start..end];
    copy.copy_from_slice(body);
    copy[0] = 0x40 | body[0] & 0x0F;
    copy[TIME_RECEIVED..TIME_RECEIVED + 6].copy_from_slice(clock);
    end
}

/// The parts of a reply's headers that differ from switch to switch.
pub(crate) struct ReplyHead<'a> {
    pub own: &'a Own,
    pub ingress: u16,
    pub hop: NextHop,
}

impl ReplyHead<'_> {
    /// Writes link header, TRILL header, inner header and channel header and
    /// gives their octets.
    fn write(&self, out: &mut [u8], protocol: u16, flags: u16) -> usize {
        let mut head = TEMPLATE;
        put_u16(&mut head, 2, self.ingress);
        put_u16(&mut head, 4, self.own.nickname);
        head[12..18].copy_from_slice(&self.own.mac);
        put_u16(&mut head, 24, protocol);
        put_u16(&mut head, 26, flags);
        let start = self.own.write_link(self.hop, out);
        let end = start + REPLY_HEADER;
        out[start..end].copy_from_slice(&head);
        end
    }
}

/// The octets after the link header that all replies share.
#[rustfmt::skip]
const TEMPLATE: [u8; REPLY_HEADER] = [
    0x00, 0x3F,  0, 0,  0, 0,
    0x01, 0x80, 0xC2, 0x00, 0x00, 0x42,  0, 0, 0, 0, 0, 0,
    0x81, 0x00,  0x00, 0x01,  0x89, 0x46,
    0, 0,  0, 0,
];
