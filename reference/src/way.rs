//! The way out: the link header of a destination's ruling record.

use crate::cause::Cause;
use crate::settings::{Station, Switch};

/// The answer of the way-out call.
#[repr(C)]
#[derive(Clone, Copy, Debug, PartialEq, Eq, Default)]
pub struct Way {
    /// 0, or the refusal: 1, 21 or 2.
    pub number: u32,
    /// Octets of the link header written at the start of the output.
    pub length: u32,
}

/// Writes the link header of the ruling record for `destination`. A refusal
/// writes nothing.
pub fn way_out(settings: &[u8], destination: u16, out: &mut [u8]) -> Way {
    match write(settings, destination, out) {
        Ok(length) => Way { number: 0, length },
        Err(cause) => Way {
            number: cause.number().into(),
            length: 0,
        },
    }
}

fn write(settings: &[u8], destination: u16, out: &mut [u8]) -> Result<u32, Cause> {
    let mut switch = Switch::EMPTY;
    switch.read(settings).map_err(Cause::Settings)?;
    let hop = switch.next_hop(destination).ok_or(Cause::NoNextHop)?;
    let header = out.get_mut(..hop.link_header());
    let written = switch
        .own()
        .write_link(hop, header.ok_or(Cause::OutputRoom)?);
    Ok(written as u32)
}
