//! Independent reference of the Staffripple TRILL frame handler.
//!
//! Written from documents 01 and 02 alone. [`handle`] answers one received frame,
//! [`handle_prepared`] does so with settings that were read before,
//! [`handle_counted`] with a counters record, and [`part`] hands back a delivered
//! part of it; a [`Reader`] takes the frame in bursts. [`way_out`] writes a link header, [`run`]
//! runs a campus of switches over one frame and [`text`] prints that run.
//!
//! [`explain`] and [`explain_run`] also say which condition led to the
//! answer; [`generate`] makes inputs for comparisons.

#![forbid(unsafe_code)]

mod campus;
mod cause;
mod channel;
mod counters;
mod flags;
pub mod generate;
mod handle;
mod header;
pub mod hits;
mod octets;
mod options;
mod prepared;
mod reader;
mod settings;
mod text;
mod way;

pub use campus::{explain_run, run, Outcome};
pub use cause::{
    Alert, Alerted, Cause, Edition, Fault, FlagFault, FlagKind, OptionFault, Role, Silence,
};
pub use counters::{handle_counted, Counters};
pub use handle::{explain, handle, part, Answer};
pub use prepared::{handle_prepared, Prepared};
pub use reader::Reader;
pub use text::text;
pub use way::{way_out, Way};
