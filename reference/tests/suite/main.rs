//! Tests of the reference against documents 01 and 02.

mod bursts;
mod campus;
mod cases;
mod counters;
mod edition;
mod generated;
mod options;
mod prepared;
mod program;
mod readings;
mod replies;
mod settings;
mod support;
mod vlan;
mod way;
