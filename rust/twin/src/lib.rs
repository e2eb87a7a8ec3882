//! A second, independent reading of document 01 ("Scope of the build and its
//! rules") and of requests One, Two, Four, Five and Six in document 02, over
//! IEEE Std 802.11h-2003: elements, action frames, replies, one non-AP station,
//! one station of an IBSS, a table of sixteen stations, and the evening list of
//! a capture.
//!
//! Every refusal is a `u8` of the document's table, see [`answer`]; that of a
//! frame says its place too, see [`Refusal`]. No function panics, and a
//! refusal leaves lent buffers and the station as they were.

#![forbid(unsafe_code)]
#![warn(missing_docs)]

pub mod answer;
pub mod body;
pub mod capture;
pub mod channel;
pub mod dfs;
pub mod element;
pub mod fraction;
pub mod frame;
mod header;
pub mod ibss;
pub mod measurement;
mod octets;
pub mod reply;
pub mod station;
pub mod table;

#[cfg(test)]
mod sample;

/// A MAC address, in the order of its octets on the air.
pub type Address = [u8; 6];

pub use answer::Refusal;
pub use body::{
    append_measurement_report, append_measurement_request, write_channel_switch_body,
    write_measurement_report_body, write_measurement_request_body, write_tpc_report_body,
    write_tpc_request_body,
};
pub use capture::list;
pub use channel::{centre, CENTRES};
pub use dfs::{read_ibss_dfs, write_ibss_dfs, ChannelMap, IbssDfs};
pub use element::{
    read_channel_switch, read_power_constraint, read_quiet, read_tpc_report, read_tpc_request,
    write_channel_switch, write_power_constraint, write_quiet, write_tpc_report, write_tpc_request,
    Quiet, Switch,
};
pub use fraction::{busy_fraction, rpi_densities};
pub use frame::{read_frame, read_ibss_frame, Frame, IbssReceived, Notice, Received};
pub use ibss::{IbssStation, Owner};
pub use measurement::{
    read_measurement_report, read_measurement_request, write_measurement_report,
    write_measurement_request, Asks, Report, Request, Says,
};
pub use reply::{
    reply_to_measurement_request, reply_to_measurement_request_in_ibss, reply_to_tpc_request,
    reply_to_tpc_request_in_ibss, Finding,
};
pub use station::{PendingSwitch, Station};
pub use table::Table;
