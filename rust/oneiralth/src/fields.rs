//! Records, as the library puts their fields (`places`).

use crate::places::*;
use crate::Address;

/// A TPC Report: power in dBm, margin in dB.
#[derive(Clone, Copy, Debug, PartialEq, Eq)]
pub struct TpcReport {
    pub power: i8,
    pub margin: i8,
}

/// A Channel Switch Announcement.
#[derive(Clone, Copy, Debug, PartialEq, Eq)]
pub struct Switch {
    pub mode: u8,
    pub channel: u8,
    pub count: u8,
}

/// A Quiet element.
#[derive(Clone, Copy, Debug, PartialEq, Eq)]
pub struct Quiet {
    pub count: u8,
    pub period: u8,
    pub duration: u16,
    pub offset: u16,
}

/// What a beacon or a probe response says.
#[derive(Clone, Debug, PartialEq, Eq)]
pub struct Notice {
    pub timestamp: u64,
    pub capability: u16,
    pub constraint: Option<u8>,
    pub report: Option<TpcReport>,
    pub switch: Option<Switch>,
    /// How many Quiet elements there are, each read by its index.
    pub quiets: usize,
}

/// A frame: one of seven kinds.
#[derive(Clone, Debug, PartialEq, Eq)]
pub enum Frame {
    Beacon(Notice),
    ProbeResponse(Notice),
    /// `count` elements, each read by its index.
    MeasurementRequest { token: u8, count: usize },
    MeasurementReport { token: u8, count: usize },
    TpcRequest { token: u8 },
    TpcReport { token: u8, report: TpcReport },
    ChannelSwitch(Switch),
}

/// A frame, and whether it was sent to all ones.
#[derive(Clone, Debug, PartialEq, Eq)]
pub struct Received {
    pub broadcast: bool,
    pub frame: Frame,
}

/// What an element 41 says; its pairs are read by their index.
#[derive(Clone, Copy, Debug, PartialEq, Eq)]
pub struct IbssDfs {
    pub owner: Address,
    /// The recovery interval, in beacon intervals.
    pub recovery: u8,
    /// How many pairs it has.
    pub pairs: usize,
}

/// A pair of element 41.
#[derive(Clone, Copy, Debug, PartialEq, Eq)]
pub struct ChannelMap {
    pub channel: u8,
    pub map: u8,
}

/// A frame as a station of an IBSS reads it.
#[derive(Clone, Debug, PartialEq, Eq)]
pub struct IbssReceived {
    pub received: Received,
    /// Who sent it.
    pub sender: Address,
    /// The element 41 of a beacon, if it has one.
    pub dfs: Option<IbssDfs>,
}

/// A Measurement Request element.
#[derive(Clone, Copy, Debug, PartialEq, Eq)]
pub struct Request {
    pub token: u8,
    pub kind: u8,
    pub asks: Asks,
}

/// What a Measurement Request element asks.
#[derive(Clone, Copy, Debug, PartialEq, Eq)]
pub enum Asks {
    Enable { request: bool, report: bool },
    Measure { channel: u8, start: u64, duration: u16 },
    Uninterpreted,
}

/// A Measurement Report element.
#[derive(Clone, Copy, Debug, PartialEq, Eq)]
pub struct Report {
    pub token: u8,
    pub kind: u8,
    pub says: Says,
}

/// What a Measurement Report element says.
#[derive(Clone, Copy, Debug, PartialEq, Eq)]
pub enum Says {
    Late,
    Incapable,
    Refused,
    Basic { channel: u8, start: u64, duration: u16, map: u8 },
    Cca { channel: u8, start: u64, duration: u16, busy: u8 },
    Rpi { channel: u8, start: u64, duration: u16, densities: [u8; 8] },
    Uninterpreted,
}

impl Asks {
    /// As the writers take it: what is asked, the Enable element's two bits,
    /// channel, start, duration.
    pub(crate) fn numbers(self) -> (u8, (bool, bool), u8, u64, u16) {
        match self {
            Asks::Enable { request, report } => (0, (request, report), 0, 0, 0),
            Asks::Measure { channel, start, duration } => (1, (false, false), channel, start, duration),
            Asks::Uninterpreted => (2, (false, false), 0, 0, 0),
        }
    }
}

impl Says {
    /// As the writers take it: what is said, the map or the busy fraction,
    /// channel, start, duration, densities.
    pub(crate) fn numbers(self) -> (u8, u8, u8, u64, u16, u64) {
        match self {
            Says::Late => (0, 0, 0, 0, 0, 0),
            Says::Incapable => (1, 0, 0, 0, 0, 0),
            Says::Refused => (2, 0, 0, 0, 0, 0),
            Says::Basic { channel, start, duration, map } => (3, map, channel, start, duration, 0),
            Says::Cca { channel, start, duration, busy } => (4, busy, channel, start, duration, 0),
            Says::Rpi { channel, start, duration, densities } => {
                (5, 0, channel, start, duration, u64::from_le_bytes(densities))
            }
            Says::Uninterpreted => (6, 0, 0, 0, 0, 0),
        }
    }
}

fn u16_at(octets: &[u8], at: usize) -> u16 {
    u16::from_le_bytes([octets[at], octets[at + 1]])
}

fn u64_at(octets: &[u8], at: usize) -> u64 {
    let mut number = [0; 8];
    number.copy_from_slice(&octets[at..at + 8]);
    u64::from_le_bytes(number)
}

fn address_at(octets: &[u8], at: usize) -> Address {
    let mut address = [0; 6];
    address.copy_from_slice(&octets[at..at + 6]);
    address
}

fn notice(out: &[u8]) -> Notice {
    Notice {
        timestamp: u64_at(out, TIMESTAMP),
        capability: u16_at(out, CAPABILITY),
        constraint: (out[POWER] == 1).then(|| out[POWER + 1]),
        report: (out[REPORT] == 1).then(|| tpc_report(out)),
        switch: (out[SWITCH] == 1).then(|| switch(out)),
        quiets: u64_at(out, QUIETS) as usize,
    }
}

fn tpc_report(out: &[u8]) -> TpcReport {
    TpcReport { power: out[REPORT + 1] as i8, margin: out[REPORT + 2] as i8 }
}

fn switch(out: &[u8]) -> Switch {
    Switch { mode: out[SWITCH + 1], channel: out[SWITCH + 2], count: out[SWITCH + 3] }
}

/// Of the octets of a frame of either reader, which begin alike.
pub fn received(out: &[u8]) -> Received {
    let token = out[TOKEN];
    let count = u64_at(out, ELEMENTS) as usize;
    let frame = match out[KIND] {
        0 => Frame::Beacon(notice(out)),
        1 => Frame::ProbeResponse(notice(out)),
        2 => Frame::MeasurementRequest { token, count },
        3 => Frame::MeasurementReport { token, count },
        4 => Frame::TpcRequest { token },
        5 => Frame::TpcReport { token, report: tpc_report(out) },
        _ => Frame::ChannelSwitch(switch(out)),
    };
    Received { broadcast: out[TO_ALL] == 1, frame }
}

pub fn ibss_received(out: &[u8; IBSS_FRAME_LENGTH]) -> IbssReceived {
    let dfs = IbssDfs {
        owner: address_at(out, OWNER),
        recovery: out[RECOVERY],
        pairs: u64_at(out, PAIRS) as usize,
    };
    IbssReceived {
        received: received(out),
        sender: address_at(out, SENDER),
        dfs: (out[DFS] == 1).then_some(dfs),
    }
}

pub fn pair(out: &[u8; PAIR_LENGTH]) -> ChannelMap {
    ChannelMap { channel: out[PAIR_CHANNEL], map: out[PAIR_MAP] }
}

pub fn quiet(out: &[u8; QUIET_LENGTH]) -> Quiet {
    Quiet {
        count: out[QUIET_COUNT],
        period: out[QUIET_PERIOD],
        duration: u16_at(out, QUIET_DURATION),
        offset: u16_at(out, QUIET_OFFSET),
    }
}

pub fn request(out: &[u8; REQUEST_LENGTH]) -> Request {
    let (channel, start, duration) = (out[REQUEST_CHANNEL], u64_at(out, REQUEST_START), u16_at(out, REQUEST_DURATION));
    let asks = match out[REQUEST_ASKS] {
        0 => Asks::Enable { request: out[REQUEST_REQUEST] == 1, report: out[REQUEST_REPORT] == 1 },
        1 => Asks::Measure { channel, start, duration },
        _ => Asks::Uninterpreted,
    };
    Request { token: out[REQUEST_TOKEN], kind: out[REQUEST_TYPE], asks }
}

pub fn report(out: &[u8; REPORT_LENGTH]) -> Report {
    let value = out[REPORT_VALUE];
    let (channel, start, duration) = (out[REPORT_CHANNEL], u64_at(out, REPORT_START), u16_at(out, REPORT_DURATION));
    let says = match out[REPORT_SAYS] {
        0 => Says::Late,
        1 => Says::Incapable,
        2 => Says::Refused,
        3 => Says::Basic { channel, start, duration, map: value },
        4 => Says::Cca { channel, start, duration, busy: value },
        5 => Says::Rpi { channel, start, duration, densities: u64_at(out, REPORT_DENSITIES).to_le_bytes() },
        _ => Says::Uninterpreted,
    };
    Report { token: out[REPORT_TOKEN], kind: out[REPORT_TYPE], says }
}
