//! Safe calls of the proved library (docs/BOUNDARY.md): frames, elements,
//! action bodies, replies, a station and the evening list of IEEE Std
//! 802.11h-2003, under the scope document's rules.
//!
//! Nothing is kept between calls; a `Station` keeps its own octets. A call that
//! is refused gives the refusal's number of the scope document's table, and
//! leaves the buffer that was lent, or the station, as it was.

pub mod answers;
mod fields;
pub mod places;
mod raw;
pub mod station;

pub use fields::{
    Asks, ChannelMap, Frame, IbssDfs, IbssReceived, Notice, Quiet, Received, Report, Request, Says, Switch, TpcReport,
};
pub use station::{Permission, Station};

/// A MAC address, in the order of its octets on the air.
pub type Address = [u8; 6];

/// A refusal's number, from 1 to 23 (`answers`, docs/ANSWERS.md).
pub type Refusal = u8;

/// How many octets were written, or why none was.
pub type Written = Result<usize, Refusal>;

/// Why a frame is refused, and where it broke.
#[derive(Clone, Copy, Debug, PartialEq, Eq)]
pub struct Fault {
    pub refusal: Refusal,
    /// How many octets of the frame stand before the one at fault; `None`
    /// where no octet is.
    pub offset: Option<usize>,
}

/// The station that reads a frame or replies to one.
#[derive(Clone, Copy, Debug, PartialEq, Eq)]
pub struct Settings {
    /// The station's own address.
    pub own: Address,
    /// Its AP's address.
    pub ap: Address,
    /// Its beacon interval, in TU.
    pub interval: u16,
}

/// The station of an IBSS that reads a frame.
#[derive(Clone, Copy, Debug, PartialEq, Eq)]
pub struct IbssSettings {
    /// The station's own address.
    pub own: Address,
    /// The BSSID of its IBSS.
    pub bssid: Address,
    /// Its beacon interval, in TU.
    pub interval: u16,
}

/// What the caller of a reply has found.
#[derive(Clone, Copy, Debug, PartialEq, Eq)]
pub enum Finding {
    /// It refuses to measure.
    Refused,
    /// A map, for a basic request.
    Map(u8),
    /// A busy time in µs, for a CCA request.
    Busy(u32),
    /// Eight times in µs, for an RPI request.
    Times([u32; 8]),
}

impl Finding {
    /// As the replies take it: what was found, the map or the busy time, the
    /// eight times.
    fn numbers(self) -> (u8, u32, [u32; 8]) {
        match self {
            Finding::Refused => (0, 0, [0; 8]),
            Finding::Map(map) => (1, u32::from(map), [0; 8]),
            Finding::Busy(busy) => (2, busy, [0; 8]),
            Finding::Times(times) => (3, 0, times),
        }
    }
}

/// A number that a call gave back: minus a refusal's number, or a number of 0
/// or more.
fn number(code: u64) -> Result<u64, Refusal> {
    let signed = code as i64;
    if signed < 0 {
        Err(signed.unsigned_abs() as Refusal)
    } else {
        Ok(code)
    }
}

fn written(code: u64) -> Written {
    number(code).map(|length| length as usize)
}

fn address(octets: Address) -> u64 {
    let [a, b, c, d, e, f] = octets;
    u64::from_le_bytes([a, b, c, d, e, f, 0, 0])
}

// Every function of the library takes every input, so each `unsafe` below and
// in `station` asks for one thing: that each pointer and length are those of
// one slice that lives through the call, and that no other reference reaches
// what is lent for writing. They are taken from Rust's own references, which
// guarantee it.

/// Reads a frame: one of seven kinds, or its refusal.
pub fn read_frame(frame: &[u8], settings: Settings) -> Result<Received, Refusal> {
    let mut out = [0; places::FRAME_LENGTH];
    let (own, ap) = (address(settings.own), address(settings.ap));
    let code = unsafe {
        raw::oneiralth_read_frame(frame.as_ptr(), frame.len(), own, ap, settings.interval, out.as_mut_ptr(), out.len())
    };
    written(code).map(|_| fields::received(&out))
}

/// Why a frame is refused and where it broke; `None` for one that is accepted.
pub fn fault(frame: &[u8], settings: Settings) -> Option<Fault> {
    let refusal = read_frame(frame, settings).err()?;
    let (own, ap) = (address(settings.own), address(settings.ap));
    let code = unsafe { raw::oneiralth_fault_offset(frame.as_ptr(), frame.len(), own, ap, settings.interval) };
    let offset = number(code).ok().map(|offset| offset as usize);
    Some(Fault { refusal, offset })
}

/// The Quiet element at an index of a beacon or a probe response: the frame's
/// refusal, or 16 where there is none.
pub fn read_quiet(frame: &[u8], settings: Settings, index: usize) -> Result<Quiet, Refusal> {
    let mut out = [0; places::QUIET_LENGTH];
    let (own, ap) = (address(settings.own), address(settings.ap));
    let code = unsafe {
        raw::oneiralth_read_quiet(frame.as_ptr(), frame.len(), own, ap, settings.interval, index, out.as_mut_ptr(), out.len())
    };
    written(code).map(|_| fields::quiet(&out))
}

/// The element at an index of a Measurement Request frame: the frame's
/// refusal, or 16 where there is none.
pub fn read_request(frame: &[u8], settings: Settings, index: usize) -> Result<Request, Refusal> {
    let mut out = [0; places::REQUEST_LENGTH];
    let (own, ap) = (address(settings.own), address(settings.ap));
    let code = unsafe {
        raw::oneiralth_read_request(frame.as_ptr(), frame.len(), own, ap, settings.interval, index, out.as_mut_ptr(), out.len())
    };
    written(code).map(|_| fields::request(&out))
}

/// The element at an index of a Measurement Report frame: the frame's refusal,
/// or 16 where there is none.
pub fn read_report(frame: &[u8], settings: Settings, index: usize) -> Result<Report, Refusal> {
    let mut out = [0; places::REPORT_LENGTH];
    let (own, ap) = (address(settings.own), address(settings.ap));
    let code = unsafe {
        raw::oneiralth_read_report(frame.as_ptr(), frame.len(), own, ap, settings.interval, index, out.as_mut_ptr(), out.len())
    };
    written(code).map(|_| fields::report(&out))
}

/// Reads a frame as a station of an IBSS does: one of seven kinds from any
/// individual address, with the element 41 of a beacon, or its refusal.
pub fn read_ibss_frame(frame: &[u8], settings: IbssSettings) -> Result<IbssReceived, Refusal> {
    let mut out = [0; places::IBSS_FRAME_LENGTH];
    let (own, bssid) = (address(settings.own), address(settings.bssid));
    let code = unsafe {
        raw::oneiralth_read_ibss_frame(frame.as_ptr(), frame.len(), own, bssid, settings.interval, out.as_mut_ptr(), out.len())
    };
    written(code).map(|_| fields::ibss_received(&out))
}

/// Why a frame of an IBSS is refused and where it broke; `None` for one that is
/// accepted.
pub fn ibss_fault(frame: &[u8], settings: IbssSettings) -> Option<Fault> {
    let refusal = read_ibss_frame(frame, settings).err()?;
    let (own, bssid) = (address(settings.own), address(settings.bssid));
    let code = unsafe { raw::oneiralth_ibss_fault_offset(frame.as_ptr(), frame.len(), own, bssid, settings.interval) };
    let offset = number(code).ok().map(|offset| offset as usize);
    Some(Fault { refusal, offset })
}

/// The Quiet element at an index of a beacon or a probe response of an IBSS: the
/// frame's refusal, or 16 where there is none.
pub fn read_ibss_quiet(frame: &[u8], settings: IbssSettings, index: usize) -> Result<Quiet, Refusal> {
    let mut out = [0; places::QUIET_LENGTH];
    let (own, bssid) = (address(settings.own), address(settings.bssid));
    let code = unsafe {
        raw::oneiralth_read_ibss_quiet(frame.as_ptr(), frame.len(), own, bssid, settings.interval, index, out.as_mut_ptr(), out.len())
    };
    written(code).map(|_| fields::quiet(&out))
}

/// The pair at an index of the element 41 of a beacon: the frame's refusal, or 16
/// where there is none.
pub fn read_dfs_pair(frame: &[u8], settings: IbssSettings, index: usize) -> Result<ChannelMap, Refusal> {
    let mut out = [0; places::PAIR_LENGTH];
    let (own, bssid) = (address(settings.own), address(settings.bssid));
    let code = unsafe {
        raw::oneiralth_read_dfs_pair(frame.as_ptr(), frame.len(), own, bssid, settings.interval, index, out.as_mut_ptr(), out.len())
    };
    written(code).map(|_| fields::pair(&out))
}

/// Element 32, Power Constraint.
pub fn write_power_constraint(decibels: u8, out: &mut [u8]) -> Written {
    written(unsafe { raw::oneiralth_write_power_constraint(decibels, out.as_mut_ptr(), out.len()) })
}

/// Element 34, TPC Request.
pub fn write_tpc_request(out: &mut [u8]) -> Written {
    written(unsafe { raw::oneiralth_write_tpc_request(out.as_mut_ptr(), out.len()) })
}

/// Element 35, TPC Report.
pub fn write_tpc_report(report: TpcReport, out: &mut [u8]) -> Written {
    let (power, margin) = (report.power as u8, report.margin as u8);
    written(unsafe { raw::oneiralth_write_tpc_report(power, margin, out.as_mut_ptr(), out.len()) })
}

/// Element 37, Channel Switch Announcement.
pub fn write_channel_switch(switch: Switch, out: &mut [u8]) -> Written {
    let Switch { mode, channel, count } = switch;
    written(unsafe { raw::oneiralth_write_channel_switch(mode, channel, count, out.as_mut_ptr(), out.len()) })
}

/// Element 40, Quiet. The interval decides which offsets may be written.
pub fn write_quiet(quiet: Quiet, interval: u16, out: &mut [u8]) -> Written {
    let Quiet { count, period, duration, offset } = quiet;
    written(unsafe {
        raw::oneiralth_write_quiet(count, period, duration, offset, interval, out.as_mut_ptr(), out.len())
    })
}

/// Element 41, IBSS DFS. The pairs are their octets, channel and map in turn.
pub fn write_ibss_dfs(owner: Address, recovery: u8, pairs: &[u8], out: &mut [u8]) -> Written {
    written(unsafe {
        raw::oneiralth_write_ibss_dfs(address(owner), recovery, pairs.as_ptr(), pairs.len(), out.as_mut_ptr(), out.len())
    })
}

/// Element 38, Measurement Request.
pub fn write_request(request: Request, out: &mut [u8]) -> Written {
    let (asks, enable, channel, start, duration) = request.asks.numbers();
    written(unsafe {
        raw::oneiralth_write_request(
            request.token,
            request.kind,
            asks,
            enable.0,
            enable.1,
            channel,
            start,
            duration,
            out.as_mut_ptr(),
            out.len(),
        )
    })
}

/// Element 39, Measurement Report.
pub fn write_report(report: Report, out: &mut [u8]) -> Written {
    let (says, value, channel, start, duration, densities) = report.says.numbers();
    written(unsafe {
        raw::oneiralth_write_report(
            report.token,
            report.kind,
            says,
            value,
            channel,
            start,
            duration,
            densities,
            out.as_mut_ptr(),
            out.len(),
        )
    })
}

/// The body of a TPC Request frame.
pub fn write_tpc_request_body(token: u8, out: &mut [u8]) -> Written {
    written(unsafe { raw::oneiralth_write_tpc_request_body(token, out.as_mut_ptr(), out.len()) })
}

/// The body of a TPC Report frame.
pub fn write_tpc_report_body(token: u8, report: TpcReport, out: &mut [u8]) -> Written {
    let (power, margin) = (report.power as u8, report.margin as u8);
    written(unsafe { raw::oneiralth_write_tpc_report_body(token, power, margin, out.as_mut_ptr(), out.len()) })
}

/// The body of a Channel Switch Announcement frame.
pub fn write_channel_switch_body(switch: Switch, out: &mut [u8]) -> Written {
    let Switch { mode, channel, count } = switch;
    written(unsafe { raw::oneiralth_write_channel_switch_body(mode, channel, count, out.as_mut_ptr(), out.len()) })
}

/// One element more of a Measurement Request body, after the first `used`
/// octets of the buffer; with none used the body begins. Gives how many octets
/// were put.
pub fn append_request(buffer: &mut [u8], used: usize, dialog: u8, request: Request) -> Written {
    let (asks, enable, channel, start, duration) = request.asks.numbers();
    written(unsafe {
        raw::oneiralth_append_request(
            buffer.as_mut_ptr(),
            buffer.len(),
            used,
            dialog,
            request.token,
            request.kind,
            asks,
            enable.0,
            enable.1,
            channel,
            start,
            duration,
        )
    })
}

/// One element more of a Measurement Report body, in the same way.
pub fn append_report(buffer: &mut [u8], used: usize, dialog: u8, report: Report) -> Written {
    let (says, value, channel, start, duration, densities) = report.says.numbers();
    written(unsafe {
        raw::oneiralth_append_report(
            buffer.as_mut_ptr(),
            buffer.len(),
            used,
            dialog,
            report.token,
            report.kind,
            says,
            value,
            channel,
            start,
            duration,
            densities,
        )
    })
}

/// The reply to a TPC Request: a whole frame. An action frame to the station
/// alone whose body is broken gets that body back as an error return, so a reply
/// may be as long as a frame: 2,336 octets always suffice.
pub fn reply_to_tpc_request(frame: &[u8], own: Address, ap: Address, report: TpcReport, out: &mut [u8]) -> Written {
    let (power, margin) = (report.power as u8, report.margin as u8);
    written(unsafe {
        raw::oneiralth_reply_to_tpc_request(
            frame.as_ptr(),
            frame.len(),
            address(own),
            address(ap),
            power,
            margin,
            out.as_mut_ptr(),
            out.len(),
        )
    })
}

/// The reply to the element at an index of a Measurement Request: a whole
/// frame. `clock` is the station's, in TU. A broken body comes back as it does
/// from `reply_to_tpc_request`.
pub fn reply_to_measurement_request(
    frame: &[u8],
    own: Address,
    ap: Address,
    clock: u32,
    index: usize,
    finding: Finding,
    out: &mut [u8],
) -> Written {
    let (found, value, t) = finding.numbers();
    written(unsafe {
        raw::oneiralth_reply_to_measurement_request(
            frame.as_ptr(),
            frame.len(),
            address(own),
            address(ap),
            clock,
            index,
            found,
            value,
            t[0],
            t[1],
            t[2],
            t[3],
            t[4],
            t[5],
            t[6],
            t[7],
            out.as_mut_ptr(),
            out.len(),
        )
    })
}

/// The busy fraction of a time in µs within a duration in TU.
pub fn busy_fraction(busy: u32, duration: u16) -> Result<u8, Refusal> {
    number(unsafe { raw::oneiralth_busy_fraction(busy, duration) }).map(|fraction| fraction as u8)
}

/// The eight densities of eight times in µs within a duration in TU.
pub fn rpi_densities(times: [u32; 8], duration: u16) -> Result<[u8; 8], Refusal> {
    let mut out = [0; 8];
    let t = times;
    let code = unsafe {
        raw::oneiralth_rpi_densities(
            t[0],
            t[1],
            t[2],
            t[3],
            t[4],
            t[5],
            t[6],
            t[7],
            duration,
            out.as_mut_ptr(),
            out.len(),
        )
    };
    written(code).map(|_| out)
}

/// The centre of a channel, in MHz.
pub fn centre(channel: u8) -> Result<u16, Refusal> {
    number(unsafe { raw::oneiralth_centre(channel) }).map(|megahertz| megahertz as u16)
}

/// The evening list of a whole capture; 13, and no octet written, where it
/// does not fit.
pub fn list(capture: &[u8], out: &mut [u8]) -> Written {
    written(unsafe { raw::oneiralth_list(capture.as_ptr(), capture.len(), out.as_mut_ptr(), out.len()) })
}
