//! Calls as the library exports them. The safe ones say of an accepted frame
//! and of refusals 1 to 4 alike that there is no place, lend a buffer that
//! suffices, and keep a station's octets to themselves; here the number that
//! tells them apart is seen, buffers can be short, and octets that should hold
//! a station can be any.

use crate::builder::{Address, Stage};
use twin::Finding;

extern "C" {
    fn oneiralth_fault_offset(
        frame: *const u8,
        frame_length: usize,
        own: u64,
        ap: u64,
        interval: u16,
    ) -> u64;
    fn oneiralth_ibss_fault_offset(
        frame: *const u8,
        frame_length: usize,
        own: u64,
        bssid: u64,
        interval: u16,
    ) -> u64;
    fn oneiralth_read_ibss_frame(
        frame: *const u8,
        frame_length: usize,
        own: u64,
        bssid: u64,
        interval: u16,
        out: *mut u8,
        out_length: usize,
    ) -> u64;
    fn oneiralth_read_ibss_quiet(
        frame: *const u8,
        frame_length: usize,
        own: u64,
        bssid: u64,
        interval: u16,
        index: usize,
        out: *mut u8,
        out_length: usize,
    ) -> u64;
    fn oneiralth_read_dfs_pair(
        frame: *const u8,
        frame_length: usize,
        own: u64,
        bssid: u64,
        interval: u16,
        index: usize,
        out: *mut u8,
        out_length: usize,
    ) -> u64;
    fn oneiralth_station_size() -> u64;
    fn oneiralth_station_start(
        own: u64,
        ap: u64,
        interval: u16,
        channel: u8,
        station: *mut u8,
        station_length: usize,
    ) -> u64;
    fn oneiralth_station_take(
        station: *mut u8,
        station_length: usize,
        frame: *const u8,
        frame_length: usize,
    ) -> u64;
    fn oneiralth_station_advance(station: *mut u8, station_length: usize, units: u32) -> u64;
    fn oneiralth_station_ask(station: *const u8, station_length: usize, units: u32) -> u64;
    fn oneiralth_station_reply_to_tpc_request(
        station: *const u8,
        station_length: usize,
        frame: *const u8,
        frame_length: usize,
        power: u8,
        margin: u8,
        out: *mut u8,
        out_length: usize,
    ) -> u64;
    fn oneiralth_station_reply_to_measurement_request(
        station: *const u8,
        station_length: usize,
        frame: *const u8,
        frame_length: usize,
        index: usize,
        found: u8,
        value: u32,
        t0: u32,
        t1: u32,
        t2: u32,
        t3: u32,
        t4: u32,
        t5: u32,
        t6: u32,
        t7: u32,
        out: *mut u8,
        out_length: usize,
    ) -> u64;
}

/// How many octets, a place, an answer, or the number of a refusal.
fn number(code: u64) -> Result<usize, u8> {
    let signed = code as i64;
    if signed < 0 {
        Err(u8::try_from(signed.unsigned_abs()).unwrap_or(u8::MAX))
    } else {
        Ok(code as usize)
    }
}

// Every function takes every input; each pointer and length below are those of
// one slice, which lives through the call, and what is lent for writing is
// reached by no other reference.

/// The place, or the number of a refusal.
pub fn fault_offset(stage: &Stage, frame: &[u8]) -> Result<usize, u8> {
    let (own, ap) = (address(stage.own), address(stage.ap));
    number(unsafe { oneiralth_fault_offset(frame.as_ptr(), frame.len(), own, ap, stage.interval) })
}

/// The same of a frame of an IBSS.
pub fn ibss_fault_offset(stage: &Stage, frame: &[u8]) -> Result<usize, u8> {
    let (own, bssid) = (address(stage.own), address(stage.ap));
    number(unsafe {
        oneiralth_ibss_fault_offset(frame.as_ptr(), frame.len(), own, bssid, stage.interval)
    })
}

/// The fields of a frame of an IBSS.
pub fn read_ibss_frame(stage: &Stage, frame: &[u8], out: &mut [u8]) -> Result<usize, u8> {
    let (own, bssid) = (address(stage.own), address(stage.ap));
    let (octets, length) = (out.as_mut_ptr(), out.len());
    number(unsafe {
        oneiralth_read_ibss_frame(
            frame.as_ptr(),
            frame.len(),
            own,
            bssid,
            stage.interval,
            octets,
            length,
        )
    })
}

/// A Quiet element of it.
pub fn read_ibss_quiet(
    stage: &Stage,
    frame: &[u8],
    index: usize,
    out: &mut [u8],
) -> Result<usize, u8> {
    let (own, bssid) = (address(stage.own), address(stage.ap));
    let (octets, length) = (out.as_mut_ptr(), out.len());
    number(unsafe {
        oneiralth_read_ibss_quiet(
            frame.as_ptr(),
            frame.len(),
            own,
            bssid,
            stage.interval,
            index,
            octets,
            length,
        )
    })
}

/// A pair of its element 41.
pub fn read_dfs_pair(
    stage: &Stage,
    frame: &[u8],
    index: usize,
    out: &mut [u8],
) -> Result<usize, u8> {
    let (own, bssid) = (address(stage.own), address(stage.ap));
    let (octets, length) = (out.as_mut_ptr(), out.len());
    number(unsafe {
        oneiralth_read_dfs_pair(
            frame.as_ptr(),
            frame.len(),
            own,
            bssid,
            stage.interval,
            index,
            octets,
            length,
        )
    })
}

/// So many octets a station takes.
pub fn station_size() -> Result<usize, u8> {
    number(unsafe { oneiralth_station_size() })
}

/// Starts a station in these octets.
pub fn station_start(stage: &Stage, channel: u8, station: &mut [u8]) -> Result<usize, u8> {
    let (own, ap) = (address(stage.own), address(stage.ap));
    let (octets, length) = (station.as_mut_ptr(), station.len());
    number(unsafe { oneiralth_station_start(own, ap, stage.interval, channel, octets, length) })
}

/// Hands a frame to the station in these octets.
pub fn station_take(station: &mut [u8], frame: &[u8]) -> Result<usize, u8> {
    let (octets, length) = (station.as_mut_ptr(), station.len());
    number(unsafe { oneiralth_station_take(octets, length, frame.as_ptr(), frame.len()) })
}

/// Advances its clock.
pub fn station_advance(station: &mut [u8], units: u32) -> Result<usize, u8> {
    number(unsafe { oneiralth_station_advance(station.as_mut_ptr(), station.len(), units) })
}

/// Asks it to send.
pub fn station_ask(station: &[u8], units: u32) -> Result<usize, u8> {
    number(unsafe { oneiralth_station_ask(station.as_ptr(), station.len(), units) })
}

/// Its reply to a TPC Request.
pub fn station_reply_to_tpc_request(
    station: &[u8],
    frame: &[u8],
    (power, margin): (i8, i8),
    out: &mut [u8],
) -> Result<usize, u8> {
    let (octets, length) = (out.as_mut_ptr(), out.len());
    number(unsafe {
        oneiralth_station_reply_to_tpc_request(
            station.as_ptr(),
            station.len(),
            frame.as_ptr(),
            frame.len(),
            power as u8,
            margin as u8,
            octets,
            length,
        )
    })
}

/// Its reply to an element of a Measurement Request. What a finding has not got
/// is not looked at, so it is not 0 here.
pub fn station_reply_to_measurement_request(
    station: &[u8],
    frame: &[u8],
    index: usize,
    finding: Finding,
    out: &mut [u8],
) -> Result<usize, u8> {
    let (found, value, t) = match finding {
        Finding::Refused => (0, 5, [6; 8]),
        Finding::Map(map) => (1, u32::from(map), [7; 8]),
        Finding::Busy(busy) => (2, busy, [8; 8]),
        Finding::Times(times) => (3, 9, times),
    };
    let (octets, length) = (out.as_mut_ptr(), out.len());
    number(unsafe {
        oneiralth_station_reply_to_measurement_request(
            station.as_ptr(),
            station.len(),
            frame.as_ptr(),
            frame.len(),
            index,
            found,
            value,
            t[0],
            t[1],
            t[2],
            t[3],
            t[4],
            t[5],
            t[6],
            t[7],
            octets,
            length,
        )
    })
}

/// The two octets past an address are not looked at, so they are not 0 here.
fn address([a, b, c, d, e, f]: Address) -> u64 {
    u64::from_le_bytes([a, b, c, d, e, f, 0xA5, f])
}
