//! The elements 32, 34, 35, 37 and 40 (802.11h 7.3.2.15 to 7.3.2.23), and how
//! an element is cut from the octets before it is read. The two measurement
//! elements are in `measurement`, the IBSS DFS element is in `dfs`.

use crate::answer::{
    Refusal, ANOTHER_ELEMENT, ELEMENT_ABSENT, ELEMENT_CUT, ELEMENT_LENGTH, IMPOSSIBLE, VALUE,
};
use crate::octets::{lay, u16_at};
use crate::station::Station;

/// Power Constraint (802.11h 7.3.2.15).
pub const POWER_CONSTRAINT: u8 = 32;
/// TPC Request (802.11h 7.3.2.17).
pub const TPC_REQUEST: u8 = 34;
/// TPC Report (802.11h 7.3.2.18).
pub const TPC_REPORT: u8 = 35;
/// Channel Switch Announcement (802.11h 7.3.2.20).
pub const CHANNEL_SWITCH: u8 = 37;
/// Measurement Request (802.11h 7.3.2.21).
pub const MEASUREMENT_REQUEST: u8 = 38;
/// Measurement Report (802.11h 7.3.2.22).
pub const MEASUREMENT_REPORT: u8 = 39;
/// Quiet (802.11h 7.3.2.23).
pub const QUIET: u8 = 40;
/// IBSS DFS (802.11h 7.3.2.24).
pub const IBSS_DFS: u8 = 41;
/// A vendor's own element (02, Four); 802.11h has its ID reserved.
const VENDOR: u8 = 221;

/// An element's ID and length octets.
const HEAD: usize = 2;

/// A Channel Switch Announcement (802.11h 7.3.2.20).
#[derive(Clone, Copy, Debug, PartialEq, Eq)]
pub struct Switch {
    /// 1 forbids sending until the switch, 0 does not.
    pub mode: u8,
    /// The new channel.
    pub channel: u8,
    /// How many TBTTs until the switch; 0 is at once.
    pub count: u8,
}

/// A Quiet element (802.11h 7.3.2.23).
#[derive(Clone, Copy, Debug, PartialEq, Eq)]
pub struct Quiet {
    /// How many TBTTs until the beacon interval of the first run.
    pub count: u8,
    /// Beacon intervals from one run to the next; 0 is a single run.
    pub period: u8,
    /// TU of each run; 0 covers nothing.
    pub duration: u16,
    /// TU from the TBTT to the start of the run.
    pub offset: u16,
}

/// An element cut from a frame.
pub(crate) struct Cut<'a> {
    /// Where its ID octet stands.
    pub(crate) at: usize,
    pub(crate) id: u8,
    pub(crate) contents: &'a [u8],
    /// Where what follows the element begins.
    pub(crate) end: usize,
}

impl Cut<'_> {
    /// A fault of this element: it is told at "the element's ID octet" (02,
    /// One).
    pub(crate) fn refused(&self, number: u8) -> Refusal {
        Refusal::at(number, self.at)
    }
}

/// Cuts the element that begins at `at`, whatever its ID. `at` is not past the
/// end of the octets.
pub(crate) fn cut_any(octets: &[u8], at: usize) -> Result<Cut<'_>, Refusal> {
    let contents = at + HEAD;
    if octets.len() < contents {
        return Err(Refusal::at(ELEMENT_CUT, at));
    }
    let length = usize::from(octets[at + 1]);
    let end = contents + length;
    if octets.len() < end {
        return Err(Refusal::at(ELEMENT_CUT, at));
    }
    Ok(Cut {
        at,
        id: octets[at],
        contents: &octets[contents..end],
        end,
    })
}

/// Cuts an element that must begin at `at` and have this ID, in an action
/// frame: "absent (7), header cut (6), wrong element" (21), "contents cut (6)".
/// A vendor's element is a wrong one here, since those are skipped after an
/// element, not in front of it (02, Four). `at` is not past the end of the
/// octets.
pub(crate) fn cut_required(octets: &[u8], at: usize, id: u8) -> Result<Cut<'_>, Refusal> {
    if octets.len() == at {
        // "Absent gives the frame's length" (02, One).
        return Err(Refusal::at(ELEMENT_ABSENT, octets.len()));
    }
    if octets.len() < at + HEAD {
        return Err(Refusal::at(ELEMENT_CUT, at));
    }
    if octets[at] != id {
        return Err(Refusal::at(ANOTHER_ELEMENT, at));
    }
    cut_any(octets, at)
}

/// Where what follows the vendors' elements at `at` begins: whole ones are
/// skipped after an element of an action frame, however many there are, and
/// "a cut one is refusal 6", in its header or its contents, told at its ID
/// octet (02, Four).
pub(crate) fn skip_vendors(octets: &[u8], at: usize) -> Result<usize, Refusal> {
    let mut end = at;
    while octets.get(end) == Some(&VENDOR) {
        end = cut_any(octets, end)?.end;
    }
    Ok(end)
}

/// An element in octets. No element written here has over 255 contents octets.
pub(crate) fn element_octets(id: u8, contents: &[u8]) -> Vec<u8> {
    let mut octets = Vec::with_capacity(HEAD + contents.len());
    octets.push(id);
    octets.push(contents.len() as u8);
    octets.extend_from_slice(contents);
    octets
}

/// Refuses contents that have not exactly `length` octets.
fn check_length(contents: &[u8], length: usize) -> Result<(), u8> {
    if contents.len() == length {
        Ok(())
    } else {
        Err(ELEMENT_LENGTH)
    }
}

/// Whether the rules allow this channel: 0 to 200.
pub(crate) fn is_channel(channel: u8) -> bool {
    channel <= Station::CHANNEL_LIMIT
}

impl Switch {
    /// "Mode over 1 or channel over 200: 9."
    fn is_allowed(&self) -> bool {
        self.mode <= 1 && is_channel(self.channel)
    }
}

impl Quiet {
    /// "Count 0 or offset >= B: 9."
    fn is_allowed(&self, interval: u16) -> bool {
        self.count != 0 && self.offset < interval
    }
}

/// Reads the contents of a Power Constraint: the constraint in dB.
pub fn read_power_constraint(contents: &[u8]) -> Result<u8, u8> {
    check_length(contents, 1)?;
    Ok(contents[0])
}

/// Reads the contents of a TPC Request, which are none.
pub fn read_tpc_request(contents: &[u8]) -> Result<(), u8> {
    check_length(contents, 0)
}

/// Reads the contents of a TPC Report: power in dBm and margin in dB.
pub fn read_tpc_report(contents: &[u8]) -> Result<(i8, i8), u8> {
    check_length(contents, 2)?;
    Ok((
        i8::from_le_bytes([contents[0]]),
        i8::from_le_bytes([contents[1]]),
    ))
}

/// Reads the contents of a Channel Switch Announcement.
pub fn read_channel_switch(contents: &[u8]) -> Result<Switch, u8> {
    check_length(contents, 3)?;
    let switch = Switch {
        mode: contents[0],
        channel: contents[1],
        count: contents[2],
    };
    if switch.is_allowed() {
        Ok(switch)
    } else {
        Err(VALUE)
    }
}

/// Reads the contents of a Quiet element under beacon interval B.
pub fn read_quiet(contents: &[u8], interval: u16) -> Result<Quiet, u8> {
    check_length(contents, 6)?;
    let quiet = Quiet {
        count: contents[0],
        period: contents[1],
        duration: u16_at(contents, 2),
        offset: u16_at(contents, 4),
    };
    if quiet.is_allowed(interval) {
        Ok(quiet)
    } else {
        Err(VALUE)
    }
}

/// Writes a Power Constraint element to the front of `out`: 3 octets.
pub fn write_power_constraint(constraint: u8, out: &mut [u8]) -> Result<usize, u8> {
    lay(&element_octets(POWER_CONSTRAINT, &[constraint]), out)
}

/// Writes a TPC Request element to the front of `out`: 2 octets.
pub fn write_tpc_request(out: &mut [u8]) -> Result<usize, u8> {
    lay(&tpc_request_octets(), out)
}

/// Writes a TPC Report element to the front of `out`: 4 octets.
pub fn write_tpc_report(power: i8, margin: i8, out: &mut [u8]) -> Result<usize, u8> {
    lay(&tpc_report_octets(power, margin), out)
}

/// Writes a Channel Switch Announcement element to the front of `out`: 5 octets.
pub fn write_channel_switch(switch: Switch, out: &mut [u8]) -> Result<usize, u8> {
    lay(&channel_switch_octets(switch)?, out)
}

/// Writes a Quiet element, under beacon interval B, to the front of `out`: 8 octets.
pub fn write_quiet(quiet: Quiet, interval: u16, out: &mut [u8]) -> Result<usize, u8> {
    if !quiet.is_allowed(interval) {
        return Err(IMPOSSIBLE);
    }
    let duration = quiet.duration.to_le_bytes();
    let offset = quiet.offset.to_le_bytes();
    let contents = [
        quiet.count,
        quiet.period,
        duration[0],
        duration[1],
        offset[0],
        offset[1],
    ];
    lay(&element_octets(QUIET, &contents), out)
}

/// A TPC Request element in octets.
pub(crate) fn tpc_request_octets() -> Vec<u8> {
    element_octets(TPC_REQUEST, &[])
}

/// A TPC Report element in octets.
pub(crate) fn tpc_report_octets(power: i8, margin: i8) -> Vec<u8> {
    let contents = [power.to_le_bytes()[0], margin.to_le_bytes()[0]];
    element_octets(TPC_REPORT, &contents)
}

/// A Channel Switch Announcement element in octets, or 16.
pub(crate) fn channel_switch_octets(switch: Switch) -> Result<Vec<u8>, u8> {
    if !switch.is_allowed() {
        return Err(IMPOSSIBLE);
    }
    let contents = [switch.mode, switch.channel, switch.count];
    Ok(element_octets(CHANNEL_SWITCH, &contents))
}

#[cfg(test)]
mod tests {
    use super::*;

    /// Reads what a writer put into `out`, as contents of the element `id`.
    fn contents_of(out: &[u8], id: u8) -> &[u8] {
        let cut = cut_any(out, 0).unwrap();
        assert_eq!(cut.id, id);
        cut.contents
    }

    #[test]
    fn vendors_are_skipped_whole() {
        let octets = [221, 0, 221, 2, 221, 9, 38, 221, 1, 7, 221, 1];
        let cut = |place| Err(Refusal::at(6, place));
        // From each octet that is a vendor's ID, up to one that is not.
        assert_eq!(skip_vendors(&octets, 0), Ok(6));
        assert_eq!(skip_vendors(&octets, 2), Ok(6));
        assert_eq!(skip_vendors(&octets[..10], 7), Ok(10));
        assert_eq!(skip_vendors(&octets, 7), cut(10));
        assert_eq!(skip_vendors(&octets[..11], 7), cut(10));
        assert_eq!(skip_vendors(&octets[..5], 0), cut(2));
        assert_eq!(skip_vendors(&octets[..3], 0), cut(2));
        assert_eq!(skip_vendors(&octets[..1], 0), cut(0));
        assert_eq!(skip_vendors(&octets[..2], 0), Ok(2));
        // From other octets, and from the end, nothing.
        assert_eq!(skip_vendors(&octets, 6), Ok(6));
        assert_eq!(skip_vendors(&octets, 12), Ok(12));
        for id in (0..=255u8).filter(|&id| id != 221) {
            assert_eq!(skip_vendors(&[id], 0), Ok(0));
            assert_eq!(skip_vendors(&[id, 0], 0), Ok(0));
        }
    }

    #[test]
    fn power_constraint_round_trip() {
        for constraint in 0..=255u8 {
            let mut out = [0xEE; 4];
            assert_eq!(write_power_constraint(constraint, &mut out), Ok(3));
            assert_eq!(out, [32, 1, constraint, 0xEE]);
            assert_eq!(read_power_constraint(contents_of(&out, 32)), Ok(constraint));
        }
        assert_eq!(read_power_constraint(&[]), Err(8));
        assert_eq!(read_power_constraint(&[1, 2]), Err(8));
    }

    #[test]
    fn tpc_request_round_trip() {
        let mut out = [0xEE; 3];
        assert_eq!(write_tpc_request(&mut out), Ok(2));
        assert_eq!(out, [34, 0, 0xEE]);
        assert_eq!(read_tpc_request(contents_of(&out, 34)), Ok(()));
        assert_eq!(read_tpc_request(&[0]), Err(8));
    }

    #[test]
    fn tpc_report_is_signed() {
        for power in [-128i8, -1, 0, 1, 127] {
            for margin in [-128i8, -1, 0, 1, 127] {
                let mut out = [0xEE; 5];
                assert_eq!(write_tpc_report(power, margin, &mut out), Ok(4));
                assert_eq!(out, [35, 2, power as u8, margin as u8, 0xEE]);
                assert_eq!(read_tpc_report(contents_of(&out, 35)), Ok((power, margin)));
            }
        }
        assert_eq!(read_tpc_report(&[1]), Err(8));
        assert_eq!(read_tpc_report(&[1, 2, 3]), Err(8));
    }

    #[test]
    fn channel_switch_on_both_sides() {
        for mode in 0..=255u8 {
            for channel in 0..=255u8 {
                let switch = Switch {
                    mode,
                    channel,
                    count: 7,
                };
                let mut out = [0xEE; 6];
                let allowed = mode <= 1 && channel <= 200;
                let read = read_channel_switch(&[mode, channel, 7]);
                let written = write_channel_switch(switch, &mut out);
                if allowed {
                    assert_eq!(read, Ok(switch));
                    assert_eq!(written, Ok(5));
                    assert_eq!(out, [37, 3, mode, channel, 7, 0xEE]);
                } else {
                    assert_eq!(read, Err(9));
                    assert_eq!(written, Err(16));
                    assert_eq!(out, [0xEE; 6]);
                }
            }
        }
        // The length is judged before the values.
        assert_eq!(read_channel_switch(&[2, 201]), Err(8));
        assert_eq!(read_channel_switch(&[2, 201, 0, 0]), Err(8));
    }

    #[test]
    fn quiet_on_both_sides() {
        let quiet = Quiet {
            count: 1,
            period: 2,
            duration: 0x0304,
            offset: 99,
        };
        let mut out = [0xEE; 9];
        assert_eq!(write_quiet(quiet, 100, &mut out), Ok(8));
        assert_eq!(out, [40, 6, 1, 2, 4, 3, 99, 0, 0xEE]);
        assert_eq!(read_quiet(contents_of(&out, 40), 100), Ok(quiet));
        // Offset 99 accepted, 100 refused.
        assert_eq!(read_quiet(&[1, 2, 4, 3, 100, 0], 100), Err(9));
        assert_eq!(
            read_quiet(&[1, 2, 4, 3, 100, 0], 101).map(|q| q.offset),
            Ok(100)
        );
        assert_eq!(read_quiet(&[0, 2, 4, 3, 99, 0], 100), Err(9));
        assert_eq!(read_quiet(&[1, 2, 4, 3, 0, 0], 0), Err(9));
        assert_eq!(read_quiet(&[0, 2, 4, 3, 99], 100), Err(8));
        assert_eq!(read_quiet(&[0, 2, 4, 3, 99, 0, 0], 100), Err(8));
        let mut out = [0xEE; 9];
        for (quiet, interval) in [
            (
                Quiet {
                    offset: 100,
                    ..quiet
                },
                100,
            ),
            (Quiet { count: 0, ..quiet }, 100),
            (Quiet { offset: 0, ..quiet }, 0),
        ] {
            assert_eq!(write_quiet(quiet, interval, &mut out), Err(16));
            assert_eq!(out, [0xEE; 9]);
        }
    }

    #[test]
    fn writers_on_both_sides_of_the_buffer() {
        let switch = Switch {
            mode: 1,
            channel: 200,
            count: 0,
        };
        let quiet = Quiet {
            count: 1,
            period: 0,
            duration: 0,
            offset: 0,
        };
        assert_eq!(write_power_constraint(1, &mut [0; 3]), Ok(3));
        assert_eq!(write_power_constraint(1, &mut [0; 2]), Err(13));
        assert_eq!(write_tpc_request(&mut [0; 2]), Ok(2));
        assert_eq!(write_tpc_request(&mut [0; 1]), Err(13));
        assert_eq!(write_tpc_report(1, 1, &mut [0; 4]), Ok(4));
        assert_eq!(write_tpc_report(1, 1, &mut [0; 3]), Err(13));
        assert_eq!(write_channel_switch(switch, &mut [0; 5]), Ok(5));
        let mut short = [0xEE; 4];
        assert_eq!(write_channel_switch(switch, &mut short), Err(13));
        assert_eq!(short, [0xEE; 4]);
        assert_eq!(write_quiet(quiet, 1, &mut [0; 8]), Ok(8));
        assert_eq!(write_quiet(quiet, 1, &mut [0; 7]), Err(13));
        // 16 before 13.
        assert_eq!(
            write_channel_switch(Switch { mode: 2, ..switch }, &mut []),
            Err(16)
        );
        assert_eq!(
            write_quiet(Quiet { count: 0, ..quiet }, 1, &mut []),
            Err(16)
        );
    }
}
