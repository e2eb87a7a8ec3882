//! Measurement Request and Report elements, IDs 38 and 39 (802.11h 7.3.2.21
//! and 7.3.2.22).

use crate::answer::{ELEMENT_LENGTH, IMPOSSIBLE, VALUE};
use crate::element::{element_octets, is_channel, MEASUREMENT_REPORT, MEASUREMENT_REQUEST};
use crate::octets::{lay, u16_at, u64_at};

/// Measurement type: basic (802.11h 7.3.2.21.1).
pub const BASIC: u8 = 0;
/// Measurement type: CCA (802.11h 7.3.2.21.2).
pub const CCA: u8 = 1;
/// Measurement type: RPI histogram (802.11h 7.3.2.21.3).
pub const RPI: u8 = 2;

/// Token, mode and type.
const HEAD: usize = 3;
/// A request that measures: head, channel, start (8), duration (2).
const MEASURE: usize = HEAD + 11;

// Request mode; bit 0 and bits 4 to 7 are reserved. Request and Report are
// too, but for an Enable element of a type that is not reserved itself.
const ENABLE: u8 = 1 << 1;
const REQUEST: u8 = 1 << 2;
const REPORT: u8 = 1 << 3;

// Report mode; bits 3 to 7 are reserved.
const LATE: u8 = 1 << 0;
const INCAPABLE: u8 = 1 << 1;
const REFUSED: u8 = 1 << 2;

// Map: BSS, OFDM preamble, unidentified signal and radar; unmeasured; the
// rest is reserved.
const MAP_FOUND: u8 = 0b0000_1111;
const MAP_UNMEASURED: u8 = 0b0001_0000;
const MAP_KNOWN: u8 = MAP_FOUND | MAP_UNMEASURED;

/// One Measurement Request element.
#[derive(Clone, Copy, Debug, PartialEq, Eq)]
pub struct Request {
    /// The measurement token; never 0 in a read record.
    pub token: u8,
    /// The measurement type.
    pub kind: u8,
    /// What the element asks for.
    pub asks: Asks,
}

/// What a Measurement Request element asks for.
#[derive(Clone, Copy, Debug, PartialEq, Eq)]
pub enum Asks {
    /// Enable is set: whether requests and autonomous reports are wanted. With
    /// a type over 2 both are reserved: never set in a read record.
    Enable {
        /// Mode bit 2.
        request: bool,
        /// Mode bit 3.
        report: bool,
    },
    /// Types 0 to 2 without Enable.
    Measure {
        /// The channel to measure.
        channel: u8,
        /// TSF microseconds; 0 is at once.
        start: u64,
        /// TU.
        duration: u16,
    },
    /// A type over 2 without Enable: its contents are not kept.
    Uninterpreted,
}

/// One Measurement Report element.
#[derive(Clone, Copy, Debug, PartialEq, Eq)]
pub struct Report {
    /// The measurement token; 0 is allowed.
    pub token: u8,
    /// The measurement type.
    pub kind: u8,
    /// What the element says.
    pub says: Says,
}

/// What a Measurement Report element says.
#[derive(Clone, Copy, Debug, PartialEq, Eq)]
pub enum Says {
    /// The request came too late.
    Late,
    /// The station cannot measure this.
    Incapable,
    /// The station will not measure this.
    Refused,
    /// Type 0.
    Basic {
        /// The channel measured.
        channel: u8,
        /// TSF microseconds.
        start: u64,
        /// TU.
        duration: u16,
        /// Bits 0 to 4 only.
        map: u8,
    },
    /// Type 1.
    Cca {
        /// The channel measured.
        channel: u8,
        /// TSF microseconds.
        start: u64,
        /// TU.
        duration: u16,
        /// The busy fraction.
        busy: u8,
    },
    /// Type 2.
    Rpi {
        /// The channel measured.
        channel: u8,
        /// TSF microseconds.
        start: u64,
        /// TU.
        duration: u16,
        /// One density for each RPI.
        densities: [u8; 8],
    },
    /// A type over 2 with no mode bit set: its contents are not kept.
    Uninterpreted,
}

/// Reads the contents of a Measurement Request element.
pub fn read_measurement_request(contents: &[u8]) -> Result<Request, u8> {
    if contents.len() < HEAD {
        return Err(ELEMENT_LENGTH);
    }
    let (token, mode, kind) = (contents[0], contents[1], contents[2]);
    let enable = mode & ENABLE != 0;
    check_length(contents, request_length(enable, kind))?;
    if token == 0 {
        return Err(VALUE);
    }
    let asks = if enable {
        read_enable(mode, kind)
    } else if is_reserved(kind) {
        Asks::Uninterpreted
    } else {
        let (channel, start, duration) = read_measured(contents)?;
        Asks::Measure {
            channel,
            start,
            duration,
        }
    };
    Ok(Request { token, kind, asks })
}

/// Reads the contents of a Measurement Report element.
pub fn read_measurement_report(contents: &[u8]) -> Result<Report, u8> {
    if contents.len() < HEAD {
        return Err(ELEMENT_LENGTH);
    }
    let (token, mode, kind) = (contents[0], contents[1], contents[2]);
    let excuses = mode & (LATE | INCAPABLE | REFUSED);
    // No length is right for two excuses, so here the value comes first:
    // "more than one, at length 3 or more: 9".
    if excuses.count_ones() > 1 {
        return Err(VALUE);
    }
    check_length(contents, report_length(excuses != 0, kind))?;
    let says = match excuses {
        LATE => Says::Late,
        INCAPABLE => Says::Incapable,
        REFUSED => Says::Refused,
        _ => read_result(contents, kind)?,
    };
    Ok(Report { token, kind, says })
}

/// Whether a measurement type is reserved: 3 to 255 (802.11h 7.3.2.21 and
/// 7.3.2.22, Tables 20b and 20c).
fn is_reserved(kind: u8) -> bool {
    kind > RPI
}

/// What an Enable element asks for. With a reserved type 802.11h 7.3.2.21 has
/// Request and Report set to 0, as invalid: they are reserved and ignored.
fn read_enable(mode: u8, kind: u8) -> Asks {
    let valid = if is_reserved(kind) { 0 } else { mode };
    Asks::Enable {
        request: valid & REQUEST != 0,
        report: valid & REPORT != 0,
    }
}

/// The one length of a request, or `None` where 3 or more will do.
fn request_length(enable: bool, kind: u8) -> Option<usize> {
    match (enable, kind) {
        (true, _) => Some(HEAD),
        (false, BASIC) | (false, CCA) | (false, RPI) => Some(MEASURE),
        (false, _) => None,
    }
}

/// The one length of a report, or `None` where 3 or more will do.
fn report_length(excused: bool, kind: u8) -> Option<usize> {
    match (excused, kind) {
        (true, _) => Some(HEAD),
        (false, BASIC) | (false, CCA) => Some(MEASURE + 1),
        (false, RPI) => Some(MEASURE + 8),
        (false, _) => None,
    }
}

fn check_length(contents: &[u8], length: Option<usize>) -> Result<(), u8> {
    match length {
        Some(length) if contents.len() != length => Err(ELEMENT_LENGTH),
        _ => Ok(()),
    }
}

/// Channel, start and duration after the head; the caller has checked that
/// the contents have at least `MEASURE` octets.
fn read_measured(contents: &[u8]) -> Result<(u8, u64, u16), u8> {
    let channel = contents[3];
    if !is_channel(channel) {
        return Err(VALUE);
    }
    Ok((channel, u64_at(contents, 4), u16_at(contents, 12)))
}

/// The result in a report without an excuse, its length already checked.
fn read_result(contents: &[u8], kind: u8) -> Result<Says, u8> {
    if is_reserved(kind) {
        return Ok(Says::Uninterpreted);
    }
    let (channel, start, duration) = read_measured(contents)?;
    let last = contents[MEASURE];
    match kind {
        BASIC => {
            // Reserved bits are ignored when read.
            let map = last & MAP_KNOWN;
            if !is_map(map) {
                return Err(VALUE);
            }
            Ok(Says::Basic {
                channel,
                start,
                duration,
                map,
            })
        }
        CCA => Ok(Says::Cca {
            channel,
            start,
            duration,
            busy: last,
        }),
        _ => {
            let mut densities = [0; 8];
            densities.copy_from_slice(&contents[MEASURE..MEASURE + 8]);
            Ok(Says::Rpi {
                channel,
                start,
                duration,
                densities,
            })
        }
    }
}

/// Whether a map may be given: no reserved bit, and nothing found where
/// nothing was measured (802.11h 7.3.2.22.1).
fn is_map(map: u8) -> bool {
    let unmeasured = map & MAP_UNMEASURED != 0;
    map & !MAP_KNOWN == 0 && !(unmeasured && map & MAP_FOUND != 0)
}

/// Writes a Measurement Request element to the front of `out`: 5 or 16 octets.
pub fn write_measurement_request(request: Request, out: &mut [u8]) -> Result<usize, u8> {
    lay(&request_octets(request)?, out)
}

/// Writes a Measurement Report element to the front of `out`: 5, 17 or 24 octets.
pub fn write_measurement_report(report: Report, out: &mut [u8]) -> Result<usize, u8> {
    lay(&report_octets(report)?, out)
}

/// A Measurement Request element in octets, or 16.
pub(crate) fn request_octets(request: Request) -> Result<Vec<u8>, u8> {
    let Request { token, kind, asks } = request;
    if token == 0 {
        return Err(IMPOSSIBLE);
    }
    let mut mode = 0;
    let mut asked = Vec::new();
    match asks {
        Asks::Enable { request, report } => mode = enable_mode(kind, request, report)?,
        Asks::Measure {
            channel,
            start,
            duration,
        } => {
            if is_reserved(kind) || !is_channel(channel) {
                return Err(IMPOSSIBLE);
            }
            put_measured(channel, start, duration, &mut asked);
        }
        Asks::Uninterpreted => return Err(IMPOSSIBLE),
    }
    let mut contents = vec![token, mode, kind];
    contents.append(&mut asked);
    Ok(element_octets(MEASUREMENT_REQUEST, &contents))
}

/// The mode of an Enable element. Request or Report set with a reserved type
/// is a record with a reserved bit set: 16.
fn enable_mode(kind: u8, request: bool, report: bool) -> Result<u8, u8> {
    if is_reserved(kind) && (request || report) {
        return Err(IMPOSSIBLE);
    }
    let request = if request { REQUEST } else { 0 };
    let report = if report { REPORT } else { 0 };
    Ok(ENABLE | request | report)
}

/// A Measurement Report element in octets, or 16.
pub(crate) fn report_octets(report: Report) -> Result<Vec<u8>, u8> {
    if !can_be_written(report) {
        return Err(IMPOSSIBLE);
    }
    let mut mode = 0;
    let mut result = Vec::new();
    match report.says {
        Says::Late => mode = LATE,
        Says::Incapable => mode = INCAPABLE,
        Says::Refused => mode = REFUSED,
        Says::Basic {
            channel,
            start,
            duration,
            map,
        } => {
            put_measured(channel, start, duration, &mut result);
            result.push(map);
        }
        Says::Cca {
            channel,
            start,
            duration,
            busy,
        } => {
            put_measured(channel, start, duration, &mut result);
            result.push(busy);
        }
        Says::Rpi {
            channel,
            start,
            duration,
            densities,
        } => {
            put_measured(channel, start, duration, &mut result);
            result.extend_from_slice(&densities);
        }
        Says::Uninterpreted => {}
    }
    let mut contents = vec![report.token, mode, report.kind];
    contents.append(&mut result);
    Ok(element_octets(MEASUREMENT_REPORT, &contents))
}

/// Whether the reader could have given this report with contents that are
/// interpreted: type and result agree, and their values are allowed.
fn can_be_written(report: Report) -> bool {
    match report.says {
        Says::Late | Says::Incapable | Says::Refused => true,
        Says::Basic { channel, map, .. } => {
            report.kind == BASIC && is_channel(channel) && is_map(map)
        }
        Says::Cca { channel, .. } => report.kind == CCA && is_channel(channel),
        Says::Rpi { channel, .. } => report.kind == RPI && is_channel(channel),
        Says::Uninterpreted => false,
    }
}

fn put_measured(channel: u8, start: u64, duration: u16, octets: &mut Vec<u8>) {
    octets.push(channel);
    octets.extend_from_slice(&start.to_le_bytes());
    octets.extend_from_slice(&duration.to_le_bytes());
}

#[cfg(test)]
mod tests {
    use super::*;

    const START: u64 = 0x1122_3344_5566_7788;

    /// Token, mode, type, then channel, START, duration 0x0102 and `last`.
    fn contents(token: u8, mode: u8, kind: u8, channel: u8, last: &[u8]) -> Vec<u8> {
        let mut contents = vec![token, mode, kind, channel];
        contents.extend_from_slice(&START.to_le_bytes());
        contents.extend_from_slice(&[2, 1]);
        contents.extend_from_slice(last);
        contents
    }

    #[test]
    fn a_measuring_request() {
        for kind in 0..=2u8 {
            let request = Request {
                token: 9,
                kind,
                asks: Asks::Measure {
                    channel: 200,
                    start: START,
                    duration: 0x0102,
                },
            };
            // Bits 0, 2, 3 and 4 to 7 are reserved here and ignored.
            for mode in (0..=255u8).filter(|mode| mode & 2 == 0) {
                assert_eq!(
                    read_measurement_request(&contents(9, mode, kind, 200, &[])),
                    Ok(request)
                );
            }
            let mut out = [0xEE; 17];
            assert_eq!(write_measurement_request(request, &mut out), Ok(16));
            assert_eq!(
                out,
                [
                    38, 14, 9, 0, kind, 200, 0x88, 0x77, 0x66, 0x55, 0x44, 0x33, 0x22, 0x11, 2, 1,
                    0xEE
                ]
            );
            assert_eq!(read_measurement_request(&out[2..16]), Ok(request));
            assert_eq!(write_measurement_request(request, &mut [0; 15]), Err(13));
        }
    }

    #[test]
    fn an_enabling_request() {
        for mode in (0..=255u8).filter(|mode| mode & 2 != 0) {
            for kind in 0..=255u8 {
                // With a type over 2 bits 2 and 3 are reserved as well.
                let known = if kind <= 2 { 0b1110 } else { 0b0010 };
                let request = Request {
                    token: 1,
                    kind,
                    asks: Asks::Enable {
                        request: mode & known & 4 != 0,
                        report: mode & known & 8 != 0,
                    },
                };
                assert_eq!(read_measurement_request(&[1, mode, kind]), Ok(request));
                let mut out = [0xEE; 6];
                assert_eq!(write_measurement_request(request, &mut out), Ok(5));
                assert_eq!(out, [38, 3, 1, mode & known, kind, 0xEE]);
                assert_eq!(write_measurement_request(request, &mut [0; 4]), Err(13));
            }
        }
    }

    #[test]
    fn enable_bits_of_a_reserved_type_cannot_be_written() {
        for kind in 0..=255u8 {
            for (request, report) in [(false, false), (false, true), (true, false), (true, true)] {
                let asks = Asks::Enable { request, report };
                let record = Request {
                    token: 1,
                    kind,
                    asks,
                };
                let mut out = [0xEE; 6];
                let written = write_measurement_request(record, &mut out);
                if kind > 2 && (request || report) {
                    assert_eq!(written, Err(16));
                    assert_eq!(out, [0xEE; 6]);
                    // 16 before 13.
                    assert_eq!(write_measurement_request(record, &mut []), Err(16));
                } else {
                    assert_eq!(written, Ok(5));
                    assert_eq!(read_measurement_request(&out[2..5]), Ok(record));
                }
            }
        }
    }

    #[test]
    fn request_lengths() {
        for kind in 0..=255u8 {
            for length in 0..=255usize {
                let mut octets = vec![0; length];
                if length >= 3 {
                    octets[0] = 1;
                    octets[2] = kind;
                }
                let right = if kind <= 2 { length == 14 } else { length >= 3 };
                let answer = read_measurement_request(&octets);
                assert_eq!(answer.is_ok(), right, "type {} length {}", kind, length);
                assert!(right || answer == Err(8));
                if length >= 3 {
                    octets[1] = 2;
                    let answer = read_measurement_request(&octets);
                    assert_eq!(answer.is_ok(), length == 3);
                    assert!(length == 3 || answer == Err(8));
                }
            }
        }
        assert_eq!(
            read_measurement_request(&[5, 0, 3]),
            Ok(Request {
                token: 5,
                kind: 3,
                asks: Asks::Uninterpreted
            })
        );
    }

    #[test]
    fn request_values() {
        assert_eq!(
            read_measurement_request(&contents(0, 0, 0, 200, &[])),
            Err(9)
        );
        assert_eq!(
            read_measurement_request(&contents(1, 0, 0, 201, &[])),
            Err(9)
        );
        assert_eq!(read_measurement_request(&[0, 2, 0]), Err(9));
        assert_eq!(read_measurement_request(&[0, 0, 3]), Err(9));
        // The length comes first.
        assert_eq!(read_measurement_request(&[0, 0, 0]), Err(8));
        assert_eq!(read_measurement_request(&[0, 2, 0, 0]), Err(8));
        assert_eq!(
            read_measurement_request(&contents(0, 0, 0, 201, &[0])),
            Err(8)
        );
    }

    #[test]
    fn requests_that_cannot_be_written() {
        let measure = Asks::Measure {
            channel: 36,
            start: 0,
            duration: 1,
        };
        let enable = Asks::Enable {
            request: true,
            report: true,
        };
        let over = Asks::Measure {
            channel: 201,
            start: 0,
            duration: 1,
        };
        for request in [
            Request {
                token: 0,
                kind: 0,
                asks: measure,
            },
            Request {
                token: 0,
                kind: 0,
                asks: enable,
            },
            Request {
                token: 1,
                kind: 3,
                asks: measure,
            },
            Request {
                token: 1,
                kind: 0,
                asks: over,
            },
            Request {
                token: 1,
                kind: 3,
                asks: Asks::Uninterpreted,
            },
            Request {
                token: 1,
                kind: 0,
                asks: Asks::Uninterpreted,
            },
        ] {
            let mut out = [0xEE; 30];
            assert_eq!(write_measurement_request(request, &mut out), Err(16));
            assert_eq!(out, [0xEE; 30]);
            assert_eq!(write_measurement_request(request, &mut []), Err(16));
        }
    }

    #[test]
    fn reports_with_excuses() {
        for (bit, says) in [(1u8, Says::Late), (2, Says::Incapable), (4, Says::Refused)] {
            for reserved in 0..32u8 {
                for kind in 0..=255u8 {
                    let report = Report {
                        token: 0,
                        kind,
                        says,
                    };
                    let mode = bit | reserved << 3;
                    assert_eq!(read_measurement_report(&[0, mode, kind]), Ok(report));
                    assert_eq!(read_measurement_report(&[0, mode, kind, 0]), Err(8));
                    let mut out = [0xEE; 6];
                    assert_eq!(write_measurement_report(report, &mut out), Ok(5));
                    assert_eq!(out, [39, 3, 0, bit, kind, 0xEE]);
                    assert_eq!(write_measurement_report(report, &mut [0; 4]), Err(13));
                }
            }
        }
        for mode in [3u8, 5, 6, 7, 0xFF] {
            assert_eq!(read_measurement_report(&[1, mode]), Err(8));
            for length in 3..=255usize {
                let mut octets = vec![0; length];
                octets[1] = mode;
                assert_eq!(read_measurement_report(&octets), Err(9));
            }
        }
    }

    #[test]
    fn report_lengths() {
        for kind in 0..=255u8 {
            for length in 0..=255usize {
                let mut octets = vec![0; length];
                if length >= 3 {
                    octets[2] = kind;
                }
                let right = match kind {
                    0 | 1 => length == 15,
                    2 => length == 22,
                    _ => length >= 3,
                };
                let answer = read_measurement_report(&octets);
                assert_eq!(answer.is_ok(), right, "type {} length {}", kind, length);
                assert!(right || answer == Err(8));
            }
        }
    }

    #[test]
    fn basic_reports() {
        for map in 0..=255u8 {
            let known = map & 0x1F;
            let clash = known > 0x10;
            let answer = read_measurement_report(&contents(0, 0, 0, 200, &[map]));
            let says = Says::Basic {
                channel: 200,
                start: START,
                duration: 0x0102,
                map,
            };
            let mut out = [0xEE; 18];
            let written = write_measurement_report(
                Report {
                    token: 3,
                    kind: 0,
                    says,
                },
                &mut out,
            );
            if clash {
                assert_eq!(answer, Err(9));
            } else {
                assert!(
                    matches!(answer, Ok(Report { says: Says::Basic { map, .. }, .. }) if map == known)
                );
            }
            if clash || map > 0x1F {
                assert_eq!(written, Err(16));
                assert_eq!(out, [0xEE; 18]);
            } else {
                assert_eq!(written, Ok(17));
                assert_eq!(
                    read_measurement_report(&out[2..17]),
                    Ok(Report {
                        token: 3,
                        kind: 0,
                        says
                    })
                );
                assert_eq!(out[17], 0xEE);
            }
        }
    }

    #[test]
    fn cca_and_rpi_reports() {
        let cca = Report {
            token: 3,
            kind: 1,
            says: Says::Cca {
                channel: 200,
                start: START,
                duration: 0x0102,
                busy: 255,
            },
        };
        let rpi = Report {
            token: 3,
            kind: 2,
            says: Says::Rpi {
                channel: 200,
                start: START,
                duration: 0x0102,
                densities: [1, 2, 3, 4, 5, 6, 7, 255],
            },
        };
        let mut out = [0xEE; 25];
        assert_eq!(write_measurement_report(cca, &mut out), Ok(17));
        assert_eq!(&out[2..17], &contents(3, 0, 1, 200, &[255])[..]);
        assert_eq!(read_measurement_report(&out[2..17]), Ok(cca));
        assert_eq!(write_measurement_report(rpi, &mut out), Ok(24));
        assert_eq!(
            &out[2..24],
            &contents(3, 0, 2, 200, &[1, 2, 3, 4, 5, 6, 7, 255])[..]
        );
        assert_eq!(read_measurement_report(&out[2..24]), Ok(rpi));
        assert_eq!(out[24], 0xEE);
        assert_eq!(write_measurement_report(cca, &mut [0; 16]), Err(13));
        assert_eq!(write_measurement_report(rpi, &mut [0; 23]), Err(13));
        for kind in 0..=1u8 {
            assert_eq!(
                read_measurement_report(&contents(3, 0, kind, 201, &[0])),
                Err(9)
            );
        }
        assert_eq!(
            read_measurement_report(&contents(3, 0, 2, 201, &[0; 8])),
            Err(9)
        );
    }

    #[test]
    fn reports_that_cannot_be_written() {
        let basic = Says::Basic {
            channel: 36,
            start: 0,
            duration: 1,
            map: 0,
        };
        let cca = Says::Cca {
            channel: 36,
            start: 0,
            duration: 1,
            busy: 0,
        };
        let rpi = Says::Rpi {
            channel: 36,
            start: 0,
            duration: 1,
            densities: [0; 8],
        };
        for (kind, says) in [
            (1, basic),
            (2, basic),
            (3, basic),
            (0, cca),
            (2, cca),
            (0, rpi),
            (1, rpi),
            (0, Says::Uninterpreted),
            (3, Says::Uninterpreted),
            (
                0,
                Says::Basic {
                    channel: 201,
                    start: 0,
                    duration: 1,
                    map: 0,
                },
            ),
            (
                1,
                Says::Cca {
                    channel: 201,
                    start: 0,
                    duration: 1,
                    busy: 0,
                },
            ),
            (
                2,
                Says::Rpi {
                    channel: 201,
                    start: 0,
                    duration: 1,
                    densities: [0; 8],
                },
            ),
        ] {
            let mut out = [0xEE; 30];
            let report = Report {
                token: 1,
                kind,
                says,
            };
            assert_eq!(write_measurement_report(report, &mut out), Err(16));
            assert_eq!(out, [0xEE; 30]);
            assert_eq!(write_measurement_report(report, &mut []), Err(16));
        }
    }
}
