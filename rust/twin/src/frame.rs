//! A whole frame: "a frame that is read is one of seven kinds, each with its
//! own fields".

use crate::answer::{Refusal, IMPOSSIBLE};
use crate::body::{read_action_body, read_ibss_beacon, read_notice};
use crate::dfs::{ChannelMap, IbssDfs};
use crate::element::{Quiet, Switch};
use crate::header::{read_header, Network, Subtype, HEADER};
use crate::measurement::{Report, Request};
use crate::Address;

/// An accepted frame.
#[derive(Clone, Debug, PartialEq, Eq)]
pub struct Received {
    /// DA was all ones.
    pub broadcast: bool,
    /// What the frame was.
    pub frame: Frame,
}

/// A frame accepted as a station of an IBSS reads it (02, Five); whether it
/// may announce is judged by the station, which knows the owner.
#[derive(Clone, Debug, PartialEq, Eq)]
pub struct IbssReceived {
    /// SA: any individual address.
    pub sender: Address,
    /// DA was all ones.
    pub broadcast: bool,
    /// What the frame was, as document 01's reader says it.
    pub frame: Frame,
    /// Element 41, if there is one; only ever in a beacon.
    pub dfs: Option<IbssDfs>,
}

impl IbssReceived {
    /// The pair of this index in the frame's element 41; 16 past the last or
    /// without that element.
    pub fn pair(&self, index: usize) -> Result<ChannelMap, u8> {
        match &self.dfs {
            Some(dfs) => dfs.pair(index),
            None => Err(IMPOSSIBLE),
        }
    }
}

/// The seven kinds of frame.
#[derive(Clone, Debug, PartialEq, Eq)]
pub enum Frame {
    /// Subtype 8.
    Beacon(Notice),
    /// Subtype 5.
    ProbeResponse(Notice),
    /// Action 0.
    MeasurementRequest {
        /// The dialog token; never 0.
        token: u8,
        /// One or more elements, in their order; no vendor's (02, Four).
        requests: Vec<Request>,
    },
    /// Action 1.
    MeasurementReport {
        /// The dialog token.
        token: u8,
        /// One or more elements, in their order; no vendor's (02, Four).
        reports: Vec<Report>,
    },
    /// Action 2.
    TpcRequest {
        /// The dialog token; never 0.
        token: u8,
    },
    /// Action 3.
    TpcReport {
        /// The dialog token.
        token: u8,
        /// dBm.
        power: i8,
        /// dB.
        margin: i8,
    },
    /// Action 4.
    ChannelSwitch(Switch),
}

/// What a beacon or a probe response says.
#[derive(Clone, Debug, PartialEq, Eq)]
pub struct Notice {
    /// The TSF timestamp.
    pub timestamp: u64,
    /// The capability field.
    pub capability: u16,
    /// Power Constraint in dB, if there is one.
    pub constraint: Option<u8>,
    /// TPC Report, power in dBm and margin in dB, if there is one. The margin
    /// is always 0: here it is ignored (802.11h 7.3.2.18).
    pub tpc_report: Option<(i8, i8)>,
    /// Channel Switch Announcement, if there is one.
    pub switch: Option<Switch>,
    /// Up to eight Quiet elements, in their order.
    pub quiets: Vec<Quiet>,
}

impl Frame {
    /// The Measurement Request element of this index; 16 past the last or on
    /// another kind.
    pub fn request(&self, index: usize) -> Result<Request, u8> {
        match self {
            Frame::MeasurementRequest { requests, .. } => {
                requests.get(index).copied().ok_or(IMPOSSIBLE)
            }
            _ => Err(IMPOSSIBLE),
        }
    }

    /// The Measurement Report element of this index; 16 past the last or on
    /// another kind.
    pub fn report(&self, index: usize) -> Result<Report, u8> {
        match self {
            Frame::MeasurementReport { reports, .. } => {
                reports.get(index).copied().ok_or(IMPOSSIBLE)
            }
            _ => Err(IMPOSSIBLE),
        }
    }

    /// The Quiet element of this index; 16 past the last or on another kind.
    pub fn quiet(&self, index: usize) -> Result<Quiet, u8> {
        match self {
            Frame::Beacon(notice) | Frame::ProbeResponse(notice) => {
                notice.quiets.get(index).copied().ok_or(IMPOSSIBLE)
            }
            _ => Err(IMPOSSIBLE),
        }
    }
}

/// Reads a frame sent by the AP, for the station `own` under beacon interval
/// `interval`; "1 (header), 2, 3, 4, then the body from left to right". A
/// refusal of the header has no place.
pub fn read_frame(
    frame: &[u8],
    own: Address,
    ap: Address,
    interval: u16,
) -> Result<Received, Refusal> {
    let network = Network::Infrastructure { ap };
    let header = read_header(frame, own, network).map_err(Refusal::nowhere)?;
    let frame = match header.subtype {
        Subtype::Beacon => Frame::Beacon(read_notice(frame, interval)?),
        Subtype::ProbeResponse => Frame::ProbeResponse(read_notice(frame, interval)?),
        Subtype::Action => read_action_body(frame, HEADER)?,
    };
    Ok(Received {
        broadcast: header.broadcast,
        frame,
    })
}

/// Reads a frame as the station `own` of the IBSS `bssid` does, under beacon
/// interval `interval`: document 01's frames "of its BSSID from any individual
/// address", with element 41 in beacons; "in probe responses 41 is skipped"
/// (02, Five).
pub fn read_ibss_frame(
    frame: &[u8],
    own: Address,
    bssid: Address,
    interval: u16,
) -> Result<IbssReceived, Refusal> {
    let network = Network::Ibss { bssid };
    let header = read_header(frame, own, network).map_err(Refusal::nowhere)?;
    let (frame, dfs) = match header.subtype {
        Subtype::Beacon => {
            let (notice, dfs) = read_ibss_beacon(frame, interval)?;
            (Frame::Beacon(notice), dfs)
        }
        Subtype::ProbeResponse => (Frame::ProbeResponse(read_notice(frame, interval)?), None),
        Subtype::Action => (read_action_body(frame, HEADER)?, None),
    };
    Ok(IbssReceived {
        sender: header.sender,
        broadcast: header.broadcast,
        frame,
        dfs,
    })
}

#[cfg(test)]
mod tests {
    use super::*;
    use crate::measurement::{Asks, Says};
    use crate::sample::{
        action, dfs, measure, notice, quiet, sent_by, vendor, Dice, ALL, AP, CELL, OTHER, OWN, PEER,
    };

    fn read(frame: &[u8]) -> Result<Received, Refusal> {
        read_frame(frame, OWN, AP, 100)
    }

    /// The number of a refusal and its place; 0 without one if accepted.
    fn fault(frame: &[u8]) -> (u8, Option<usize>) {
        match read(frame) {
            Ok(_) => (0, None),
            Err(refusal) => (refusal.number, refusal.offset),
        }
    }

    fn refusal(frame: &[u8]) -> u8 {
        fault(frame).0
    }

    /// The refusal of a beacon with these elements; a probe response agrees.
    fn of_notice(elements: &[u8]) -> u8 {
        let answer = refusal(&notice(8, OWN, 100, elements));
        assert_eq!(answer, refusal(&notice(5, ALL, 100, elements)));
        answer
    }

    fn of_body(body: &[u8]) -> u8 {
        refusal(&action(OWN, body))
    }

    #[test]
    fn a_full_notice() {
        let mut elements = vec![0, 2, b'h', b'i'];
        elements.extend_from_slice(&[32, 1, 3, 35, 2, 0xFF, 0x80, 37, 3, 1, 44, 2]);
        elements.extend_from_slice(&quiet(1, 2, 3, 4));
        elements.extend_from_slice(&[40, 6, 255, 255, 255, 255, 99, 0]);
        // A measurement element means nothing here: skipped.
        elements.extend_from_slice(&[38, 1, 0, 34, 0, 34, 0, 255, 0]);
        let expected = Notice {
            timestamp: 0x0807_0605_0403_0201,
            capability: 0x0D0C,
            constraint: Some(3),
            // The margin that was sent, -128, is ignored here.
            tpc_report: Some((-1, 0)),
            switch: Some(Switch {
                mode: 1,
                channel: 44,
                count: 2,
            }),
            quiets: vec![
                Quiet {
                    count: 1,
                    period: 2,
                    duration: 3,
                    offset: 4,
                },
                Quiet {
                    count: 255,
                    period: 255,
                    duration: 65_535,
                    offset: 99,
                },
            ],
        };
        assert_eq!(
            read(&notice(8, OWN, 100, &elements)),
            Ok(Received {
                broadcast: false,
                frame: Frame::Beacon(expected.clone())
            })
        );
        assert_eq!(
            read(&notice(5, ALL, 100, &elements)),
            Ok(Received {
                broadcast: true,
                frame: Frame::ProbeResponse(expected)
            })
        );
    }

    #[test]
    fn the_margin_counts_in_a_tpc_report_frame_alone() {
        for margin in [-128i8, -1, 0, 1, 127] {
            for power in [-128i8, -1, 0, 127] {
                let element = [35, 2, power as u8, margin as u8];
                for subtype in [5, 8] {
                    let received = read(&notice(subtype, OWN, 100, &element)).unwrap();
                    match received.frame {
                        Frame::Beacon(notice) | Frame::ProbeResponse(notice) => {
                            assert_eq!(notice.tpc_report, Some((power, 0)))
                        }
                        other => panic!("{:?}", other),
                    }
                }
                let body = [&[0, 3, 7][..], &element].concat();
                assert_eq!(
                    read(&action(OWN, &body)).map(|received| received.frame),
                    Ok(Frame::TpcReport {
                        token: 7,
                        power,
                        margin
                    })
                );
            }
        }
    }

    #[test]
    fn quiets_by_their_index() {
        let elements = [quiet(1, 2, 3, 4), vec![0, 0], quiet(5, 6, 7, 8)].concat();
        for subtype in [5, 8] {
            let frame = read(&notice(subtype, OWN, 100, &elements)).unwrap().frame;
            assert_eq!(frame.quiet(0).map(|quiet| quiet.count), Ok(1));
            assert_eq!(frame.quiet(1).map(|quiet| quiet.count), Ok(5));
            assert_eq!(frame.quiet(2), Err(16));
            assert_eq!(frame.quiet(usize::MAX), Err(16));
            let frame = read(&notice(subtype, OWN, 100, &[])).unwrap().frame;
            assert_eq!(frame.quiet(0), Err(16));
            // A notice has no measurement elements.
            assert_eq!(frame.request(0), Err(16));
            assert_eq!(frame.report(0), Err(16));
        }
        let frame = read(&action(OWN, &[0, 2, 7, 34, 0])).unwrap().frame;
        assert_eq!(frame.quiet(0), Err(16));
    }

    #[test]
    fn fixed_fields_of_a_notice() {
        let whole = notice(8, OWN, 100, &[]);
        assert_eq!(whole.len(), 36);
        assert_eq!(refusal(&whole), 0);
        for length in 24..36 {
            assert_eq!(refusal(&whole[..length]), 1);
        }
        // A missing field comes before the interval, the interval before elements.
        assert_eq!(refusal(&notice(8, OWN, 99, &[])[..35]), 1);
        for subtype in [5, 8] {
            for interval in [0, 99, 101, 65_535] {
                assert_eq!(refusal(&notice(subtype, OWN, interval, &[32])), 12);
            }
        }
        // The high octet of the interval counts too.
        assert_eq!(refusal(&notice(8, OWN, 100 + 256, &[])), 12);
    }

    #[test]
    fn elements_of_a_notice() {
        assert_eq!(of_notice(&[0]), 6);
        assert_eq!(of_notice(&[0, 0]), 0);
        assert_eq!(of_notice(&[0, 1]), 6);
        assert_eq!(of_notice(&[0, 1, 7]), 0);
        assert_eq!(of_notice(&[32, 2, 7]), 6);
        assert_eq!(of_notice(&[32, 2, 7, 7]), 8);
        assert_eq!(of_notice(&[35, 1, 7]), 8);
        assert_eq!(of_notice(&[37, 3, 2, 36, 1]), 9);
        assert_eq!(of_notice(&[37, 3, 1, 200, 1]), 0);
        assert_eq!(of_notice(&[37, 3, 1, 201, 1]), 9);
        assert_eq!(of_notice(&[40, 6, 1, 0, 0, 0, 99, 0]), 0);
        assert_eq!(of_notice(&[40, 6, 1, 0, 0, 0, 100, 0]), 9);
        assert_eq!(of_notice(&[40, 6, 0, 0, 0, 0, 0, 0]), 9);
        assert_eq!(of_notice(&[40, 5, 0, 0, 0, 0, 0]), 8);
    }

    #[test]
    fn repeats_in_a_notice() {
        assert_eq!(of_notice(&[32, 1, 3, 32, 1, 3]), 10);
        assert_eq!(of_notice(&[35, 2, 0, 0, 35, 2, 0, 0]), 10);
        assert_eq!(of_notice(&[37, 3, 0, 36, 1, 37, 3, 0, 36, 1]), 10);
        // Contents cut, length and value come before the repeat.
        assert_eq!(of_notice(&[32, 1, 3, 32, 1]), 6);
        assert_eq!(of_notice(&[32, 1, 3, 32, 0]), 8);
        assert_eq!(of_notice(&[37, 3, 0, 36, 1, 37, 3, 2, 36, 1]), 9);
        // The repeat comes before what lies to its right.
        assert_eq!(of_notice(&[32, 1, 3, 32, 1, 3, 0]), 10);
    }

    #[test]
    fn eight_and_nine_quiets() {
        let mut elements = Vec::new();
        for _ in 0..8 {
            elements.extend_from_slice(&quiet(1, 0, 1, 0));
        }
        assert_eq!(of_notice(&elements), 0);
        let eight = elements.len();
        elements.extend_from_slice(&quiet(1, 0, 1, 0));
        assert_eq!(of_notice(&elements), 11);
        // A wrong ninth is refused for what is wrong with it.
        elements[eight + 2] = 0;
        assert_eq!(of_notice(&elements), 9);
        elements[eight + 1] = 5;
        elements.pop();
        assert_eq!(of_notice(&elements), 8);
    }

    #[test]
    fn any_interval_can_be_read() {
        let frame = notice(8, OWN, 0, &[]);
        assert!(read_frame(&frame, OWN, AP, 0).is_ok());
        let frame = notice(8, OWN, 0, &quiet(1, 0, 0, 0));
        assert_eq!(read_frame(&frame, OWN, AP, 0), Err(Refusal::at(9, 36)));
        let frame = notice(8, OWN, 65_535, &quiet(1, 0, 0, 65_534));
        assert!(read_frame(&frame, OWN, AP, 65_535).is_ok());
        let frame = notice(8, OWN, 65_535, &quiet(1, 0, 0, 65_535));
        assert_eq!(read_frame(&frame, OWN, AP, 65_535), Err(Refusal::at(9, 36)));
    }

    #[test]
    fn start_of_an_action_body() {
        assert_eq!(of_body(&[]), 1);
        assert_eq!(of_body(&[1]), 5);
        assert_eq!(of_body(&[128]), 5);
        assert_eq!(of_body(&[0]), 1);
        assert_eq!(of_body(&[0, 5]), 5);
        assert_eq!(of_body(&[0, 255]), 5);
        for action in 0..=3u8 {
            assert_eq!(of_body(&[0, action]), 1);
            assert_eq!(of_body(&[1, action]), 5);
            assert_eq!(of_body(&[0, action, 1]), 7);
        }
        // Action 4 has no token.
        assert_eq!(of_body(&[0, 4]), 7);
        // Token 0 comes before the elements.
        assert_eq!(of_body(&[0, 0, 0]), 9);
        assert_eq!(of_body(&[0, 1, 0]), 7);
        assert_eq!(of_body(&[0, 2, 0]), 9);
        assert_eq!(of_body(&[0, 3, 0]), 7);
    }

    #[test]
    fn tpc_frames() {
        assert_eq!(
            read(&action(OWN, &[0, 2, 7, 34, 0])).map(|r| r.frame),
            Ok(Frame::TpcRequest { token: 7 })
        );
        assert_eq!(of_body(&[0, 2, 7, 34]), 6);
        assert_eq!(of_body(&[0, 2, 7, 35]), 6);
        assert_eq!(of_body(&[0, 2, 7, 35, 9]), 21);
        assert_eq!(of_body(&[0, 2, 7, 34, 1]), 6);
        assert_eq!(of_body(&[0, 2, 7, 34, 1, 0]), 8);
        assert_eq!(of_body(&[0, 2, 7, 34, 0, 0]), 22);
        // Another element before the right one is not skipped.
        assert_eq!(of_body(&[0, 2, 7, 0, 0, 34, 0]), 21);
        assert_eq!(
            read(&action(ALL, &[0, 3, 0, 35, 2, 0x80, 0x7F])),
            Ok(Received {
                broadcast: true,
                frame: Frame::TpcReport {
                    token: 0,
                    power: -128,
                    margin: 127
                }
            })
        );
        assert_eq!(of_body(&[0, 3, 0, 35, 2, 0]), 6);
        assert_eq!(of_body(&[0, 3, 0, 35, 1, 0]), 8);
        assert_eq!(of_body(&[0, 3, 0, 35, 2, 0, 0, 35]), 22);
    }

    #[test]
    fn channel_switch_frame() {
        assert_eq!(
            read(&action(OWN, &[0, 4, 37, 3, 1, 200, 0])).map(|r| r.frame),
            Ok(Frame::ChannelSwitch(Switch {
                mode: 1,
                channel: 200,
                count: 0
            }))
        );
        assert_eq!(of_body(&[0, 4, 37, 3, 1, 201, 0]), 9);
        assert_eq!(of_body(&[0, 4, 37, 3, 2, 200, 0]), 9);
        // The value comes before the left-over octet.
        assert_eq!(of_body(&[0, 4, 37, 3, 2, 200, 0, 0]), 9);
        assert_eq!(of_body(&[0, 4, 37, 3, 1, 200, 0, 0]), 22);
        assert_eq!(of_body(&[0, 4, 37, 2, 1, 200]), 8);
        assert_eq!(of_body(&[0, 4, 37, 3, 1, 200]), 6);
        assert_eq!(of_body(&[0, 4, 38, 3, 1, 200]), 21);
    }

    #[test]
    fn measurement_request_frame() {
        let body = [0, 0, 5, 38, 3, 1, 2 | 4, 2, 38, 4, 2, 0, 77, 1];
        let received = read(&action(OWN, &body)).unwrap();
        let first = Request {
            token: 1,
            kind: 2,
            asks: Asks::Enable {
                request: true,
                report: false,
            },
        };
        let second = Request {
            token: 2,
            kind: 77,
            asks: Asks::Uninterpreted,
        };
        assert_eq!(
            received.frame,
            Frame::MeasurementRequest {
                token: 5,
                requests: vec![first, second]
            }
        );
        assert_eq!(received.frame.request(0), Ok(first));
        assert_eq!(received.frame.request(1), Ok(second));
        assert_eq!(received.frame.request(2), Err(16));
        assert_eq!(received.frame.request(usize::MAX), Err(16));
        assert_eq!(received.frame.report(0), Err(16));
        // Request and Report are reserved with a type over 2.
        let reserved = [0, 0, 5, 38, 3, 1, 2 | 4 | 8, 3];
        assert_eq!(
            read(&action(OWN, &reserved)).unwrap().frame.request(0),
            Ok(Request {
                token: 1,
                kind: 3,
                asks: Asks::Enable {
                    request: false,
                    report: false,
                },
            })
        );
        // Left-over octets are judged as a further element.
        let with = |more: &[u8]| {
            let mut longer = body.to_vec();
            longer.extend_from_slice(more);
            of_body(&longer)
        };
        assert_eq!(with(&[38]), 6);
        assert_eq!(with(&[39]), 6);
        assert_eq!(with(&[39, 0]), 21);
        assert_eq!(with(&[38, 3]), 6);
        assert_eq!(with(&[38, 2, 3, 2]), 8);
        assert_eq!(with(&[38, 3, 0, 2, 0]), 9);
        // A repeated token comes after length and value of its element.
        assert_eq!(with(&[38, 3, 3, 2, 0]), 0);
        assert_eq!(with(&[38, 3, 1, 2, 0]), 10);
        assert_eq!(with(&[38, 3, 1, 0, 0]), 8);
        assert_eq!(
            with(&[38, 14, 1, 0, 0, 201, 0, 0, 0, 0, 0, 0, 0, 0, 0, 0]),
            9
        );
        assert_eq!(
            with(&[38, 14, 1, 0, 0, 200, 0, 0, 0, 0, 0, 0, 0, 0, 0, 0]),
            10
        );
        assert_eq!(
            with(&[38, 14, 3, 0, 0, 200, 0, 0, 0, 0, 0, 0, 0, 0, 0, 0]),
            0
        );
    }

    #[test]
    fn measurement_report_frame() {
        // The same measurement token twice is no fault in a report frame.
        let body = [
            0, 1, 0, 39, 3, 0, 1, 9, 39, 3, 0, 4, 0, 39, 5, 1, 0, 3, 1, 1,
        ];
        let received = read(&action(OWN, &body)).unwrap();
        let reports = vec![
            Report {
                token: 0,
                kind: 9,
                says: Says::Late,
            },
            Report {
                token: 0,
                kind: 0,
                says: Says::Refused,
            },
            Report {
                token: 1,
                kind: 3,
                says: Says::Uninterpreted,
            },
        ];
        assert_eq!(received.frame.report(2), Ok(reports[2]));
        assert_eq!(received.frame.report(3), Err(16));
        assert_eq!(received.frame.request(0), Err(16));
        assert_eq!(
            received.frame,
            Frame::MeasurementReport { token: 0, reports }
        );
        assert_eq!(of_body(&[0, 1, 0, 39, 3, 0, 3, 9]), 9);
        assert_eq!(of_body(&[0, 1, 0, 39, 2, 0, 3]), 8);
        assert_eq!(of_body(&[0, 1, 0, 38, 3, 1, 2, 0]), 21);
    }

    #[test]
    fn the_header_comes_before_the_body() {
        let mut frame = action(OWN, &[1]);
        frame[16] ^= 2;
        assert_eq!(refusal(&frame), 4);
        frame[22] = 1;
        assert_eq!(refusal(&frame), 3);
        frame.resize(2337, 0);
        assert_eq!(refusal(&frame), 2);
        assert_eq!(refusal(&frame[..23]), 1);
    }

    const ACCEPTED: (u8, Option<usize>) = (0, None);

    /// A refusal with its place.
    fn at(number: u8, offset: usize) -> (u8, Option<usize>) {
        (number, Some(offset))
    }

    /// Each body with the fault it has in an Action frame.
    fn check_bodies(cases: &[(&[u8], (u8, Option<usize>))]) {
        for (body, expected) in cases {
            assert_eq!(fault(&action(OWN, body)), *expected, "{:?}", body);
            assert_eq!(fault(&action(ALL, body)), *expected, "{:?}", body);
        }
    }

    /// Each run of elements with the fault it has in a beacon and in a probe
    /// response.
    fn check_elements(cases: &[(&[u8], (u8, Option<usize>))]) {
        for (elements, expected) in cases {
            let beacon = notice(8, ALL, 100, elements);
            let response = notice(5, OWN, 100, elements);
            assert_eq!(fault(&beacon), *expected, "{:?}", elements);
            assert_eq!(fault(&response), *expected, "{:?}", elements);
        }
    }

    #[test]
    fn no_place_of_1_to_4() {
        let frame = action(OWN, &[1]);
        for length in 0..24 {
            assert_eq!(fault(&frame[..length]), (1, None));
        }
        let mut long = frame.clone();
        long.resize(2337, 0);
        assert_eq!(fault(&long), (2, None));
        let mut other = frame.clone();
        other[1] = 1;
        assert_eq!(fault(&other), (3, None));
        let mut other = frame;
        other[16] ^= 2;
        assert_eq!(fault(&other), (4, None));
        // A fixed field of the body is missing: 1 as well.
        let missing: [&[u8]; 6] = [&[], &[0], &[0, 0], &[0, 1], &[0, 2], &[0, 3]];
        for body in missing {
            assert_eq!(fault(&action(OWN, body)), (1, None));
        }
        for subtype in [5, 8] {
            let whole = notice(subtype, OWN, 99, &[]);
            for length in 24..36 {
                assert_eq!(fault(&whole[..length]), (1, None));
            }
        }
    }

    #[test]
    fn the_place_of_5() {
        for other in 1..=255u8 {
            check_bodies(&[
                (&[other], at(5, 24)),
                (&[other, 5, 0, 0, 0], at(5, 24)),
                (&[other, 2, 7, 34, 0], at(5, 24)),
            ]);
        }
        for other in 5..=255u8 {
            check_bodies(&[(&[0, other], at(5, 25)), (&[0, other, 0, 0], at(5, 25))]);
        }
        check_bodies(&[
            (&[0], (1, None)),
            (&[0, 3], (1, None)),
            (&[0, 4], at(7, 26)),
        ]);
    }

    #[test]
    fn the_place_of_6() {
        // Half a header, half contents, and whole; of each action.
        check_bodies(&[
            (&[0, 2, 7, 34], at(6, 27)),
            (&[0, 2, 7, 34, 1], at(6, 27)),
            (&[0, 2, 7, 34, 0], ACCEPTED),
            (&[0, 3, 7, 35], at(6, 27)),
            (&[0, 3, 7, 35, 2, 0], at(6, 27)),
            (&[0, 3, 7, 35, 2, 0, 0], ACCEPTED),
            (&[0, 4, 37], at(6, 26)),
            (&[0, 4, 37, 3], at(6, 26)),
            (&[0, 4, 37, 3, 0, 36], at(6, 26)),
            (&[0, 4, 37, 3, 0, 36, 0], ACCEPTED),
            (&[0, 0, 5, 38], at(6, 27)),
            (&[0, 0, 5, 38, 3, 1, 2], at(6, 27)),
            (&[0, 0, 5, 38, 3, 1, 2, 0], ACCEPTED),
            (&[0, 1, 0, 39], at(6, 27)),
            (&[0, 1, 0, 39, 3, 0, 1], at(6, 27)),
            (&[0, 1, 0, 39, 3, 0, 1, 9], ACCEPTED),
        ]);
        // Half a header is 6 whatever its ID.
        check_bodies(&[
            (&[0, 2, 7, 35], at(6, 27)),
            (&[0, 4, 0], at(6, 26)),
            (&[0, 0, 5, 39], at(6, 27)),
        ]);
        // A further element.
        check_bodies(&[
            (&[0, 0, 5, 38, 3, 1, 2, 0, 38], at(6, 32)),
            (&[0, 0, 5, 38, 3, 1, 2, 0, 39], at(6, 32)),
            (&[0, 0, 5, 38, 3, 1, 2, 0, 38, 3], at(6, 32)),
            (&[0, 0, 5, 38, 3, 1, 2, 0, 38, 3, 2, 2], at(6, 32)),
            (&[0, 0, 5, 38, 3, 1, 2, 0, 38, 3, 2, 2, 0], ACCEPTED),
            (&[0, 1, 0, 39, 3, 0, 1, 9, 39], at(6, 32)),
            (&[0, 1, 0, 39, 3, 0, 1, 9, 39, 3, 0, 1], at(6, 32)),
            (&[0, 1, 0, 39, 3, 0, 1, 9, 39, 3, 0, 1, 9], ACCEPTED),
            (&[0, 1, 0, 39, 3, 0, 1, 9, 39, 3, 0, 1, 9, 0], at(6, 37)),
        ]);
        check_elements(&[
            (&[], ACCEPTED),
            (&[0], at(6, 36)),
            (&[0, 0], ACCEPTED),
            (&[0, 1], at(6, 36)),
            (&[0, 1, 7], ACCEPTED),
            (&[0, 1, 7, 40], at(6, 39)),
            (&[0, 1, 7, 40, 6], at(6, 39)),
            (&[0, 1, 7, 40, 6, 1, 0, 0, 0, 0], at(6, 39)),
            (&[0, 1, 7, 40, 6, 1, 0, 0, 0, 0, 0], ACCEPTED),
            (&[32, 1], at(6, 36)),
            (&[32, 1, 3], ACCEPTED),
        ]);
    }

    #[test]
    fn the_place_of_7_is_the_length() {
        check_bodies(&[
            (&[0, 0, 1], at(7, 27)),
            (&[0, 1, 0], at(7, 27)),
            (&[0, 2, 1], at(7, 27)),
            (&[0, 3, 0], at(7, 27)),
            (&[0, 4], at(7, 26)),
            // One octet less, and one more.
            (&[0, 0], (1, None)),
            (&[0, 0, 1, 38], at(6, 27)),
            (&[0, 4, 37], at(6, 26)),
        ]);
        assert_eq!(action(OWN, &[0, 4]).len(), 26);
        // After an element, nothing is absent.
        check_bodies(&[
            (&[0, 0, 1, 38, 3, 1, 2, 0], ACCEPTED),
            (&[0, 1, 0, 39, 3, 0, 1, 9], ACCEPTED),
        ]);
    }

    #[test]
    fn the_place_of_8() {
        check_bodies(&[
            (&[0, 2, 7, 34, 0], ACCEPTED),
            (&[0, 2, 7, 34, 1, 0], at(8, 27)),
            (&[0, 3, 7, 35, 1, 0], at(8, 27)),
            (&[0, 3, 7, 35, 2, 0, 0], ACCEPTED),
            (&[0, 3, 7, 35, 3, 0, 0, 0], at(8, 27)),
            (&[0, 4, 37, 2, 0, 36], at(8, 26)),
            (&[0, 4, 37, 3, 0, 36, 0], ACCEPTED),
            (&[0, 4, 37, 4, 0, 36, 0, 0], at(8, 26)),
            (&[0, 0, 5, 38, 2, 1, 2], at(8, 27)),
            (&[0, 0, 5, 38, 3, 1, 2, 0], ACCEPTED),
            (&[0, 0, 5, 38, 4, 1, 2, 0, 0], at(8, 27)),
            (&[0, 0, 5, 38, 3, 1, 2, 0, 38, 0], at(8, 32)),
            (&[0, 0, 5, 38, 3, 1, 2, 0, 38, 4, 2, 2, 0, 0], at(8, 32)),
            (&[0, 1, 0, 39, 2, 0, 1], at(8, 27)),
            (&[0, 1, 0, 39, 4, 0, 1, 9, 0], at(8, 27)),
            (&[0, 1, 0, 39, 3, 0, 1, 9, 39, 2, 0, 1], at(8, 32)),
        ]);
        check_elements(&[
            (&[32, 0], at(8, 36)),
            (&[32, 1, 3], ACCEPTED),
            (&[32, 2, 3, 3], at(8, 36)),
            (&[0, 0, 35, 1, 0], at(8, 38)),
            (&[0, 0, 35, 3, 0, 0, 0], at(8, 38)),
            (&[32, 1, 3, 0, 0, 37, 2, 1, 44], at(8, 41)),
            (&[32, 1, 3, 0, 0, 37, 3, 1, 44, 1], ACCEPTED),
            (&[32, 1, 3, 0, 0, 37, 4, 1, 44, 1, 1], at(8, 41)),
            (&[0, 0, 40, 5, 1, 0, 0, 0, 0], at(8, 38)),
            (&[0, 0, 40, 7, 1, 0, 0, 0, 0, 0, 0], at(8, 38)),
        ]);
    }

    #[test]
    fn the_place_of_9() {
        // Of a dialog token it is the token, whatever follows.
        check_bodies(&[
            (&[0, 0, 0], at(9, 26)),
            (&[0, 0, 1], at(7, 27)),
            (&[0, 0, 0, 38, 3, 0, 2, 0], at(9, 26)),
            (&[0, 2, 0], at(9, 26)),
            (&[0, 2, 0, 35, 0], at(9, 26)),
            (&[0, 2, 0, 34, 0, 0], at(9, 26)),
            (&[0, 2, 1, 34, 0], ACCEPTED),
            (&[0, 1, 0, 39, 3, 0, 1, 9], ACCEPTED),
            (&[0, 3, 0, 35, 2, 0, 0], ACCEPTED),
        ]);
        // Of an element it is the ID octet, wherever the value stands.
        check_bodies(&[
            (&[0, 4, 37, 3, 1, 200, 0], ACCEPTED),
            (&[0, 4, 37, 3, 2, 200, 0], at(9, 26)),
            (&[0, 4, 37, 3, 1, 201, 0], at(9, 26)),
            (&[0, 4, 37, 3, 1, 201, 0, 0], at(9, 26)),
            (&[0, 0, 5, 38, 3, 0, 2, 0], at(9, 27)),
            (&[0, 0, 5, 38, 3, 1, 2, 0, 38, 3, 0, 2, 0], at(9, 32)),
            (&[0, 1, 0, 39, 3, 0, 3, 9], at(9, 27)),
            (&[0, 1, 0, 39, 3, 0, 4, 9], ACCEPTED),
            (&[0, 1, 0, 39, 3, 0, 4, 9, 39, 3, 0, 5, 9], at(9, 32)),
        ]);
        let measured = |channel| {
            let first = [0, 0, 5, 38, 3, 1, 2, 0];
            [&first[..], &measure(2, 0, channel, 0, 1)].concat()
        };
        check_bodies(&[(&measured(200), ACCEPTED), (&measured(201), at(9, 32))]);
        check_elements(&[
            (&[0, 0, 40, 6, 1, 0, 1, 0, 99, 0], ACCEPTED),
            (&[0, 0, 40, 6, 1, 0, 1, 0, 100, 0], at(9, 38)),
            (&[0, 0, 40, 6, 0, 0, 1, 0, 99, 0], at(9, 38)),
            (&[37, 3, 1, 200, 1], ACCEPTED),
            (&[37, 3, 1, 201, 1], at(9, 36)),
            (&[37, 3, 2, 200, 1], at(9, 36)),
        ]);
    }

    #[test]
    fn the_place_of_10_is_the_repeat() {
        let two = [0, 0, 5, 38, 3, 1, 2, 0, 38, 3, 2, 2, 0];
        for (token, expected) in [(1, at(10, 37)), (2, at(10, 37)), (3, ACCEPTED)] {
            let three = [&two[..], &[38, 3, token, 2, 0]].concat();
            check_bodies(&[(&three, expected)]);
        }
        check_bodies(&[
            (&[0, 0, 5, 38, 3, 1, 2, 0, 38, 3, 1, 2, 0], at(10, 32)),
            (&[0, 0, 5, 38, 3, 1, 2, 0, 38, 3, 1, 2, 0, 0], at(10, 32)),
        ]);
        check_elements(&[
            (&[32, 1, 3, 32, 1, 3], at(10, 39)),
            (&[32, 1, 3, 0, 0, 32, 1, 3], at(10, 41)),
            (&[35, 2, 0, 0, 35, 2, 0, 0], at(10, 40)),
            (&[37, 3, 0, 36, 1, 37, 3, 0, 36, 1], at(10, 41)),
            (&[37, 3, 0, 36, 1, 37, 3, 0, 36, 1, 0], at(10, 41)),
            (&[32, 1, 3, 35, 2, 0, 0, 37, 3, 0, 36, 1], ACCEPTED),
        ]);
    }

    #[test]
    fn the_place_of_11_is_the_ninth() {
        let one = quiet(1, 0, 1, 0);
        let eight = one.repeat(8);
        let nine = one.repeat(9);
        let ten = one.repeat(10);
        let later = [&eight[..], &[0, 0], &one].concat();
        check_elements(&[
            (&eight, ACCEPTED),
            (&nine, at(11, 36 + 64)),
            (&ten, at(11, 36 + 64)),
            (&later, at(11, 36 + 66)),
            // A wrong ninth, told at the same place.
            (&[&eight[..], &[40, 0]].concat(), at(8, 100)),
            (&[&eight[..], &[40]].concat(), at(6, 100)),
        ]);
    }

    #[test]
    fn the_place_of_12_is_the_interval() {
        for subtype in [5, 8] {
            assert_eq!(fault(&notice(subtype, OWN, 100, &[])), ACCEPTED);
            // Of the high octet alone it is the field's first octet too.
            for interval in [0, 99, 101, 100 + 256, 65_535] {
                for elements in [&[][..], &[32], &[32, 0]] {
                    let frame = notice(subtype, OWN, interval, elements);
                    assert_eq!(fault(&frame), at(12, 32));
                }
            }
        }
    }

    #[test]
    fn the_place_of_21() {
        for id in 0..=255u8 {
            // An ID is judged before its contents are found cut.
            let first = |right| if id == right { at(6, 27) } else { at(21, 27) };
            // A vendor's element may stand there, so it is cut (02, Four).
            let further = |right| {
                if id == right || id == 221 {
                    at(6, 32)
                } else {
                    at(21, 32)
                }
            };
            check_bodies(&[
                (&[0, 0, 5, id, 9], first(38)),
                (&[0, 1, 5, id, 9], first(39)),
                (&[0, 2, 5, id, 9], first(34)),
                (&[0, 3, 5, id, 9], first(35)),
                (
                    &[0, 4, id, 9],
                    if id == 37 { at(6, 26) } else { at(21, 26) },
                ),
                (&[0, 0, 5, 38, 3, 1, 2, 0, id, 9], further(38)),
                (&[0, 1, 5, 39, 3, 1, 1, 0, id, 9], further(39)),
            ]);
        }
        // Another element is not skipped, and whole it is no better.
        check_bodies(&[
            (&[0, 2, 7, 0, 0, 34, 0], at(21, 27)),
            (&[0, 2, 7, 35, 0], at(21, 27)),
            (&[0, 0, 5, 38, 3, 1, 2, 0, 39, 0], at(21, 32)),
        ]);
    }

    #[test]
    fn the_place_of_22_is_the_first_left_over() {
        // But for a vendor's element (02, Four).
        for octet in (0..=255u8).filter(|&octet| octet != 221) {
            check_bodies(&[
                (&[0, 2, 7, 34, 0, octet], at(22, 29)),
                (&[0, 2, 7, 34, 0, octet, 0], at(22, 29)),
                (&[0, 3, 0, 35, 2, 0, 0, octet], at(22, 31)),
                (&[0, 4, 37, 3, 1, 200, 0, octet], at(22, 31)),
            ]);
        }
        check_bodies(&[
            (&[0, 2, 7, 34, 0], ACCEPTED),
            (&[0, 3, 0, 35, 2, 0, 0], ACCEPTED),
            (&[0, 4, 37, 3, 1, 200, 0], ACCEPTED),
            (&[0, 4, 37, 3, 1, 200, 0, 37, 3, 1, 200, 0], at(22, 31)),
        ]);
        // As much left over as a frame can have, and one octet more.
        let mut frame = action(OWN, &[0, 2, 7, 34, 0]);
        frame.resize(2336, 34);
        assert_eq!(fault(&frame), at(22, 29));
        frame.push(34);
        assert_eq!(fault(&frame), (2, None));
    }

    #[test]
    fn places_at_the_end_of_the_longest_frame() {
        // 3 + 460 * 5 + 7 = 2,310 octets of body, 2,334 of frame.
        let mut body = vec![0, 1, 0];
        body.extend_from_slice(&[39, 3, 0, 1, 9].repeat(460));
        body.extend_from_slice(&[39, 5, 0, 0, 3, 1, 1]);
        let reports = action(OWN, &body);
        assert_eq!(reports.len(), 2334);
        assert_eq!(fault(&reports), ACCEPTED);
        for (more, expected) in [
            (&[39][..], at(6, 2334)),
            (&[39, 0], at(8, 2334)),
            (&[39, 1], at(6, 2334)),
            (&[38, 0], at(21, 2334)),
            (&[39, 0, 0], (2, None)),
        ] {
            assert_eq!(fault(&[&reports[..], more].concat()), expected);
        }
        // With an element of 8 octets for the one of 7, an ID is all that fits.
        body.truncate(2303);
        body.extend_from_slice(&[39, 6, 0, 0, 3, 1, 1, 1, 39]);
        let mut reports = action(OWN, &body);
        assert_eq!(reports.len(), 2336);
        assert_eq!(fault(&reports), at(6, 2335));
        assert_eq!(fault(&reports[..2335]), ACCEPTED);
        reports.push(3);
        assert_eq!(fault(&reports), (2, None));
    }

    #[test]
    fn places_at_the_end_of_the_longest_notice() {
        // 8 * 257 + 243 = 2,299 octets of elements, and an ID.
        let skipped = |length: usize| [vec![0, length as u8], vec![0; length]].concat();
        let mut elements = skipped(255).repeat(8);
        elements.append(&mut skipped(241));
        check_elements(&[(&elements, ACCEPTED)]);
        elements.push(32);
        check_elements(&[(&elements, at(6, 2335))]);
        elements.push(0);
        check_elements(&[(&elements, (2, None))]);
        // 3 + 8 * 257 + 238 = 2,297 octets, and three more.
        let mut elements = vec![32, 1, 3];
        elements.append(&mut skipped(255).repeat(8));
        elements.append(&mut skipped(236));
        for (last, expected) in [
            ([32, 1, 3], at(10, 2333)),
            ([32, 2, 3], at(6, 2333)),
            ([35, 1, 3], at(8, 2333)),
            ([33, 1, 3], ACCEPTED),
        ] {
            check_elements(&[(&[&elements[..], &last].concat(), expected)]);
        }
    }

    /// Bodies of the actions 2, 3 and 4 with their one element.
    const SINGLES: [&[u8]; 3] = [
        &[0, 2, 7, 34, 0],
        &[0, 3, 0, 35, 2, 3, 4],
        &[0, 4, 37, 3, 1, 200, 0],
    ];

    /// Bodies of the actions 0 and 1 with one element, of the token 1, and a
    /// further element, of the token 2.
    const MEASUREMENTS: [(&[u8], &[u8]); 2] = [
        (&[0, 0, 5, 38, 3, 1, 2, 0], &[38, 3, 2, 2, 9]),
        (&[0, 1, 0, 39, 3, 1, 1, 0], &[39, 3, 2, 4, 9]),
    ];

    /// A fault whose place is counted from the end of this body, with its place
    /// in the frame.
    fn after(body: &[u8], fault: (u8, Option<usize>)) -> (u8, Option<usize>) {
        (fault.0, fault.1.map(|place| 24 + body.len() + place))
    }

    /// Each run of octets with the fault it makes after the element of each
    /// of these bodies; the place is counted from the run's first octet.
    fn check_after(bodies: &[&[u8]], cases: &[(&[u8], (u8, Option<usize>))]) {
        for body in bodies {
            for (run, expected) in cases {
                let whole = [*body, run].concat();
                check_bodies(&[(&whole, after(body, *expected))]);
                if *expected == ACCEPTED {
                    assert_eq!(read(&action(OWN, &whole)), read(&action(OWN, body)));
                }
            }
        }
    }

    #[test]
    fn vendors_after_the_one_element() {
        let longest = vendor(&[221; 255]);
        let some = [vendor(&[]), vendor(&[34, 0]), longest.clone(), vendor(&[0])].concat();
        check_after(
            &SINGLES,
            &[
                (&[], ACCEPTED),
                (&[221, 0], ACCEPTED),
                (&[221, 1, 7], ACCEPTED),
                (&[221, 5, 37, 3, 0, 36, 0], ACCEPTED),
                (&[221, 0, 221, 0], ACCEPTED),
                (&[221, 2, 221, 9, 221, 0, 221, 1, 221], ACCEPTED),
                (&longest, ACCEPTED),
                (&some, ACCEPTED),
                (&some.repeat(8), ACCEPTED),
                (&vendor(&[]).repeat(1000), ACCEPTED),
            ],
        );
    }

    #[test]
    fn a_cut_vendor_after_the_one_element() {
        let longest = vendor(&[34; 255]);
        check_after(
            &SINGLES,
            &[
                // In its header, and in its contents.
                (&[221], at(6, 0)),
                (&[221, 1], at(6, 0)),
                (&[221, 2, 7], at(6, 0)),
                (&[221, 2, 7, 7], ACCEPTED),
                (&[221, 221], at(6, 0)),
                (&longest[..256], at(6, 0)),
                // After a whole one, and after several.
                (&[221, 0, 221], at(6, 2)),
                (&[221, 0, 221, 1], at(6, 2)),
                (&[221, 2, 7, 7, 221, 3, 0, 0], at(6, 4)),
                (&[&longest[..], &[221]].concat(), at(6, 257)),
                (&[&longest[..], &[221, 0, 221, 3, 37]].concat(), at(6, 259)),
                // What looks like an element in its contents is none.
                (&[221, 3, 221, 0], at(6, 0)),
                (&[221, 6, 37, 3, 0, 36, 0], at(6, 0)),
            ],
        );
    }

    #[test]
    fn what_is_left_over_after_vendors() {
        for id in (0..=255u8).filter(|&id| id != 221) {
            // Cut or whole, and whatever follows it: 22 at its first octet.
            check_after(
                &SINGLES,
                &[
                    (&[id], at(22, 0)),
                    (&[id, 0], at(22, 0)),
                    (&[id, 221], at(22, 0)),
                    (&[id, 0, 221, 0], at(22, 0)),
                    (&[221, 0, id], at(22, 2)),
                    (&[221, 0, id, 9], at(22, 2)),
                    (&[221, 1, 221, id, 0], at(22, 3)),
                    (&[221, 1, id, id, 0, 221, 0], at(22, 3)),
                    (&[221, 0, 221, 2, id, id, id, 1, 221], at(22, 6)),
                ],
            );
        }
        // A real element is left over as any other is.
        check_bodies(&[
            (&[0, 2, 7, 34, 0, 221, 0, 34, 0], at(22, 31)),
            (&[0, 3, 0, 35, 2, 0, 0, 221, 1, 7, 35, 2, 0, 0], at(22, 34)),
            (
                &[0, 4, 37, 3, 0, 36, 0, 221, 0, 37, 3, 0, 36, 0],
                at(22, 33),
            ),
            (&[0, 2, 7, 34, 0, 220, 0], at(22, 29)),
            (&[0, 2, 7, 34, 0, 221, 0], ACCEPTED),
            (&[0, 2, 7, 34, 0, 222, 0], at(22, 29)),
        ]);
    }

    #[test]
    fn a_vendor_in_front_is_another_element() {
        for (body, id, place) in [
            (&[0, 0, 5][..], 38, 27),
            (&[0, 1, 0], 39, 27),
            (&[0, 2, 7], 34, 27),
            (&[0, 3, 0], 35, 27),
            (&[0, 4], 37, 26),
        ] {
            let with = |octets: &[u8]| [body, octets].concat();
            check_bodies(&[
                (&with(&[]), at(7, place)),
                // Half a header, whatever it is.
                (&with(&[220]), at(6, place)),
                (&with(&[221]), at(6, place)),
                // Whole, cut, and before a real one.
                (&with(&[221, 0]), at(21, place)),
                (&with(&[221, 1]), at(21, place)),
                (&with(&[221, 2, 7]), at(21, place)),
                (&with(&[221, 1, 7]), at(21, place)),
                (&with(&[221, 0, 221]), at(21, place)),
                (&with(&[221, 0, 221, 0]), at(21, place)),
                (&with(&[221, 0, id]), at(21, place)),
                (&with(&[221, 0, id, 0]), at(21, place)),
            ]);
        }
        for body in SINGLES {
            let element_at = if body[1] == 4 { 2 } else { 3 };
            let (front, element) = body.split_at(element_at);
            let place = 24 + element_at;
            let later = [front, &[221, 0], element].concat();
            let around = [front, &[221, 0], element, &[221, 0]].concat();
            check_bodies(&[(&later, at(21, place)), (&around, at(21, place))]);
        }
    }

    #[test]
    fn the_one_element_is_judged_before_what_is_after_it() {
        for vendors in [&[221][..], &[221, 0], &[221, 1], &[221, 0, 0]] {
            let with = |body: &[u8]| [body, vendors].concat();
            check_bodies(&[
                (&with(&[0, 2, 0, 34, 0]), at(9, 26)),
                (&with(&[0, 2, 7, 34, 1, 0]), at(8, 27)),
                (&with(&[0, 2, 7, 34, 9]), at(6, 27)),
                (&with(&[0, 2, 7, 35, 0]), at(21, 27)),
                (&with(&[0, 3, 7, 35, 1, 0]), at(8, 27)),
                (&with(&[0, 3, 7, 35, 9, 0]), at(6, 27)),
                (&with(&[0, 3, 7, 34, 0]), at(21, 27)),
                (&with(&[0, 4, 37, 2, 0, 36]), at(8, 26)),
                (&with(&[0, 4, 37, 3, 2, 36, 0]), at(9, 26)),
                (&with(&[0, 4, 37, 3, 0, 201, 0]), at(9, 26)),
                (&with(&[0, 4, 37, 9, 0, 36, 0]), at(6, 26)),
                (&with(&[0, 4, 38, 3, 0, 36, 0]), at(21, 26)),
            ]);
        }
    }

    #[test]
    fn vendors_between_and_after_measurements() {
        for (body, further) in MEASUREMENTS {
            let plain = read(&action(OWN, &[body, further].concat()));
            assert!(plain.is_ok());
            let longest = vendor(&[body[3]; 255]);
            let some = [vendor(&[]), vendor(further), longest, vendor(&[221])].concat();
            for between in [&[][..], &[221, 0], &[221, 1, 7, 221, 0], &some] {
                for after in [&[][..], &[221, 0], &[221, 2, 221, 9, 221, 0], &some] {
                    let mixed = [body, between, further, after].concat();
                    assert_eq!(read(&action(OWN, &mixed)), plain);
                }
                check_after(&[body], &[(between, ACCEPTED)]);
            }
        }
    }

    #[test]
    fn a_cut_vendor_among_measurements() {
        for (body, further) in MEASUREMENTS {
            let two = [body, &[221, 1, 7], further].concat();
            check_after(
                &[body, &two],
                &[
                    (&[221], at(6, 0)),
                    (&[221, 1], at(6, 0)),
                    (&[221, 2, 7], at(6, 0)),
                    (&[221, 2, 7, 7], ACCEPTED),
                    (&[221, 0, 221], at(6, 2)),
                    (&[221, 0, 221, 1], at(6, 2)),
                    (&[221, 2, 7, 7, 221, 3, 0, 0], at(6, 4)),
                    (&vendor(&[7; 255])[..256], at(6, 0)),
                    // A real element in its contents is none.
                    (&[&[221, 6][..], further].concat(), at(6, 0)),
                    (&[&[221, 5][..], further].concat(), ACCEPTED),
                ],
            );
        }
    }

    #[test]
    fn other_elements_among_measurements() {
        for (body, further) in MEASUREMENTS {
            let right = further[0];
            for id in (0..=255u8).filter(|&id| id != 221) {
                let another = |place| {
                    if id == right {
                        at(8, place)
                    } else {
                        at(21, place)
                    }
                };
                check_after(
                    &[body],
                    &[
                        (&[id], at(6, 0)),
                        (&[id, 0], another(0)),
                        (&[221, 0, id], at(6, 2)),
                        (&[221, 0, id, 0], another(2)),
                        (&[221, 1, id, id, 0, 221], another(3)),
                        (&[221, 0, 221, 1, 7, id, 0], another(5)),
                    ],
                );
                let cut = if id == right { at(6, 2) } else { at(21, 2) };
                check_after(&[body], &[(&[221, 0, id, 9], cut)]);
            }
        }
        check_bodies(&[
            (&[0, 0, 5, 38, 3, 1, 2, 0, 220, 0], at(21, 32)),
            (&[0, 0, 5, 38, 3, 1, 2, 0, 221, 0], ACCEPTED),
            (&[0, 0, 5, 38, 3, 1, 2, 0, 222, 0], at(21, 32)),
        ]);
    }

    #[test]
    fn faults_after_vendors_count_the_skipped_octets() {
        let requests = [0, 0, 5, 38, 3, 1, 2, 0, 221, 2, 38, 3];
        let reports = [0, 1, 0, 39, 3, 1, 1, 0, 221, 2, 39, 3];
        check_after(
            &[&requests],
            &[
                (&[38, 2, 2, 2], at(8, 0)),
                (&[38, 3, 0, 2, 0], at(9, 0)),
                (&measure(2, 0, 201, 0, 1), at(9, 0)),
                (&[38, 3, 2, 2], at(6, 0)),
                (&[39, 3, 2, 1, 0], at(21, 0)),
                // An element is judged before the vendor's after it.
                (&[38, 3, 0, 2, 0, 221], at(9, 0)),
                (&[38, 4, 2, 2, 0, 0, 221, 1], at(8, 0)),
            ],
        );
        check_after(
            &[&reports],
            &[
                (&[39, 2, 2, 1], at(8, 0)),
                (&[39, 3, 2, 3, 0], at(9, 0)),
                (&[39, 3, 2, 1], at(6, 0)),
                (&[38, 3, 2, 2, 0], at(21, 0)),
                (&[39, 3, 2, 3, 0, 221], at(9, 0)),
                (&[39, 4, 2, 1, 0, 0, 221, 1], at(8, 0)),
            ],
        );
        assert_eq!(24 + requests.len(), 36);
    }

    #[test]
    fn a_repeat_after_vendors() {
        let one = [0, 0, 5, 38, 3, 1, 2, 0];
        check_after(
            &[&one],
            &[
                (&[38, 3, 1, 2, 0], at(10, 0)),
                (&[221, 0, 38, 3, 1, 2, 0], at(10, 2)),
                (&[221, 0, 221, 1, 7, 38, 3, 1, 2, 0], at(10, 5)),
                // The repeat comes before what is after it.
                (&[221, 0, 38, 3, 1, 2, 0, 221], at(10, 2)),
                (&[221, 0, 38, 3, 1, 2, 0, 0, 0], at(10, 2)),
                // And a cut vendor's element before the repeat after it.
                (&[221, 6, 38, 3, 1, 2, 0], at(6, 0)),
                // A token in a vendor's contents is not used.
                (&[221, 5, 38, 3, 1, 2, 0], ACCEPTED),
            ],
        );
        let mixed = |token| {
            let third = [38, 3, token, 2, 0];
            [&one[..], &[221, 0, 38, 3, 2, 2, 0, 221, 1, 7], &third].concat()
        };
        check_bodies(&[
            (&mixed(1), at(10, 42)),
            (&mixed(2), at(10, 42)),
            (&mixed(3), ACCEPTED),
        ]);
        // In reports a token may be used again, with a vendor's element or not.
        check_bodies(&[(&[0, 1, 0, 39, 3, 1, 1, 0, 221, 0, 39, 3, 1, 1, 0], ACCEPTED)]);
    }

    #[test]
    fn vendors_do_not_count_in_the_index() {
        let vendors = [221, 0, 221, 1, 38];
        let token = |request: Request| request.token;
        let mut body = vec![0, 0, 5];
        for token in 1..=3 {
            body.extend_from_slice(&[38, 3, token, 2, 0]);
            body.extend_from_slice(&vendors);
        }
        let frame = read(&action(OWN, &body)).unwrap().frame;
        for index in 0..3 {
            assert_eq!(frame.request(index).map(token), Ok(index as u8 + 1));
            assert_eq!(frame.report(index), Err(16));
        }
        for past in [3, 4, 8, usize::MAX] {
            assert_eq!(frame.request(past), Err(16));
        }
        assert!(matches!(
            frame,
            Frame::MeasurementRequest { requests, .. } if requests.len() == 3
        ));
        let token = |report: Report| report.token;
        let mut body = vec![0, 1, 5];
        for token in 1..=3 {
            body.extend_from_slice(&[39, 3, token, 1, 0]);
            body.extend_from_slice(&vendors);
        }
        let frame = read(&action(OWN, &body)).unwrap().frame;
        for index in 0..3 {
            assert_eq!(frame.report(index).map(token), Ok(index as u8 + 1));
            assert_eq!(frame.request(index), Err(16));
        }
        for past in [3, 4, 8, usize::MAX] {
            assert_eq!(frame.report(past), Err(16));
        }
        assert!(matches!(
            frame,
            Frame::MeasurementReport { reports, .. } if reports.len() == 3
        ));
    }

    #[test]
    fn vendors_up_to_the_longest_frame() {
        let bodies = [
            SINGLES[0],
            SINGLES[1],
            SINGLES[2],
            MEASUREMENTS[0].0,
            MEASUREMENTS[1].0,
        ];
        for body in bodies {
            // The longest ones, and one that ends two octets before the limit.
            let mut whole = action(OWN, body);
            while whole.len() + 257 + 2 <= 2334 {
                whole.extend_from_slice(&vendor(&[7; 255]));
            }
            let left = 2334 - whole.len() - 2;
            whole.extend_from_slice(&vendor(&vec![7; left]));
            assert_eq!(whole.len(), 2334);
            let other = if body[1] < 2 { 21 } else { 22 };
            let half = if body[1] < 2 { 6 } else { 22 };
            for (more, expected) in [
                (&[][..], ACCEPTED),
                (&[221], at(6, 2334)),
                (&[221, 0], ACCEPTED),
                (&[221, 1], at(6, 2334)),
                (&[222], at(half, 2334)),
                (&[222, 0], at(other, 2334)),
                (&[221, 0, 0], (2, None)),
                (&[221, 1, 0], (2, None)),
            ] {
                assert_eq!(fault(&[&whole[..], more].concat()), expected);
            }
        }
    }

    #[test]
    fn vendors_in_a_notice_as_before() {
        check_elements(&[
            (&[221], at(6, 36)),
            (&[221, 0], ACCEPTED),
            (&[221, 1], at(6, 36)),
            (&[221, 1, 7], ACCEPTED),
            (&[221, 0, 221], at(6, 38)),
            (&[221, 1, 7, 32, 1, 3, 221, 0, 222, 0], ACCEPTED),
            (&[221, 1, 7, 32, 1, 3, 221, 0, 32, 1, 3], at(10, 44)),
            (&[32, 1, 3, 221, 2, 7], at(6, 39)),
        ]);
    }

    /// Some element, often a right one of this ID and never a vendor's.
    fn some_element(dice: &mut Dice, right: u8) -> Vec<u8> {
        let id = match dice.roll(12) {
            0 => 220 + 2 * dice.roll(2) as u8,
            1 => 34 + dice.roll(6) as u8,
            _ => right,
        };
        let mut contents: Vec<u8> = match id {
            34 => vec![],
            35 => vec![dice.roll(256) as u8, dice.roll(256) as u8],
            37 => vec![0, dice.roll(210) as u8, 221],
            38 => vec![1 + dice.roll(6) as u8, 2, 221],
            _ => vec![221, 1 + dice.roll(3) as u8, 0],
        };
        if dice.roll(12) == 0 {
            contents.push(221);
        }
        let head = vec![id, contents.len() as u8];
        [head, contents].concat()
    }

    #[test]
    fn vendors_change_nothing_but_places() {
        let mut dice = Dice(221);
        // How often each number was met with a vendor's element in the body.
        let mut met = [0; 23];
        for _ in 0..100_000 {
            let number = dice.roll(5) as u8;
            let mut plain = vec![0, number, 1 + dice.roll(5) as u8];
            if number == 4 {
                plain.pop();
            }
            let mut mixed = plain.clone();
            // Where each element begins, without and with the vendors'.
            let mut begins = Vec::new();
            let right = [38, 39, 34, 35, 37][usize::from(number)];
            let most = if number < 2 { 4 } else { 2 };
            for _ in 0..dice.roll(most + 1) {
                if !begins.is_empty() {
                    for _ in 0..dice.roll(3) {
                        let contents = some_element(&mut dice, right);
                        mixed.append(&mut vendor(&contents));
                    }
                }
                begins.push((24 + plain.len(), 24 + mixed.len()));
                let element = some_element(&mut dice, right);
                plain.extend_from_slice(&element);
                mixed.extend_from_slice(&element);
            }
            // The last element is cut, or has vendors' elements after it.
            if dice.roll(6) == 0 && !begins.is_empty() {
                plain.pop();
                mixed.pop();
            } else if !begins.is_empty() {
                mixed.append(&mut vendor(&[right, 0]).repeat(dice.roll(3) as usize));
            }
            let (number, place) = fault(&action(OWN, &plain));
            let moved = place.map(|place| {
                let begun = begins.iter().find(|begin| begin.0 == place);
                begun.map_or(place, |begin| begin.1)
            });
            assert_eq!(fault(&action(OWN, &mixed)), (number, moved), "{:?}", mixed);
            if number == 0 {
                assert_eq!(read(&action(OWN, &mixed)), read(&action(OWN, &plain)));
            }
            if mixed != plain {
                met[usize::from(number)] += 1;
            }
        }
        for number in [0, 6, 8, 9, 10, 21, 22] {
            assert!(met[number] > 100, "{:?}", met);
        }
    }

    /// What holds of the place of any refusal.
    fn check_place(frame: &[u8]) {
        let (number, offset) = fault(frame);
        let placed = (5..=12).contains(&number) || number == 21 || number == 22;
        assert_eq!(offset.is_some(), placed, "{:?}", frame);
        let place = match offset {
            None => return,
            Some(place) => place,
        };
        assert!(24 <= place && place <= frame.len());
        assert_eq!(place == frame.len(), number == 7);
        if number == 7 {
            return;
        }
        // What stands before the place is whole, or lacks just what is there.
        let before = fault(&frame[..place]);
        // The octet at the place is the first of an element or left over.
        let alone = fault(&frame[..place + 1]);
        match number {
            // A fixed field: category, action or interval.
            5 | 12 => assert_eq!(before, (1, None)),
            // The dialog token of a request; action 4 has an element there.
            9 if place == 26 && frame[25] != 4 => assert_eq!(before, (1, None)),
            22 => {
                assert_eq!(before, ACCEPTED);
                assert_eq!(alone, at(22, place));
            }
            _ => {
                assert!(before == ACCEPTED || before == at(7, place));
                assert_eq!(alone, at(6, place));
            }
        }
    }

    #[test]
    fn what_stands_before_a_place_is_whole() {
        // Every short run over a small alphabet, where each thing may stand.
        let alphabet = [0u8, 1, 2, 3, 34, 37, 38, 39, 221];
        let fronts: [&[u8]; 10] = [
            &[],
            &[0, 0, 5],
            &[0, 0, 5, 38, 3, 1, 2, 0],
            &[0, 1, 0],
            &[0, 1, 0, 39, 3, 0, 1, 9],
            &[0, 2, 7, 34, 0],
            &[0, 3, 0],
            &[0, 3, 0, 35, 2, 0, 0],
            &[0, 4],
            &[0, 4, 37, 3, 1, 1, 1],
        ];
        for number in 0..9usize.pow(5) {
            let run: Vec<u8> = (0..5)
                .map(|place| alphabet[number / 9usize.pow(place) % 9])
                .collect();
            for front in fronts {
                check_place(&action(OWN, &[front, &run].concat()));
            }
            check_place(&notice(8, OWN, 100, &run));
            check_place(&notice(
                8,
                OWN,
                100,
                &[&[37, 3, 1, 1, 1][..], &run].concat(),
            ));
            check_place(&notice(5, OWN, 99, &run));
        }
    }

    #[test]
    fn no_octets_make_it_panic() {
        // Every short body over a small alphabet, after each subtype.
        let alphabet = [0u8, 1, 2, 3, 34, 37, 38, 39, 221];
        for subtype in [5u8, 8, 13] {
            for number in 0..9usize.pow(5) {
                let body: Vec<u8> = (0..5)
                    .map(|place| alphabet[number / 9usize.pow(place) % 9])
                    .collect();
                for length in 0..=5 {
                    let mut frame = crate::sample::header(subtype, OWN);
                    frame.extend_from_slice(&body[..length]);
                    let _ = read(&frame);
                }
            }
        }
    }

    fn read_ibss(frame: &[u8]) -> Result<IbssReceived, Refusal> {
        read_ibss_frame(frame, OWN, CELL, 100)
    }

    /// The fault of these elements in a beacon of an IBSS.
    fn ibss_fault(elements: &[u8]) -> (u8, Option<usize>) {
        match read_ibss(&sent_by(PEER, &notice(8, ALL, 100, elements))) {
            Ok(_) => (0, None),
            Err(refusal) => (refusal.number, refusal.offset),
        }
    }

    /// The same in a probe response of an IBSS, and in both to document 01's
    /// station: those skip element 41.
    fn skipping_fault(elements: &[u8]) -> (u8, Option<usize>) {
        let of_beacon = fault(&notice(8, ALL, 100, elements));
        assert_eq!(of_beacon, fault(&notice(5, ALL, 100, elements)));
        let of_response = match read_ibss(&sent_by(PEER, &notice(5, ALL, 100, elements))) {
            Ok(received) => {
                assert_eq!(received.dfs, None);
                (0, None)
            }
            Err(refusal) => (refusal.number, refusal.offset),
        };
        assert_eq!(of_beacon, of_response);
        of_response
    }

    #[test]
    fn a_beacon_of_an_ibss() {
        let elements = [
            vec![32, 1, 3],
            dfs(OTHER, 9, &[36, 1, 201, 0xFF]),
            quiet(1, 2, 3, 4),
            vec![37, 3, 1, 44, 2],
        ]
        .concat();
        let received = read_ibss(&sent_by(PEER, &notice(8, ALL, 100, &elements))).unwrap();
        assert_eq!((received.sender, received.broadcast), (PEER, true));
        // The frame is what document 01's reader says of the same octets.
        let frame = read(&notice(8, ALL, 100, &elements)).unwrap().frame;
        assert_eq!(received.frame, frame);
        let element = received.dfs.clone().unwrap();
        assert_eq!((element.owner, element.recovery), (OTHER, 9));
        assert_eq!(element.pairs.len(), 2);
        let pair = |channel, map| Ok(ChannelMap { channel, map });
        assert_eq!(received.pair(0), pair(36, 1));
        assert_eq!(received.pair(1), pair(201, 255));
        assert_eq!(received.pair(2), Err(16));
        assert_eq!(received.pair(usize::MAX), Err(16));
        // Whoever announces: the reader knows no owner.
        assert_eq!(received.frame.quiet(0).map(|quiet| quiet.count), Ok(1));
    }

    #[test]
    fn frames_of_an_ibss_without_element_41() {
        let elements = dfs(OTHER, 9, &[36, 1]);
        for frame in [
            notice(8, OWN, 100, &[]),
            notice(5, OWN, 100, &elements),
            action(OWN, &[0, 4, 37, 3, 0, 44, 1]),
            action(ALL, &[&[0, 0, 9][..], &measure(1, 0, 36, 0, 5)].concat()),
        ] {
            let received = read_ibss(&sent_by(OTHER, &frame)).unwrap();
            let same = read(&frame).unwrap();
            assert_eq!(received.sender, OTHER);
            assert_eq!(received.broadcast, same.broadcast);
            assert_eq!(received.frame, same.frame);
            assert_eq!(received.dfs, None);
            assert_eq!(received.pair(0), Err(16));
        }
    }

    #[test]
    fn faults_of_element_41() {
        let good = dfs(PEER, 1, &[]);
        let after = |more: &[u8]| [&good[..], more].concat();
        let group = [5, 0, 0, 0, 0, 0];
        // Each run of elements with its fault in a beacon, and where 41 is
        // skipped.
        let cases = [
            (good.clone(), ACCEPTED, ACCEPTED),
            (dfs(OTHER, 255, &[255; 248]), ACCEPTED, ACCEPTED),
            (vec![41], at(6, 36), at(6, 36)),
            (vec![41, 7, 2, 0, 0, 0, 0, 0], at(6, 36), at(6, 36)),
            (vec![41, 0], at(8, 36), ACCEPTED),
            (vec![41, 6, 2, 0, 0, 0, 0, 0], at(8, 36), ACCEPTED),
            (vec![41, 8, 2, 0, 0, 0, 0, 0, 1, 1], at(8, 36), ACCEPTED),
            (dfs(PEER, 0, &[]), at(9, 36), ACCEPTED),
            (dfs(group, 1, &[]), at(9, 36), ACCEPTED),
            // The length is judged before the values.
            (dfs(group, 0, &[1]), at(8, 36), ACCEPTED),
            (after(&good), at(10, 45), ACCEPTED),
            // And both before the repeat, as is what is cut.
            (after(&[41]), at(6, 45), at(6, 45)),
            (after(&[41, 0]), at(8, 45), ACCEPTED),
            (after(&dfs(PEER, 0, &[])), at(9, 45), ACCEPTED),
            // From left to right, whatever the number.
            (
                after(&[&good[..], &[32, 0]].concat()),
                at(10, 45),
                at(8, 54),
            ),
            (after(&[32, 0, 41, 0]), at(8, 45), at(8, 45)),
            (vec![32, 1, 3, 32, 1, 3, 41, 0], at(10, 39), at(10, 39)),
            (vec![41, 0, 32, 1, 3, 32, 1, 3], at(8, 36), at(10, 41)),
            (
                after(&quiet(1, 0, 1, 0).repeat(9)),
                at(11, 109),
                at(11, 109),
            ),
        ];
        for (elements, in_beacon, skipped) in cases {
            assert_eq!(ibss_fault(&elements), in_beacon, "{:?}", elements);
            assert_eq!(skipping_fault(&elements), skipped, "{:?}", elements);
        }
    }

    #[test]
    fn faults_before_the_elements_of_an_ibss_beacon() {
        let element = [41, 0];
        let whole = sent_by(PEER, &notice(8, OWN, 99, &element));
        assert_eq!(read_ibss(&whole), Err(Refusal::at(12, 32)));
        for length in 0..36 {
            assert_eq!(read_ibss(&whole[..length]), Err(Refusal::nowhere(1)));
        }
        for (at, octet, number) in [(10, 1, 4), (16, 0, 4), (4, 0, 4), (1, 1, 3), (0, 0, 3)] {
            let mut other = whole.clone();
            other[at] = octet;
            assert_eq!(read_ibss(&other), Err(Refusal::nowhere(number)));
        }
        let long = [&whole[..], &[0; 2336]].concat();
        assert_eq!(read_ibss(&long), Err(Refusal::nowhere(2)));
        // Action frames have the places that they have elsewhere.
        let body = [0, 4, 41, 3, 0, 36, 0];
        let other = sent_by(PEER, &action(OWN, &body));
        assert_eq!(read_ibss(&other), Err(Refusal::at(21, 26)));
    }
}
