//! Replies to a TPC Request or a Measurement Request (section "Replies";
//! 802.11h 11.5.4 and 11.6.6), and the error returns of broken action bodies
//! (02, One; 802.11h 7.3.1.11).

use crate::answer::{
    ACTION, ANOTHER_ELEMENT, FRAME_SHORT, IMPOSSIBLE, LEFT_OVER, NO_REPLY, REPEATED,
};
use crate::body::{measurement_report_body_octets, read_action_body, tpc_report_body_octets};
use crate::fraction::{busy_fraction, rpi_densities, TU};
use crate::frame::Frame;
use crate::header::{read_header, reply_header, Network, Subtype, HEADER};
use crate::measurement::{Asks, Report, Request, Says, BASIC, CCA, RPI};
use crate::octets::lay;
use crate::Address;

/// The top bit of a category; from 128 on it is set (802.11h 7.3.1.11).
const CATEGORY_ERROR: u8 = 128;

/// What the caller found for a measurement.
#[derive(Clone, Copy, Debug, PartialEq, Eq)]
pub enum Finding {
    /// It will not measure.
    Refused,
    /// The map of a basic measurement.
    Map(u8),
    /// Busy microseconds of a CCA measurement.
    Busy(u32),
    /// Microseconds at each RPI of an RPI histogram.
    Times([u32; 8]),
}

/// What a reply is due to.
enum Due {
    Tpc {
        token: u8,
    },
    Measurement {
        token: u8,
        requests: Vec<Request>,
    },
    /// A broken body; this is what is returned of it.
    Broken(Vec<u8>),
}

/// Writes the TPC Report frame that answers `frame` to the front of `out`: 31
/// octets. Refusals: header (1 to 4), 18, 16, 13.
///
/// A broken body gives its error return, whatever the power and margin, of
/// the frame's own length (02, One). Refusals then: 18, 13.
pub fn reply_to_tpc_request(
    frame: &[u8],
    own: Address,
    ap: Address,
    power: i8,
    margin: i8,
    out: &mut [u8],
) -> Result<usize, u8> {
    let network = Network::Infrastructure { ap };
    tpc_reply(frame, own, network, power, margin, out)
}

/// The same in an IBSS: a frame is of the BSSID and from any individual
/// address, and the reply goes to that address (02, Five).
pub fn reply_to_tpc_request_in_ibss(
    frame: &[u8],
    own: Address,
    bssid: Address,
    power: i8,
    margin: i8,
    out: &mut [u8],
) -> Result<usize, u8> {
    tpc_reply(frame, own, Network::Ibss { bssid }, power, margin, out)
}

fn tpc_reply(
    frame: &[u8],
    own: Address,
    network: Network,
    power: i8,
    margin: i8,
    out: &mut [u8],
) -> Result<usize, u8> {
    let (sender, due) = read_due(frame, own, network)?;
    let header = reply_header(own, sender, network.bssid());
    match due {
        Due::Tpc { token } => {
            lay_reply(&header, &tpc_report_body_octets(token, power, margin), out)
        }
        // A reply is due, but not this one.
        Due::Measurement { .. } => Err(IMPOSSIBLE),
        Due::Broken(returned) => lay_reply(&header, &returned, out),
    }
}

/// Writes the Measurement Report frame that answers the element `index` of
/// `frame` to the front of `out`: 32, 44 or 51 octets. Refusals: header (1 to
/// 4), 18, 16, 13.
///
/// A broken body gives its error return, whatever the index and the finding,
/// of the frame's own length (02, One). Refusals then: 18, 13.
pub fn reply_to_measurement_request(
    frame: &[u8],
    own: Address,
    ap: Address,
    clock: u32,
    index: usize,
    finding: Finding,
    out: &mut [u8],
) -> Result<usize, u8> {
    let network = Network::Infrastructure { ap };
    measurement_reply(frame, own, network, clock, index, finding, out)
}

/// The same in an IBSS: a frame is of the BSSID and from any individual
/// address, and the reply goes to that address (02, Five).
pub fn reply_to_measurement_request_in_ibss(
    frame: &[u8],
    own: Address,
    bssid: Address,
    clock: u32,
    index: usize,
    finding: Finding,
    out: &mut [u8],
) -> Result<usize, u8> {
    let network = Network::Ibss { bssid };
    measurement_reply(frame, own, network, clock, index, finding, out)
}

fn measurement_reply(
    frame: &[u8],
    own: Address,
    network: Network,
    clock: u32,
    index: usize,
    finding: Finding,
    out: &mut [u8],
) -> Result<usize, u8> {
    let (sender, due) = read_due(frame, own, network)?;
    let header = reply_header(own, sender, network.bssid());
    let (token, requests) = match due {
        Due::Measurement { token, requests } => (token, requests),
        // A reply is due, but not this one.
        Due::Tpc { .. } => return Err(IMPOSSIBLE),
        Due::Broken(returned) => return lay_reply(&header, &returned, out),
    };
    let request = requests.get(index).copied().ok_or(IMPOSSIBLE)?;
    let report = Report {
        token: request.token,
        kind: request.kind,
        says: answer_to(request, clock, finding)?,
    };
    let body = measurement_report_body_octets(token, &[report])?;
    lay_reply(&header, &body, out)
}

/// Whom and what to reply to. "Due only for accepted Action frames whose DA is the
/// station. Past check 4, all else is 18", but for the error returns of
/// Action frames to the station (02, One).
fn read_due(frame: &[u8], own: Address, network: Network) -> Result<(Address, Due), u8> {
    let header = read_header(frame, own, network)?;
    if header.subtype != Subtype::Action || header.broadcast {
        return Err(NO_REPLY);
    }
    let due = match read_action_body(frame, HEADER) {
        Ok(Frame::TpcRequest { token }) => Due::Tpc { token },
        Ok(Frame::MeasurementRequest { token, requests }) => Due::Measurement { token, requests },
        Ok(_) => return Err(NO_REPLY),
        Err(refusal) => Due::Broken(error_return(&frame[HEADER..], refusal.number)?),
    };
    Ok((header.sender, due))
}

/// The body of an error return: "refused with 1, 5 to 10, 21 or 22, category
/// present and under 128, the reply is its body with the category's top bit
/// set and nothing else changed; other broken bodies still give 18".
fn error_return(body: &[u8], number: u8) -> Result<Vec<u8>, u8> {
    let listed = matches!(
        number,
        FRAME_SHORT | ACTION..=REPEATED | ANOTHER_ELEMENT | LEFT_OVER
    );
    if !listed || body.is_empty() || body[0] >= CATEGORY_ERROR {
        return Err(NO_REPLY);
    }
    let mut returned = body.to_vec();
    returned[0] |= CATEGORY_ERROR;
    Ok(returned)
}

/// What the report says: Incapable, else Late, else what the caller found.
fn answer_to(request: Request, clock: u32, finding: Finding) -> Result<Says, u8> {
    match request.asks {
        Asks::Enable { .. } => Err(NO_REPLY),
        Asks::Uninterpreted => Ok(Says::Incapable),
        Asks::Measure {
            channel,
            start,
            duration,
        } => {
            let now = u64::from(clock) * TU;
            if start != 0 && start < now {
                return Ok(Says::Late);
            }
            // A start of 0 means at once (802.11h 7.3.2.21.1).
            let started = if start == 0 { now } else { start };
            result(request.kind, channel, started, duration, finding)
        }
    }
}

/// The caller's finding as the result of a measurement of this type. Whether
/// a map can be written is left to the writer of the report.
fn result(kind: u8, channel: u8, start: u64, duration: u16, finding: Finding) -> Result<Says, u8> {
    match (kind, finding) {
        (_, Finding::Refused) => Ok(Says::Refused),
        (BASIC, Finding::Map(map)) => Ok(Says::Basic {
            channel,
            start,
            duration,
            map,
        }),
        (CCA, Finding::Busy(time)) => {
            let busy = busy_fraction(time, duration)?;
            Ok(Says::Cca {
                channel,
                start,
                duration,
                busy,
            })
        }
        (RPI, Finding::Times(times)) => {
            let densities = rpi_densities(times, duration)?;
            Ok(Says::Rpi {
                channel,
                start,
                duration,
                densities,
            })
        }
        // Readings of another kind than the type asks for.
        _ => Err(IMPOSSIBLE),
    }
}

/// Lays header and body of a reply.
fn lay_reply(header: &[u8; HEADER], body: &[u8], out: &mut [u8]) -> Result<usize, u8> {
    lay(&[&header[..], body].concat(), out)
}

#[cfg(test)]
mod tests {
    use super::*;
    use crate::read_frame;
    use crate::sample::{
        action, dfs, header, measure, notice, sent_by, vendor, ALL, AP, CELL, OTHER, OWN, PEER,
    };

    const TPC: [u8; 5] = [0, 2, 7, 34, 0];

    fn tpc(frame: &[u8], out: &mut [u8]) -> Result<usize, u8> {
        reply_to_tpc_request(frame, OWN, AP, -3, 20, out)
    }

    /// The reply to element `index` at `clock`, or its refusal.
    fn reply(frame: &[u8], clock: u32, index: usize, finding: Finding) -> Result<Vec<u8>, u8> {
        let mut out = [0xEE; 60];
        match reply_to_measurement_request(frame, OWN, AP, clock, index, finding, &mut out) {
            Ok(length) => {
                // One octet less is 13, and octets past the reply stay.
                assert!(out[length..].iter().all(|&octet| octet == 0xEE));
                let mut short = vec![0xEE; length - 1];
                let refused =
                    reply_to_measurement_request(frame, OWN, AP, clock, index, finding, &mut short);
                assert_eq!(refused, Err(13));
                assert!(short.iter().all(|&octet| octet == 0xEE));
                assert_eq!(out[..2], [0xD0, 0]);
                assert_eq!(out[2..4], [0, 0]);
                assert_eq!(out[4..10], AP);
                assert_eq!(out[10..16], OWN);
                assert_eq!(out[16..22], AP);
                assert_eq!(out[22..24], [0, 0]);
                Ok(out[24..length].to_vec())
            }
            Err(refusal) => {
                assert_eq!(out, [0xEE; 60]);
                Err(refusal)
            }
        }
    }

    /// A measurement request frame: token 9 and these elements.
    fn requests(elements: &[Vec<u8>]) -> Vec<u8> {
        let mut body = vec![0, 0, 9];
        for element in elements {
            body.extend_from_slice(element);
        }
        action(OWN, &body)
    }

    #[test]
    fn tpc_reply() {
        let mut frame = action(OWN, &TPC);
        // What the request had in flags, duration and sequence is not kept.
        frame[1] = 0b1011_1000;
        frame[2] = 0xAA;
        frame[22] = 0xF0;
        frame[23] = 0x12;
        let mut out = [0xEE; 33];
        assert_eq!(tpc(&frame, &mut out), Ok(31));
        let mut expected = vec![0xD0, 0, 0, 0];
        expected.extend_from_slice(&AP);
        expected.extend_from_slice(&OWN);
        expected.extend_from_slice(&AP);
        expected.extend_from_slice(&[0, 0, 0, 3, 7, 35, 2, 0xFD, 20, 0xEE, 0xEE]);
        assert_eq!(out[..], expected[..]);
        let mut short = [0xEE; 30];
        assert_eq!(tpc(&frame, &mut short), Err(13));
        assert_eq!(short, [0xEE; 30]);
    }

    #[test]
    fn header_refusals_come_first() {
        let frame = action(OWN, &TPC);
        assert_eq!(tpc(&frame[..23], &mut []), Err(1));
        let mut long = frame.clone();
        long.resize(2337, 0);
        assert_eq!(tpc(&long, &mut []), Err(2));
        let mut other = frame.clone();
        other[0] = 0xC0;
        assert_eq!(tpc(&other, &mut []), Err(3));
        let mut other = frame.clone();
        other[10] ^= 2;
        assert_eq!(tpc(&other, &mut []), Err(4));
        let mut other = frame;
        other[4] ^= 2;
        assert_eq!(tpc(&other, &mut []), Err(4));
    }

    #[test]
    fn no_reply_is_due() {
        // Without a category, or with one that has its top bit set.
        let broken: [&[u8]; 5] = [
            &[],
            &[128],
            &[255],
            &[128, 2, 7, 34, 0],
            &[128, 0, 9, 38, 3, 1, 2, 0],
        ];
        let unasked: [&[u8]; 3] = [
            &[0, 3, 7, 35, 2, 0, 0],
            &[0, 1, 7, 39, 3, 0, 1, 0],
            &[0, 4, 37, 3, 0, 36, 0],
        ];
        for body in broken.iter().chain(unasked.iter()) {
            let frame = action(OWN, body);
            assert_eq!(tpc(&frame, &mut []), Err(18));
            assert_eq!(reply(&frame, 0, usize::MAX, Finding::Map(0xFF)), Err(18));
        }
        for frame in [
            action(ALL, &TPC),
            notice(8, OWN, 100, &[]),
            notice(5, OWN, 100, &[]),
            notice(8, OWN, 99, &[32]),
            header(8, OWN),
        ] {
            assert_eq!(tpc(&frame, &mut []), Err(18));
            assert_eq!(reply(&frame, 0, 0, Finding::Refused), Err(18));
        }
        let frame = action(ALL, &TPC);
        assert_eq!(
            reply_to_tpc_request(&frame, ALL, AP, 0, 0, &mut []),
            Err(18)
        );
    }

    /// Bodies that are refused, with the number, and what is returned of them.
    const BROKEN: [(u8, &[u8], &[u8]); 30] = [
        (1, &[0], &[0x80]),
        (1, &[0, 0], &[0x80, 0]),
        (1, &[0, 2], &[0x80, 2]),
        (5, &[1], &[0x81]),
        (5, &[127, 2, 7, 34, 0], &[0xFF, 2, 7, 34, 0]),
        (5, &[0, 5], &[0x80, 5]),
        (5, &[0, 255, 9, 9], &[0x80, 255, 9, 9]),
        (6, &[0, 2, 7, 34], &[0x80, 2, 7, 34]),
        (6, &[0, 4, 37, 3, 0, 36], &[0x80, 4, 37, 3, 0, 36]),
        (7, &[0, 4], &[0x80, 4]),
        (7, &[0, 0, 7], &[0x80, 0, 7]),
        (7, &[0, 3, 0], &[0x80, 3, 0]),
        (8, &[0, 2, 7, 34, 1, 0], &[0x80, 2, 7, 34, 1, 0]),
        (9, &[0, 2, 0, 34, 0], &[0x80, 2, 0, 34, 0]),
        (9, &[0, 4, 37, 3, 2, 36, 0], &[0x80, 4, 37, 3, 2, 36, 0]),
        (9, &[0, 1, 0, 39, 3, 0, 3, 9], &[0x80, 1, 0, 39, 3, 0, 3, 9]),
        (
            10,
            &[0, 0, 9, 38, 3, 1, 2, 0, 38, 3, 1, 2, 0],
            &[0x80, 0, 9, 38, 3, 1, 2, 0, 38, 3, 1, 2, 0],
        ),
        (21, &[0, 2, 7, 35, 0], &[0x80, 2, 7, 35, 0]),
        (21, &[0, 4, 38, 0], &[0x80, 4, 38, 0]),
        (
            21,
            &[0, 0, 9, 38, 3, 1, 2, 0, 39, 0],
            &[0x80, 0, 9, 38, 3, 1, 2, 0, 39, 0],
        ),
        (22, &[0, 2, 7, 34, 0, 0], &[0x80, 2, 7, 34, 0, 0]),
        (
            22,
            &[0, 3, 0, 35, 2, 0, 0, 35],
            &[0x80, 3, 0, 35, 2, 0, 0, 35],
        ),
        (
            22,
            &[0, 4, 37, 3, 1, 200, 0, 0],
            &[0x80, 4, 37, 3, 1, 200, 0, 0],
        ),
        // Vendors' elements are returned too, whole or cut (02, Four).
        (6, &[0, 2, 7, 34, 0, 221], &[0x80, 2, 7, 34, 0, 221]),
        (
            6,
            &[0, 4, 37, 3, 0, 36, 0, 221, 0, 221, 2, 7],
            &[0x80, 4, 37, 3, 0, 36, 0, 221, 0, 221, 2, 7],
        ),
        (
            6,
            &[0, 0, 9, 38, 3, 1, 2, 0, 221, 3, 1, 2],
            &[0x80, 0, 9, 38, 3, 1, 2, 0, 221, 3, 1, 2],
        ),
        (
            6,
            &[0, 1, 0, 39, 3, 0, 1, 9, 221, 0, 221],
            &[0x80, 1, 0, 39, 3, 0, 1, 9, 221, 0, 221],
        ),
        (
            10,
            &[0, 0, 9, 38, 3, 1, 2, 0, 221, 0, 38, 3, 1, 2, 0],
            &[0x80, 0, 9, 38, 3, 1, 2, 0, 221, 0, 38, 3, 1, 2, 0],
        ),
        (21, &[0, 2, 7, 221, 0, 34, 0], &[0x80, 2, 7, 221, 0, 34, 0]),
        (
            22,
            &[0, 3, 0, 35, 2, 0, 0, 221, 1, 7, 222, 0],
            &[0x80, 3, 0, 35, 2, 0, 0, 221, 1, 7, 222, 0],
        ),
    ];

    /// The reply calls, with material of which most fits no request at all.
    const WAYS: usize = 5;

    fn reply_by(way: usize, frame: &[u8], own: Address, out: &mut [u8]) -> Result<usize, u8> {
        let (clock, index, finding) = match way {
            0 => return reply_to_tpc_request(frame, own, AP, -3, 20, out),
            1 => (0, 0, Finding::Refused),
            2 => (7, 1, Finding::Busy(u32::MAX)),
            3 => (u32::MAX, usize::MAX, Finding::Map(0xFF)),
            _ => (u32::MAX, 0, Finding::Times([u32::MAX; 8])),
        };
        reply_to_measurement_request(frame, own, AP, clock, index, finding, out)
    }

    /// What is returned of a frame with a broken body, or the refusal; by all
    /// reply calls alike.
    fn returned(frame: &[u8]) -> Result<Vec<u8>, u8> {
        let mut answers = Vec::new();
        for way in 0..WAYS {
            let mut out = vec![0xEE; 2400];
            let answer = reply_by(way, frame, OWN, &mut out);
            answers.push(match answer {
                Ok(length) => {
                    // Octets past the reply stay, and one octet less is 13.
                    assert_eq!(length, frame.len());
                    assert!(out[length..].iter().all(|&octet| octet == 0xEE));
                    let mut just = vec![0xEE; length];
                    assert_eq!(reply_by(way, frame, OWN, &mut just), Ok(length));
                    assert_eq!(just, out[..length]);
                    let mut short = vec![0xEE; length - 1];
                    assert_eq!(reply_by(way, frame, OWN, &mut short), Err(13));
                    assert!(short.iter().all(|&octet| octet == 0xEE));
                    assert_eq!(reply_by(way, frame, OWN, &mut []), Err(13));
                    // The header of a reply.
                    assert_eq!(out[..4], [0xD0, 0, 0, 0]);
                    assert_eq!(out[4..10], AP);
                    assert_eq!(out[10..16], OWN);
                    assert_eq!(out[16..22], AP);
                    assert_eq!(out[22..24], [0, 0]);
                    Ok(out[24..length].to_vec())
                }
                Err(refusal) => {
                    assert!(out.iter().all(|&octet| octet == 0xEE));
                    // No other refusal comes before it.
                    assert_eq!(reply_by(way, frame, OWN, &mut []), Err(refusal));
                    Err(refusal)
                }
            });
        }
        assert!(answers.iter().all(|answer| *answer == answers[0]));
        answers[0].clone()
    }

    #[test]
    fn error_returns_of_each_number() {
        for (number, body, expected) in BROKEN {
            let mut frame = action(OWN, body);
            let refused = read_frame(&frame, OWN, AP, 100).map_err(|refusal| refusal.number);
            assert_eq!(refused, Err(number), "{:?}", body);
            assert_eq!(returned(&frame), Ok(expected.to_vec()));
            // Flags, duration and sequence number are not kept.
            frame[1] = 0b1011_1000;
            frame[2] = 0xAA;
            frame[22] = 0xF0;
            frame[23] = 0x12;
            assert_eq!(returned(&frame), Ok(expected.to_vec()));
        }
    }

    #[test]
    fn no_error_return_to_all_ones() {
        for (_, body, _) in BROKEN {
            let frame = action(ALL, body);
            assert_eq!(returned(&frame), Err(18));
            // Also for a caller who gives all ones as its own address.
            for way in 0..WAYS {
                let mut out = [0xEE; 60];
                assert_eq!(reply_by(way, &frame, ALL, &mut out), Err(18));
                assert_eq!(out, [0xEE; 60]);
            }
        }
    }

    #[test]
    fn error_returns_of_each_category() {
        for category in 0..=255u8 {
            // The body of one octet: 1 for category 0, else 5.
            let answer = returned(&action(OWN, &[category]));
            if category < 128 {
                assert_eq!(answer, Ok(vec![category + 128]));
            } else {
                assert_eq!(answer, Err(18));
            }
            let answer = returned(&action(OWN, &[category, 2, 7, 34, 0, 0]));
            if category < 128 {
                assert_eq!(answer, Ok(vec![category + 128, 2, 7, 34, 0, 0]));
            } else {
                assert_eq!(answer, Err(18));
            }
        }
        // No category, no return.
        assert_eq!(returned(&action(OWN, &[])), Err(18));
    }

    #[test]
    fn error_returns_of_the_longest_body() {
        let mut body = vec![0, 2, 7, 34, 0];
        body.resize(2312, 0xA5);
        for (category, expected) in [(0, 0x80), (1, 0x81), (127, 0xFF)] {
            body[0] = category;
            let mut whole = body.clone();
            whole[0] = expected;
            assert_eq!(returned(&action(OWN, &body)), Ok(whole));
        }
        for category in [128, 255] {
            body[0] = category;
            assert_eq!(returned(&action(OWN, &body)), Err(18));
        }
        // One octet more is a frame that is too long.
        body[0] = 0;
        body.push(0xA5);
        assert_eq!(returned(&action(OWN, &body)), Err(2));
    }

    #[test]
    fn the_header_comes_before_an_error_return() {
        for (_, body, _) in BROKEN {
            let frame = action(OWN, body);
            assert_eq!(returned(&frame[..23]), Err(1));
            let mut other = frame.clone();
            other[1] = 0x40;
            assert_eq!(returned(&other), Err(3));
            let mut other = frame.clone();
            other[16] ^= 2;
            assert_eq!(returned(&other), Err(4));
            let mut other = frame;
            other[9] ^= 2;
            assert_eq!(returned(&other), Err(4));
        }
    }

    #[test]
    fn a_broken_notice_is_not_returned() {
        let nine = [40, 6, 1, 0, 1, 0, 0, 0].repeat(9);
        for subtype in [5, 8] {
            for elements in [
                &[32][..],
                &[32, 0],
                &[37, 3, 2, 36, 0],
                &[32, 1, 3, 32, 1, 3],
                &nine,
            ] {
                assert_eq!(returned(&notice(subtype, OWN, 100, elements)), Err(18));
                assert_eq!(returned(&notice(subtype, OWN, 99, elements)), Err(18));
            }
            assert_eq!(returned(&notice(subtype, OWN, 100, &[])[..35]), Err(18));
        }
    }

    #[test]
    fn an_error_return_is_not_returned_again() {
        for (_, body, expected) in BROKEN {
            let frame = action(OWN, body);
            let mut out = vec![0; frame.len()];
            assert_eq!(reply_by(0, &frame, OWN, &mut out), Ok(frame.len()));
            assert_eq!(out[24..], expected[..]);
            // The same from the AP to the station.
            out[4..10].copy_from_slice(&OWN);
            out[10..16].copy_from_slice(&AP);
            assert_eq!(returned(&out), Err(18));
        }
    }

    #[test]
    fn a_whole_body_is_not_returned() {
        // Each stands beside broken bodies: its own reply, 16 or 18.
        let mut out = [0xEE; 60];
        assert_eq!(reply_by(0, &action(OWN, &TPC), OWN, &mut out), Ok(31));
        assert_eq!(out[24..28], [0, 3, 7, 35]);
        for way in 1..WAYS {
            assert_eq!(reply_by(way, &action(OWN, &TPC), OWN, &mut []), Err(16));
        }
        for body in [
            &[0, 3, 0, 35, 2, 0, 0][..],
            &[0, 1, 0, 39, 3, 0, 4, 9],
            &[0, 4, 37, 3, 1, 200, 0],
        ] {
            assert_eq!(returned(&action(OWN, body)), Err(18));
            // Nor with whole vendors' elements after it (02, Four).
            let more = [body, &[221, 0, 221, 1, 7]].concat();
            assert_eq!(returned(&action(OWN, &more)), Err(18));
        }
    }

    #[test]
    fn a_tpc_request_with_vendors_after_it() {
        let mut plain = [0xEE; 33];
        assert_eq!(tpc(&action(OWN, &TPC), &mut plain), Ok(31));
        for vendors in [&[221, 0][..], &[221, 1, 7], &[221, 2, 34, 0, 221, 0]] {
            let frame = action(OWN, &[&TPC, vendors].concat());
            let mut out = [0xEE; 33];
            assert_eq!(tpc(&frame, &mut out), Ok(31));
            assert_eq!(out, plain);
            assert_eq!(reply(&frame, 0, 0, Finding::Refused), Err(16));
            let frame = action(ALL, &[&TPC, vendors].concat());
            assert_eq!(tpc(&frame, &mut out), Err(18));
        }
    }

    #[test]
    fn vendors_do_not_count_among_the_requests() {
        // Type 3 is Incapable, Enable gets none, and the map is of the third.
        let asked = [
            vec![38, 3, 1, 0, 3],
            vec![38, 3, 2, 2, 0],
            measure(3, 0, 36, 0, 2),
        ];
        let plain = requests(&asked);
        for vendors in [vendor(&[]), vendor(&measure(4, 0, 36, 0, 2)).repeat(2)] {
            let mixed = requests(&[
                asked[0].clone(),
                vendors.clone(),
                asked[1].clone(),
                vendors.clone(),
                asked[2].clone(),
                vendors,
            ]);
            for index in [0, 1, 2, 3, 4, 5, usize::MAX] {
                for finding in [Finding::Refused, Finding::Map(1), Finding::Busy(0)] {
                    let answer = reply(&mixed, 7, index, finding);
                    assert_eq!(answer, reply(&plain, 7, index, finding));
                }
            }
        }
        // The second of two, with a vendor's element between.
        let two = requests(&[
            measure(1, 1, 36, 0, 2),
            vendor(&[7]),
            measure(2, 0, 40, 0, 2),
        ]);
        assert_eq!(
            reply(&two, 0, 1, Finding::Map(8)),
            Ok(vec![
                0, 1, 9, 39, 15, 2, 0, 0, 40, 0, 0, 0, 0, 0, 0, 0, 0, 2, 0, 8
            ])
        );
        assert_eq!(reply(&two, 0, 2, Finding::Map(8)), Err(16));
    }

    #[test]
    fn error_returns_with_the_most_vendors() {
        // 3 + 5 + 1,152 * 2 = 2,312 octets are the longest body.
        let mut body = vec![0, 0, 9, 38, 3, 1, 2, 0];
        body.append(&mut vendor(&[]).repeat(1152));
        assert_eq!(body.len(), 2312);
        let whole = action(OWN, &body);
        assert_eq!(reply(&whole, 0, 0, Finding::Refused), Err(18));
        assert_eq!(reply(&whole, 0, 1, Finding::Refused), Err(16));
        // The last one is cut, in its contents or its header.
        body[2311] = 1;
        let mut expected = body.clone();
        expected[0] = 0x80;
        assert_eq!(returned(&action(OWN, &body)), Ok(expected.clone()));
        body.pop();
        expected.pop();
        assert_eq!(returned(&action(OWN, &body)), Ok(expected));
    }

    #[test]
    fn the_wrong_reply_is_16() {
        let frame = requests(&[vec![38, 3, 1, 2, 0]]);
        assert_eq!(tpc(&frame, &mut []), Err(16));
        assert_eq!(reply(&action(OWN, &TPC), 0, 0, Finding::Refused), Err(16));
    }

    #[test]
    fn enable_elements_get_none() {
        let frame = requests(&[
            vec![38, 3, 1, 2, 0],
            vec![38, 3, 2, 2, 9],
            measure(3, 0, 36, 0, 1),
        ]);
        assert_eq!(reply(&frame, 0, 0, Finding::Refused), Err(18));
        assert_eq!(reply(&frame, 0, 1, Finding::Refused), Err(18));
        assert_eq!(
            reply(&frame, 0, 2, Finding::Refused),
            Ok(vec![0, 1, 9, 39, 3, 3, 4, 0])
        );
        assert_eq!(reply(&frame, 0, 3, Finding::Refused), Err(16));
        assert_eq!(reply(&frame, 0, usize::MAX, Finding::Refused), Err(16));
    }

    #[test]
    fn incapable_before_anything_else() {
        let frame = requests(&[vec![38, 3, 1, 0, 3], vec![38, 5, 2, 0, 255, 1, 1]]);
        let junk = Finding::Times([u32::MAX; 8]);
        assert_eq!(
            reply(&frame, u32::MAX, 0, junk),
            Ok(vec![0, 1, 9, 39, 3, 1, 2, 3])
        );
        assert_eq!(
            reply(&frame, 0, 1, Finding::Refused),
            Ok(vec![0, 1, 9, 39, 3, 2, 2, 255])
        );
    }

    #[test]
    fn late_on_both_sides() {
        let now = 1024 * 500;
        let junk = Finding::Times([u32::MAX; 8]);
        let frame = requests(&[
            measure(1, 0, 36, now - 1, 1),
            measure(2, 0, 36, now, 1),
            measure(3, 0, 36, 1, 1),
            measure(4, 0, 36, 0, 1),
        ]);
        assert_eq!(
            reply(&frame, 500, 0, junk),
            Ok(vec![0, 1, 9, 39, 3, 1, 1, 0])
        );
        assert_eq!(
            reply(&frame, 500, 2, Finding::Refused),
            Ok(vec![0, 1, 9, 39, 3, 3, 1, 0])
        );
        assert_eq!(reply(&frame, 500, 1, junk), Err(16));
        assert_eq!(
            reply(&frame, 500, 1, Finding::Refused),
            Ok(vec![0, 1, 9, 39, 3, 2, 4, 0])
        );
        assert_eq!(
            reply(&frame, 500, 3, Finding::Refused),
            Ok(vec![0, 1, 9, 39, 3, 4, 4, 0])
        );
        // At the clock's limit the moment needs 64 bits.
        let limit = 1024 * u64::from(u32::MAX);
        let frame = requests(&[measure(1, 1, 0, limit - 1, 1), measure(2, 1, 0, limit, 1)]);
        assert_eq!(
            reply(&frame, u32::MAX, 0, Finding::Busy(0)).map(|body| body.len()),
            Ok(8)
        );
        assert_eq!(
            reply(&frame, u32::MAX, 1, Finding::Busy(0)).map(|body| body.len()),
            Ok(20)
        );
    }

    /// A report body: token 9, element with `start` and duration 2, and `last`.
    fn report(kind: u8, start: u64, last: &[u8]) -> Vec<u8> {
        let mut body = vec![0, 1, 9, 39, 14 + last.len() as u8, 1, 0, kind, 36];
        body.extend_from_slice(&start.to_le_bytes());
        body.extend_from_slice(&[2, 0]);
        body.extend_from_slice(last);
        body
    }

    #[test]
    fn readings() {
        let times = [129, 129, 129, 129, 129, 129, 125, 125];
        let doubled = times.map(|time| time * 2);
        // A start of 0 is reported as the clock, one ahead as it is.
        for (asked, told) in [(0, 1024 * 7), (1024 * 7, 1024 * 7), (u64::MAX, u64::MAX)] {
            let of = |kind| requests(&[measure(1, kind, 36, asked, 2)]);
            assert_eq!(
                reply(&of(0), 7, 0, Finding::Map(0x0F)),
                Ok(report(0, told, &[0x0F]))
            );
            assert_eq!(
                reply(&of(0), 7, 0, Finding::Map(0x10)),
                Ok(report(0, told, &[0x10]))
            );
            assert_eq!(
                reply(&of(1), 7, 0, Finding::Busy(2048)),
                Ok(report(1, told, &[255]))
            );
            assert_eq!(
                reply(&of(2), 7, 0, Finding::Times(doubled)),
                Ok(report(2, told, &[33, 33, 33, 33, 33, 33, 32, 32]))
            );
        }
    }

    #[test]
    fn readings_that_are_impossible() {
        let of = |kind, duration| requests(&[measure(1, kind, 36, 0, duration)]);
        for map in 0..=255u8 {
            let right = map <= 0x10;
            assert_eq!(reply(&of(0, 1), 0, 0, Finding::Map(map)).is_ok(), right);
        }
        assert_eq!(reply(&of(0, 1), 0, 0, Finding::Map(0x11)), Err(16));
        assert_eq!(reply(&of(0, 1), 0, 0, Finding::Map(0x20)), Err(16));
        // A map needs no duration, the other readings do.
        assert!(reply(&of(0, 0), 0, 0, Finding::Map(0)).is_ok());
        assert_eq!(reply(&of(1, 0), 0, 0, Finding::Busy(0)), Err(16));
        assert_eq!(reply(&of(2, 0), 0, 0, Finding::Times([0; 8])), Err(16));
        assert!(reply(&of(1, 0), 0, 0, Finding::Refused).is_ok());
        assert_eq!(reply(&of(1, 1), 0, 0, Finding::Busy(1025)), Err(16));
        assert_eq!(reply(&of(2, 1), 0, 0, Finding::Times([129; 8])), Err(16));
        for kind in 0..=2u8 {
            let findings = [Finding::Map(0), Finding::Busy(0), Finding::Times([0; 8])];
            for (other, &finding) in findings.iter().enumerate() {
                let fits = other == usize::from(kind);
                assert_eq!(reply(&of(kind, 1), 0, 0, finding).is_ok(), fits);
            }
        }
        // 16 before 13.
        let refused =
            reply_to_measurement_request(&of(0, 1), OWN, AP, 0, 0, Finding::Busy(0), &mut []);
        assert_eq!(refused, Err(16));
    }

    /// The reply of a station of an IBSS to a TPC Request.
    fn ibss_tpc(frame: &[u8], out: &mut [u8]) -> Result<usize, u8> {
        reply_to_tpc_request_in_ibss(frame, OWN, CELL, -3, 20, out)
    }

    /// The reply of a station of an IBSS to element `index` at `clock`.
    fn ibss_measured(
        frame: &[u8],
        clock: u32,
        index: usize,
        finding: Finding,
        out: &mut [u8],
    ) -> Result<usize, u8> {
        reply_to_measurement_request_in_ibss(frame, OWN, CELL, clock, index, finding, out)
    }

    /// The header of a reply in an IBSS: DA is the old SA, the BSSID is kept.
    fn ibss_header(sender: Address) -> Vec<u8> {
        [&[0xD0, 0, 0, 0][..], &sender, &OWN, &CELL, &[0, 0]].concat()
    }

    #[test]
    fn replies_in_an_ibss_go_to_the_sender() {
        // Whoever it is, the station itself and no known owner among them.
        for sender in [PEER, OTHER, OWN, CELL, [0; 6]] {
            let mut frame = sent_by(sender, &action(OWN, &TPC));
            frame[1] = 0b1011_1000;
            let mut out = [0xEE; 33];
            assert_eq!(ibss_tpc(&frame, &mut out), Ok(31));
            let expected = [&ibss_header(sender)[..], &[0, 3, 7, 35, 2, 0xFD, 20]].concat();
            assert_eq!(out[..31], expected[..]);
            assert_eq!(out[31..], [0xEE; 2]);
            let mut short = [0xEE; 30];
            assert_eq!(ibss_tpc(&frame, &mut short), Err(13));
            assert_eq!(short, [0xEE; 30]);
            // An error return goes there too, by either call.
            let broken = sent_by(sender, &action(OWN, &[0, 2, 7, 34, 0, 9]));
            let returned = [&ibss_header(sender)[..], &[128, 2, 7, 34, 0, 9]].concat();
            let mut out = [0xEE; 30];
            assert_eq!(ibss_tpc(&broken, &mut out), Ok(30));
            assert_eq!(out[..], returned[..]);
            let mut out = [0xEE; 30];
            let done = ibss_measured(&broken, 0, usize::MAX, Finding::Map(0xFF), &mut out);
            assert_eq!(done, Ok(30));
            assert_eq!(out[..], returned[..]);
        }
    }

    #[test]
    fn replies_in_an_ibss_are_those_of_document_01() {
        let elements = [
            measure(1, 0, 36, 0, 5),
            measure(2, 1, 36, 1, 5),
            measure(3, 2, 36, u64::MAX, 1),
            vec![38, 3, 4, 2, 0],
            vec![38, 3, 5, 0, 3],
        ];
        let times = [129, 129, 129, 129, 129, 129, 125, 125];
        let findings = [
            Finding::Refused,
            Finding::Map(1),
            Finding::Map(0xFF),
            Finding::Busy(77),
            Finding::Times(times),
        ];
        let measured = requests(&elements);
        for frame in [measured, action(OWN, &TPC), action(ALL, &TPC)] {
            let in_ibss = sent_by(PEER, &frame);
            for clock in [0, 1, u32::MAX] {
                for index in 0..7 {
                    for finding in findings {
                        let mut out = [0xEE; 60];
                        let mut beside = [0xEE; 60];
                        let done = ibss_measured(&in_ibss, clock, index, finding, &mut out);
                        let expected = reply_to_measurement_request(
                            &frame,
                            OWN,
                            AP,
                            clock,
                            index,
                            finding,
                            &mut beside,
                        );
                        assert_eq!(done, expected);
                        assert_eq!(out[24..], beside[24..]);
                        let header = if done.is_ok() {
                            ibss_header(PEER)
                        } else {
                            vec![0xEE; 24]
                        };
                        assert_eq!(out[..24], header[..]);
                    }
                }
            }
            assert_eq!(ibss_tpc(&in_ibss, &mut [0; 60]), tpc(&frame, &mut [0; 60]));
        }
    }

    #[test]
    fn refused_replies_in_an_ibss() {
        let good = sent_by(PEER, &action(OWN, &TPC));
        let mut long = good.clone();
        long.resize(2337, 0);
        let changed = |at: usize, octet: u8| {
            let mut frame = good.clone();
            frame[at] = octet;
            frame
        };
        for (frame, number) in [
            (good[..23].to_vec(), 1),
            (long, 2),
            (changed(0, 0xC0), 3),
            (changed(1, 1), 3),
            // A group SA, another BSSID, another DA; the AP's own BSS.
            (changed(10, 5), 4),
            (sent_by(ALL, &good), 4),
            (changed(16, 0), 4),
            (changed(4, 0), 4),
            (action(OWN, &TPC), 4),
            // To all ones; beacons and probe responses, broken ones too.
            (sent_by(PEER, &action(ALL, &TPC)), 18),
            (sent_by(PEER, &notice(8, OWN, 100, &dfs(PEER, 3, &[]))), 18),
            (sent_by(PEER, &notice(8, OWN, 100, &[41, 0])), 18),
            (sent_by(PEER, &notice(5, OWN, 100, &[])), 18),
            // An announcement, whoever is the owner, and a category over 127.
            (sent_by(PEER, &action(OWN, &[0, 4, 37, 3, 0, 44, 1])), 18),
            (sent_by(PEER, &action(OWN, &[128, 2, 7, 34, 0])), 18),
            (sent_by(PEER, &action(OWN, &[])), 18),
        ] {
            assert_eq!(ibss_tpc(&frame, &mut []), Err(number));
            let done = ibss_measured(&frame, 0, 0, Finding::Refused, &mut []);
            assert_eq!(done, Err(number));
        }
        let to_all = sent_by(PEER, &action(ALL, &TPC));
        let done = reply_to_tpc_request_in_ibss(&to_all, ALL, CELL, 0, 0, &mut []);
        assert_eq!(done, Err(18));
        // A reply is due, but not this one: 16, before 13.
        assert_eq!(
            ibss_measured(&good, 0, 0, Finding::Refused, &mut []),
            Err(16)
        );
    }
}
