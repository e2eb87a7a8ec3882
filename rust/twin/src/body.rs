//! Frame bodies: beacon and probe response are read, the five action bodies
//! are read and written (802.11h 7.4.1; sections "Answer numbers" and
//! "Octets").
//!
//! The readers here take the whole frame and say of everything where it
//! stands in it, as how many octets are before it: that is the place of a
//! fault (02, One).

use crate::answer::{
    Refusal, ACTION, BUFFER_SHORT, FRAME_SHORT, IMPOSSIBLE, INTERVAL, LEFT_OVER, NINTH_QUIET,
    REPEATED, VALUE,
};
use crate::dfs::{read_ibss_dfs, IbssDfs};
use crate::element::{
    channel_switch_octets, cut_any, cut_required, read_channel_switch, read_power_constraint,
    read_quiet, read_tpc_report, read_tpc_request, skip_vendors, tpc_report_octets,
    tpc_request_octets, Cut, Switch, CHANNEL_SWITCH, IBSS_DFS, MEASUREMENT_REPORT,
    MEASUREMENT_REQUEST, POWER_CONSTRAINT, QUIET, TPC_REPORT, TPC_REQUEST,
};
use crate::frame::{Frame, Notice};
use crate::header::{FRAME_LIMIT, HEADER};
use crate::measurement::{
    read_measurement_report, read_measurement_request, report_octets, request_octets, Report,
    Request,
};
use crate::octets::{lay, u16_at, u64_at};
use crate::station::Station;

/// The category of spectrum management (802.11h 7.3.1.11).
const SPECTRUM_MANAGEMENT: u8 = 0;

// The actions of 802.11h 7.4.1, Table 20e.
const ACTION_MEASUREMENT_REQUEST: u8 = 0;
const ACTION_MEASUREMENT_REPORT: u8 = 1;
const ACTION_TPC_REQUEST: u8 = 2;
const ACTION_TPC_REPORT: u8 = 3;
const ACTION_CHANNEL_SWITCH: u8 = 4;

// Timestamp (8), interval (2) and capability (2) of a beacon, then elements.
const TIMESTAMP_AT: usize = HEADER;
const INTERVAL_AT: usize = TIMESTAMP_AT + 8;
const CAPABILITY_AT: usize = INTERVAL_AT + 2;
const ELEMENTS_AT: usize = CAPABILITY_AT + 2;

/// The longest body that a frame which is read can have.
const BODY_LIMIT: usize = FRAME_LIMIT - HEADER;

/// Reads the body of a beacon or probe response under beacon interval B.
pub(crate) fn read_notice(frame: &[u8], interval: u16) -> Result<Notice, Refusal> {
    read_elements(frame, interval, |_| Ok(()))
}

/// Reads the body of a beacon as a station of an IBSS does: with its element
/// 41, if there is one (02, Five).
pub(crate) fn read_ibss_beacon(
    frame: &[u8],
    interval: u16,
) -> Result<(Notice, Option<IbssDfs>), Refusal> {
    let mut dfs = None;
    let notice = read_elements(frame, interval, |cut| match cut.id {
        IBSS_DFS => set_once(&mut dfs, read_ibss_dfs(cut.contents)?),
        _ => Ok(()),
    })?;
    Ok((notice, dfs))
}

/// Reads the body of a beacon or probe response, and has `note_more` look at
/// each element too, for those that no notice has a place for.
fn read_elements(
    frame: &[u8],
    interval: u16,
    mut note_more: impl FnMut(&Cut<'_>) -> Result<(), u8>,
) -> Result<Notice, Refusal> {
    if frame.len() < ELEMENTS_AT {
        return Err(Refusal::nowhere(FRAME_SHORT));
    }
    if u16_at(frame, INTERVAL_AT) != interval {
        return Err(Refusal::at(INTERVAL, INTERVAL_AT));
    }
    let mut notice = Notice {
        timestamp: u64_at(frame, TIMESTAMP_AT),
        capability: u16_at(frame, CAPABILITY_AT),
        constraint: None,
        tpc_report: None,
        switch: None,
        quiets: Vec::new(),
    };
    let mut at = ELEMENTS_AT;
    while at < frame.len() {
        let cut = cut_any(frame, at)?;
        note(&mut notice, &cut, interval)
            .and_then(|()| note_more(&cut))
            .map_err(|number| cut.refused(number))?;
        at = cut.end;
    }
    Ok(notice)
}

/// Takes one element of a beacon or probe response into the notice: "length
/// (8), value (9), repeat (10 or 11)". Elements of other IDs are skipped.
fn note(notice: &mut Notice, cut: &Cut<'_>, interval: u16) -> Result<(), u8> {
    match cut.id {
        POWER_CONSTRAINT => set_once(&mut notice.constraint, read_power_constraint(cut.contents)?),
        TPC_REPORT => set_once(&mut notice.tpc_report, read_unasked(cut.contents)?),
        CHANNEL_SWITCH => set_once(&mut notice.switch, read_channel_switch(cut.contents)?),
        QUIET => {
            let quiet = read_quiet(cut.contents, interval)?;
            if notice.quiets.len() == Station::SCHEDULE_LIMIT {
                return Err(NINTH_QUIET);
            }
            notice.quiets.push(quiet);
            Ok(())
        }
        _ => Ok(()),
    }
}

/// Reads a TPC Report that no request asked for: its margin "shall be set to 0
/// and shall be ignored", so it is read as 0 (802.11h 7.3.2.18).
fn read_unasked(contents: &[u8]) -> Result<(i8, i8), u8> {
    let (power, _) = read_tpc_report(contents)?;
    Ok((power, 0))
}

/// Fills an empty place; a second element of its kind is 10.
fn set_once<T>(place: &mut Option<T>, value: T) -> Result<(), u8> {
    if place.is_some() {
        return Err(REPEATED);
    }
    *place = Some(value);
    Ok(())
}

/// Reads the body of an Action frame, which begins at `body`: at `HEADER` in
/// a frame, at 0 where the octets are a body alone. `body` is not past the end
/// of the octets.
pub(crate) fn read_action_body(octets: &[u8], body: usize) -> Result<Frame, Refusal> {
    // Category, action, token, elements; action 4 has no token.
    let category_at = body;
    let action_at = category_at + 1;
    let token_at = action_at + 1;
    let elements_at = token_at + 1;
    let category = fixed_octet(octets, category_at)?;
    if category != SPECTRUM_MANAGEMENT {
        return Err(Refusal::at(ACTION, category_at));
    }
    let action = fixed_octet(octets, action_at)?;
    match action {
        ACTION_MEASUREMENT_REQUEST => {
            let token = token_not_0(octets, token_at)?;
            let requests = read_requests(octets, elements_at)?;
            Ok(Frame::MeasurementRequest { token, requests })
        }
        ACTION_MEASUREMENT_REPORT => {
            let token = fixed_octet(octets, token_at)?;
            let reports = read_reports(octets, elements_at)?;
            Ok(Frame::MeasurementReport { token, reports })
        }
        ACTION_TPC_REQUEST => {
            let token = token_not_0(octets, token_at)?;
            read_single(octets, elements_at, TPC_REQUEST, read_tpc_request)?;
            Ok(Frame::TpcRequest { token })
        }
        ACTION_TPC_REPORT => {
            let token = fixed_octet(octets, token_at)?;
            let (power, margin) = read_single(octets, elements_at, TPC_REPORT, read_tpc_report)?;
            Ok(Frame::TpcReport {
                token,
                power,
                margin,
            })
        }
        ACTION_CHANNEL_SWITCH => {
            let element_at = action_at + 1;
            let switch = read_single(octets, element_at, CHANNEL_SWITCH, read_channel_switch)?;
            Ok(Frame::ChannelSwitch(switch))
        }
        _ => Err(Refusal::at(ACTION, action_at)),
    }
}

/// The fixed field of one octet at `at`. Where it is missing there is no octet
/// at fault.
fn fixed_octet(octets: &[u8], at: usize) -> Result<u8, Refusal> {
    match octets.get(at) {
        None => Err(Refusal::nowhere(FRAME_SHORT)),
        Some(&octet) => Ok(octet),
    }
}

/// The dialog token of a request, which is not 0 (802.11h 7.4.1.1, 7.4.1.3).
fn token_not_0(octets: &[u8], at: usize) -> Result<u8, Refusal> {
    let token = fixed_octet(octets, at)?;
    if token == 0 {
        return Err(Refusal::at(VALUE, at));
    }
    Ok(token)
}

/// Reads exactly one element, at `at`, and skips the vendors' elements after
/// it (02, Four); left-over octets come last (22), told at the first of them.
fn read_single<T>(
    octets: &[u8],
    at: usize,
    id: u8,
    read: fn(&[u8]) -> Result<T, u8>,
) -> Result<T, Refusal> {
    let cut = cut_required(octets, at, id)?;
    let record = read(cut.contents).map_err(|number| cut.refused(number))?;
    let end = skip_vendors(octets, cut.end)?;
    if end < octets.len() {
        return Err(Refusal::at(LEFT_OVER, end));
    }
    Ok(record)
}

/// Reads one or more Measurement Requests, from `first` on, with tokens that
/// all differ. What follows an element, and the vendors' elements skipped
/// after it (02, Four), is a further one.
fn read_requests(octets: &[u8], first: usize) -> Result<Vec<Request>, Refusal> {
    let mut requests = Vec::new();
    let mut used = [false; 256];
    let mut at = first;
    // The first is required, so an empty place is judged too (7).
    while requests.is_empty() || at < octets.len() {
        let cut = cut_required(octets, at, MEASUREMENT_REQUEST)?;
        let request =
            read_measurement_request(cut.contents).map_err(|number| cut.refused(number))?;
        if !first_use(&mut used, request.token) {
            return Err(cut.refused(REPEATED));
        }
        requests.push(request);
        at = skip_vendors(octets, cut.end)?;
    }
    Ok(requests)
}

/// Reads one or more Measurement Reports, from `first` on. What follows an
/// element, and the vendors' elements skipped after it (02, Four), is a
/// further one.
fn read_reports(octets: &[u8], first: usize) -> Result<Vec<Report>, Refusal> {
    let mut reports = Vec::new();
    let mut at = first;
    while reports.is_empty() || at < octets.len() {
        let cut = cut_required(octets, at, MEASUREMENT_REPORT)?;
        let report = read_measurement_report(cut.contents).map_err(|number| cut.refused(number))?;
        reports.push(report);
        at = skip_vendors(octets, cut.end)?;
    }
    Ok(reports)
}

/// Notes that a token is used; false if it already was.
fn first_use(used: &mut [bool; 256], token: u8) -> bool {
    let place = &mut used[usize::from(token)];
    let first = !*place;
    *place = true;
    first
}

/// Writes a Measurement Request body to the front of `out`. Dialog token 0,
/// no request, a measurement token used twice, a request that cannot be
/// written, or a body too long for any frame: 16.
pub fn write_measurement_request_body(
    token: u8,
    requests: &[Request],
    out: &mut [u8],
) -> Result<usize, u8> {
    lay(&measurement_request_body_octets(token, requests)?, out)
}

/// Writes a Measurement Report body to the front of `out`. No report, a
/// report that cannot be written, or a body too long for any frame: 16.
pub fn write_measurement_report_body(
    token: u8,
    reports: &[Report],
    out: &mut [u8],
) -> Result<usize, u8> {
    lay(&measurement_report_body_octets(token, reports)?, out)
}

/// Writes one more Measurement Request after the `used` octets of a body in
/// `out`, and answers how many octets were put; with nothing there, the body's
/// first three octets are put before it.
///
/// What `out` has of the `used` octets is judged first: it must be a request
/// body of this dialog token with nothing uninterpreted, no reserved bit set
/// and no vendor's element, and with `request` a body that can be written,
/// else 16. Fewer octets than `used`, or too few after them: 13.
pub fn append_measurement_request(
    token: u8,
    request: Request,
    used: usize,
    out: &mut [u8],
) -> Result<usize, u8> {
    let mut requests = held_requests(held(out, used), token)?;
    requests.push(request);
    let body = measurement_request_body_octets(token, &requests)?;
    lay_rest(&body, used, out)
}

/// Writes one more Measurement Report, by the rules of
/// `append_measurement_request`; but a measurement token may be used again.
pub fn append_measurement_report(
    token: u8,
    report: Report,
    used: usize,
    out: &mut [u8],
) -> Result<usize, u8> {
    let mut reports = held_reports(held(out, used), token)?;
    reports.push(report);
    let body = measurement_report_body_octets(token, &reports)?;
    lay_rest(&body, used, out)
}

/// What the buffer has of the octets that are said to be in use.
fn held(out: &[u8], used: usize) -> &[u8] {
    &out[..used.min(out.len())]
}

/// The requests of a body that is appended to, none with nothing there. What
/// is no request body of this dialog token is 16.
fn held_requests(body: &[u8], token: u8) -> Result<Vec<Request>, u8> {
    if body.is_empty() {
        return Ok(Vec::new());
    }
    match read_action_body(body, 0) {
        Ok(Frame::MeasurementRequest {
            token: held,
            requests,
        }) if held == token => Ok(requests),
        _ => Err(IMPOSSIBLE),
    }
}

/// The reports of a body that is appended to, none with nothing there. What
/// is no report body of this dialog token is 16.
fn held_reports(body: &[u8], token: u8) -> Result<Vec<Report>, u8> {
    if body.is_empty() {
        return Ok(Vec::new());
    }
    match read_action_body(body, 0) {
        Ok(Frame::MeasurementReport {
            token: held,
            reports,
        }) if held == token => Ok(reports),
        _ => Err(IMPOSSIBLE),
    }
}

/// Puts what `body` has more than `out` holds after the `used` octets.
///
/// `body` is what `out` holds, read and written again, and one element more.
/// Reserved bits are written as 0 and vendors' elements not at all (02, Four),
/// so where `out` has one the two differ: 16. "A buffer that has fewer octets
/// than are said to be in use is too short", and that comes after every 16.
fn lay_rest(body: &[u8], used: usize, out: &mut [u8]) -> Result<usize, u8> {
    let rest = body.strip_prefix(held(out, used)).ok_or(IMPOSSIBLE)?;
    let free = out.get_mut(used..).ok_or(BUFFER_SHORT)?;
    lay(rest, free)
}

/// Writes a TPC Request body to the front of `out`: 5 octets. Token 0: 16.
pub fn write_tpc_request_body(token: u8, out: &mut [u8]) -> Result<usize, u8> {
    if token == 0 {
        return Err(IMPOSSIBLE);
    }
    let mut body = vec![SPECTRUM_MANAGEMENT, ACTION_TPC_REQUEST, token];
    body.append(&mut tpc_request_octets());
    lay(&body, out)
}

/// Writes a TPC Report body to the front of `out`: 7 octets.
pub fn write_tpc_report_body(
    token: u8,
    power: i8,
    margin: i8,
    out: &mut [u8],
) -> Result<usize, u8> {
    lay(&tpc_report_body_octets(token, power, margin), out)
}

/// Writes a Channel Switch Announcement body to the front of `out`: 7 octets.
pub fn write_channel_switch_body(switch: Switch, out: &mut [u8]) -> Result<usize, u8> {
    let mut body = vec![SPECTRUM_MANAGEMENT, ACTION_CHANNEL_SWITCH];
    body.append(&mut channel_switch_octets(switch)?);
    lay(&body, out)
}

/// A Measurement Request body in octets, or 16.
fn measurement_request_body_octets(token: u8, requests: &[Request]) -> Result<Vec<u8>, u8> {
    if token == 0 {
        return Err(IMPOSSIBLE);
    }
    let mut used = [false; 256];
    for request in requests {
        if !first_use(&mut used, request.token) {
            return Err(IMPOSSIBLE);
        }
    }
    let head = [SPECTRUM_MANAGEMENT, ACTION_MEASUREMENT_REQUEST, token];
    list_octets(head, requests, request_octets)
}

/// A Measurement Report body in octets, or 16.
pub(crate) fn measurement_report_body_octets(token: u8, reports: &[Report]) -> Result<Vec<u8>, u8> {
    let head = [SPECTRUM_MANAGEMENT, ACTION_MEASUREMENT_REPORT, token];
    list_octets(head, reports, report_octets)
}

/// A TPC Report body in octets.
pub(crate) fn tpc_report_body_octets(token: u8, power: i8, margin: i8) -> Vec<u8> {
    let mut body = vec![SPECTRUM_MANAGEMENT, ACTION_TPC_REPORT, token];
    body.append(&mut tpc_report_octets(power, margin));
    body
}

/// A measurement body in octets: its head, then one or more elements.
///
/// A body over 2,312 octets makes a frame over 2,336, which the reader
/// refuses, so the writer refuses it as well ("refuses with 16 what the
/// reader would refuse"; 802.11h 7.4.1.1 names the same limit).
fn list_octets<T: Copy>(
    head: [u8; 3],
    records: &[T],
    octets_of: fn(T) -> Result<Vec<u8>, u8>,
) -> Result<Vec<u8>, u8> {
    if records.is_empty() {
        return Err(IMPOSSIBLE);
    }
    let mut body = head.to_vec();
    for &record in records {
        body.append(&mut octets_of(record)?);
        if body.len() > BODY_LIMIT {
            return Err(IMPOSSIBLE);
        }
    }
    Ok(body)
}

#[cfg(test)]
mod tests {
    use super::*;
    use crate::element::element_octets;
    use crate::measurement::{Asks, Says};
    use crate::read_frame;
    use crate::sample::{action, vendor, Dice, AP, OWN};

    /// Reads back what a writer put into the front of `out`.
    fn back(out: &[u8]) -> Frame {
        read_frame(&action(OWN, out), OWN, AP, 100).unwrap().frame
    }

    fn measure(token: u8) -> Request {
        Request {
            token,
            kind: 2,
            asks: Asks::Measure {
                channel: 200,
                start: u64::MAX,
                duration: 65_535,
            },
        }
    }

    fn enable(token: u8) -> Request {
        Request {
            token,
            kind: 1,
            asks: Asks::Enable {
                request: false,
                report: true,
            },
        }
    }

    #[test]
    fn measurement_request_body() {
        let requests = [measure(1), enable(255)];
        let mut out = [0xEE; 25];
        assert_eq!(
            write_measurement_request_body(9, &requests, &mut out),
            Ok(24)
        );
        assert_eq!(out[..6], [0, 0, 9, 38, 14, 1]);
        assert_eq!(out[19..], [38, 3, 255, 2 | 8, 1, 0xEE]);
        assert_eq!(
            back(&out[..24]),
            Frame::MeasurementRequest {
                token: 9,
                requests: requests.to_vec()
            }
        );
        let mut short = [0xEE; 23];
        assert_eq!(
            write_measurement_request_body(9, &requests, &mut short),
            Err(13)
        );
        assert_eq!(short, [0xEE; 23]);
        let uninterpreted = Request {
            token: 4,
            kind: 3,
            asks: Asks::Uninterpreted,
        };
        let reserved = Request {
            kind: 3,
            ..enable(4)
        };
        for (token, requests) in [
            (0, vec![measure(1)]),
            (9, vec![]),
            (9, vec![measure(1), enable(1)]),
            (9, vec![measure(0)]),
            (9, vec![measure(1), uninterpreted]),
            (9, vec![measure(1), reserved]),
        ] {
            let mut out = [0xEE; 60];
            assert_eq!(
                write_measurement_request_body(token, &requests, &mut out),
                Err(16)
            );
            assert_eq!(out, [0xEE; 60]);
            assert_eq!(
                write_measurement_request_body(token, &requests, &mut []),
                Err(16)
            );
        }
    }

    #[test]
    fn measurement_report_body() {
        let reports = [
            Report {
                token: 0,
                kind: 9,
                says: Says::Incapable,
            },
            Report {
                token: 0,
                kind: 1,
                says: Says::Cca {
                    channel: 0,
                    start: 1,
                    duration: 2,
                    busy: 3,
                },
            },
        ];
        let mut out = [0xEE; 26];
        assert_eq!(write_measurement_report_body(0, &reports, &mut out), Ok(25));
        assert_eq!(out[..13], [0, 1, 0, 39, 3, 0, 2, 9, 39, 15, 0, 0, 1]);
        assert_eq!(out[25], 0xEE);
        assert_eq!(
            back(&out[..25]),
            Frame::MeasurementReport {
                token: 0,
                reports: reports.to_vec()
            }
        );
        assert_eq!(
            write_measurement_report_body(0, &reports, &mut [0; 24]),
            Err(13)
        );
        assert_eq!(write_measurement_report_body(0, &[], &mut out), Err(16));
        let wrong = Report {
            token: 0,
            kind: 3,
            says: Says::Uninterpreted,
        };
        assert_eq!(
            write_measurement_report_body(0, &[reports[0], wrong], &mut []),
            Err(16)
        );
    }

    #[test]
    fn tpc_bodies() {
        let mut out = [0xEE; 6];
        assert_eq!(write_tpc_request_body(1, &mut out), Ok(5));
        assert_eq!(out, [0, 2, 1, 34, 0, 0xEE]);
        assert_eq!(back(&out[..5]), Frame::TpcRequest { token: 1 });
        assert_eq!(write_tpc_request_body(1, &mut [0; 4]), Err(13));
        assert_eq!(write_tpc_request_body(0, &mut out), Err(16));
        assert_eq!(write_tpc_request_body(0, &mut []), Err(16));
        let mut out = [0xEE; 8];
        assert_eq!(write_tpc_report_body(0, -128, 127, &mut out), Ok(7));
        assert_eq!(out, [0, 3, 0, 35, 2, 0x80, 0x7F, 0xEE]);
        assert_eq!(
            back(&out[..7]),
            Frame::TpcReport {
                token: 0,
                power: -128,
                margin: 127
            }
        );
        assert_eq!(write_tpc_report_body(0, 0, 0, &mut [0; 6]), Err(13));
    }

    #[test]
    fn channel_switch_body() {
        let switch = Switch {
            mode: 1,
            channel: 44,
            count: 2,
        };
        let mut out = [0xEE; 8];
        assert_eq!(write_channel_switch_body(switch, &mut out), Ok(7));
        // The body of the document's example.
        assert_eq!(out, [0x00, 0x04, 0x25, 0x03, 0x01, 0x2C, 0x02, 0xEE]);
        assert_eq!(back(&out[..7]), Frame::ChannelSwitch(switch));
        assert_eq!(write_channel_switch_body(switch, &mut [0; 6]), Err(13));
        let wrong = Switch {
            channel: 201,
            ..switch
        };
        assert_eq!(write_channel_switch_body(wrong, &mut []), Err(16));
    }

    #[test]
    fn a_body_too_long_for_a_frame() {
        // 3 + 461 * 5 = 2,308 octets fit, one more element does not.
        let report = Report {
            token: 1,
            kind: 0,
            says: Says::Late,
        };
        let mut out = [0; 5000];
        let written = write_measurement_report_body(1, &[report; 461], &mut out);
        assert_eq!(written, Ok(2308));
        assert!(
            matches!(back(&out[..2308]), Frame::MeasurementReport { reports, .. } if reports.len() == 461)
        );
        assert_eq!(
            write_measurement_report_body(1, &[report; 462], &mut out),
            Err(16)
        );
        // 3 + 144 * 16 + 5 = 2,312 octets are the most.
        let mut requests: Vec<Request> = (1..=144).map(measure).collect();
        requests.push(enable(145));
        assert_eq!(
            write_measurement_request_body(1, &requests, &mut out),
            Ok(2312)
        );
        assert!(matches!(
            back(&out[..2312]),
            Frame::MeasurementRequest { .. }
        ));
        requests[144] = measure(145);
        assert_eq!(
            write_measurement_request_body(1, &requests, &mut out),
            Err(16)
        );
    }

    fn late(token: u8) -> Report {
        Report {
            token,
            kind: 0,
            says: Says::Late,
        }
    }

    /// Appends `enable(200)` for dialog token 9 to these octets. A refusal
    /// leaves the buffer alone; else the element stands after them.
    fn append_request_to(there: &[u8]) -> u8 {
        let mut out = there.to_vec();
        out.resize(there.len() + 8, 0xEE);
        let before = out.clone();
        match append_measurement_request(9, enable(200), there.len(), &mut out) {
            Ok(put) => {
                assert_eq!(put, 5);
                let expected = [there, &[38, 3, 200, 2 | 8, 1, 0xEE, 0xEE, 0xEE]].concat();
                assert_eq!(out, expected);
                0
            }
            Err(refusal) => {
                assert_eq!(out, before);
                refusal
            }
        }
    }

    /// Appends `late(200)` for dialog token 9 to these octets.
    fn append_report_to(there: &[u8]) -> u8 {
        let mut out = there.to_vec();
        out.resize(there.len() + 8, 0xEE);
        let before = out.clone();
        match append_measurement_report(9, late(200), there.len(), &mut out) {
            Ok(put) => {
                assert_eq!(put, 5);
                let expected = [there, &[39, 3, 200, 1, 0, 0xEE, 0xEE, 0xEE]].concat();
                assert_eq!(out, expected);
                0
            }
            Err(refusal) => {
                assert_eq!(out, before);
                refusal
            }
        }
    }

    #[test]
    fn one_element_at_a_time() {
        let mut out = [0xEE; 25];
        // The first step puts the body's first three octets as well.
        assert_eq!(
            append_measurement_request(9, measure(1), 0, &mut out),
            Ok(19)
        );
        assert_eq!(out[19..], [0xEE; 6]);
        assert_eq!(
            append_measurement_request(9, enable(255), 19, &mut out),
            Ok(5)
        );
        let mut whole = [0xEE; 25];
        let requests = [measure(1), enable(255)];
        assert_eq!(
            write_measurement_request_body(9, &requests, &mut whole),
            Ok(24)
        );
        assert_eq!(out, whole);
        // What stands past the octets in use is not looked at.
        let mut out = [0xEE; 14];
        assert_eq!(append_measurement_report(0, late(0), 0, &mut out), Ok(8));
        assert_eq!(append_measurement_report(0, late(0), 8, &mut out), Ok(5));
        assert_eq!(out, [0, 1, 0, 39, 3, 0, 1, 0, 39, 3, 0, 1, 0, 0xEE]);
        assert_eq!(append_measurement_report(0, late(7), 0, &mut out), Ok(8));
        assert_eq!(out, [0, 1, 0, 39, 3, 7, 1, 0, 39, 3, 0, 1, 0, 0xEE]);
    }

    #[test]
    fn what_is_appended_to_is_a_body() {
        assert_eq!(append_request_to(&[0, 0, 9, 38, 3, 1, 2, 0]), 0);
        assert_eq!(append_report_to(&[0, 1, 9, 39, 3, 1, 1, 0]), 0);
        for broken in [
            // Half a body, a cut element, octets left over.
            &[0][..],
            &[0, 0],
            &[0, 0, 9],
            &[0, 0, 9, 38],
            &[0, 0, 9, 38, 3, 1, 2],
            &[0, 0, 9, 38, 3, 1, 2, 0, 38],
            // Another category, action, token or element.
            &[1, 0, 9, 38, 3, 1, 2, 0],
            &[0, 1, 9, 39, 3, 1, 2, 0],
            &[0, 2, 9, 34, 0],
            &[0, 0, 8, 38, 3, 1, 2, 0],
            &[0, 0, 9, 39, 3, 1, 2, 0],
            // Values and repeats that the reader refuses.
            &[0, 0, 9, 38, 3, 0, 2, 0],
            &[0, 0, 9, 38, 3, 1, 2, 0, 38, 3, 1, 2, 0],
            // Uninterpreted contents, even of no octets, wherever they stand.
            &[0, 0, 9, 38, 3, 1, 0, 3],
            &[0, 0, 9, 38, 4, 1, 0, 3, 0, 38, 3, 2, 2, 0],
        ] {
            assert_eq!(append_request_to(broken), 16, "{:?}", broken);
        }
        for broken in [
            &[0, 1, 9][..],
            &[0, 1, 9, 39, 3, 1, 1],
            &[0, 0, 9, 38, 3, 1, 2, 0],
            &[0, 1, 8, 39, 3, 1, 1, 0],
            &[0, 1, 9, 39, 3, 1, 3, 0],
            &[0, 1, 9, 39, 3, 1, 0, 3],
        ] {
            assert_eq!(append_report_to(broken), 16, "{:?}", broken);
        }
    }

    #[test]
    fn no_reserved_bit_is_appended_to() {
        let measured = [36, 1, 2, 3, 4, 5, 6, 7, 8, 9, 10];
        for mode in 0..=255u8 {
            for kind in 0..=255u8 {
                // Bits 2 and 3 are reserved with Enable and a type over 2 ...
                let known = if kind <= 2 { 0b1110 } else { 0b0010 };
                let plain = mode & 2 != 0 && mode & !known == 0;
                let answer = append_request_to(&[0, 0, 9, 38, 3, 1, mode, kind]);
                assert_eq!(answer, if plain { 0 } else { 16 });
                let plain = [1, 2, 4].contains(&mode);
                let answer = append_report_to(&[0, 1, 9, 39, 3, 1, mode, kind]);
                assert_eq!(answer, if plain { 0 } else { 16 });
            }
            for kind in 0..=2u8 {
                // ... and without Enable, as all others.
                let there = [&[0, 0, 9, 38, 14, 1, mode, kind][..], &measured].concat();
                assert_eq!(append_request_to(&there), if mode == 0 { 0 } else { 16 });
            }
            let there = [&[0, 1, 9, 39, 15, 1, mode, 1][..], &measured, &[7]].concat();
            assert_eq!(append_report_to(&there), if mode == 0 { 0 } else { 16 });
            // The same octet as a map.
            let there = [&[0, 1, 9, 39, 15, 1, 0, 0][..], &measured, &[mode]].concat();
            assert_eq!(append_report_to(&there), if mode <= 16 { 0 } else { 16 });
        }
        // The same of an element that is not the last.
        let more = [38, 3, 2, 2, 0];
        for (first, answer) in [
            ([38, 3, 1, 2 | 4, 2], 0),
            ([38, 3, 1, 2 | 4, 3], 16),
            ([38, 3, 1, 2 | 8, 3], 16),
            ([38, 3, 1, 2, 3], 0),
        ] {
            let there = [&[0, 0, 9][..], &first, &more].concat();
            assert_eq!(append_request_to(&there), answer);
        }
    }

    #[test]
    fn what_cannot_be_appended() {
        let there = [0, 0, 9, 38, 3, 1, 2, 0];
        let reserved = Request {
            kind: 3,
            ..enable(2)
        };
        // Dialog token 0, a repeated token, a record that cannot be written.
        for (token, request, used) in [
            (0, measure(2), 0),
            (9, measure(1), 8),
            (9, measure(0), 8),
            (9, reserved, 8),
            (9, reserved, 0),
        ] {
            let mut out = [0xEE; 40];
            out[..8].copy_from_slice(&there);
            let before = out;
            let refused = append_measurement_request(token, request, used, &mut out);
            assert_eq!(refused, Err(16));
            assert_eq!(out, before);
            // 16 before 13.
            let refused = append_measurement_request(token, request, used, &mut out[..8]);
            assert_eq!(refused, Err(16));
        }
        let wrong = Report {
            token: 1,
            kind: 3,
            says: Says::Uninterpreted,
        };
        assert_eq!(append_measurement_report(9, wrong, 0, &mut []), Err(16));
        // A report may use a token again, its dialog token may be 0.
        let mut out = [0, 1, 0, 39, 3, 1, 1, 0, 0, 0, 0, 0, 0];
        assert_eq!(append_measurement_report(0, late(1), 8, &mut out), Ok(5));
    }

    #[test]
    fn no_vendors_element_is_appended_to() {
        let request = [0, 0, 9, 38, 3, 1, 2, 0];
        let report = [0, 1, 9, 39, 3, 1, 1, 0];
        let more_requests = [38, 3, 2, 2, 0];
        let more_reports = [39, 3, 2, 1, 0];
        assert_eq!(append_request_to(&request), 0);
        assert_eq!(append_report_to(&report), 0);
        // Contents that are what would be appended are no better.
        let longest = vendor(&[7; 255]);
        let alike = vendor(&[38, 3, 200, 2 | 8, 1]);
        for vendors in [&[221, 0][..], &[221, 1, 7, 221, 0], &longest, &alike] {
            for (body, more) in [(request, more_requests), (report, more_reports)] {
                for broken in [
                    [&body, vendors].concat(),
                    [&body, vendors, &more].concat(),
                    [&body, &more[..], vendors].concat(),
                    [&body, vendors, &more, vendors].concat(),
                    // In front of the first, and cut, the reader refuses it.
                    [&body[..3], vendors, &body[3..]].concat(),
                    [&body, &vendors[..vendors.len() - 1]].concat(),
                ] {
                    assert_eq!(append_request_to(&broken), 16, "{:?}", broken);
                    assert_eq!(append_report_to(&broken), 16, "{:?}", broken);
                }
                assert_eq!(append_request_to(&[&body[..3], vendors].concat()), 16);
                assert_eq!(append_report_to(&[&body[..3], vendors].concat()), 16);
            }
        }
        // It is seen in what the buffer has, and not past it; 16 before 13.
        let mut out = [&request[..], &[221, 0]].concat();
        for (length, used, refusal) in [(8, 10, 13), (9, 10, 16), (10, 10, 16), (10, 11, 16)] {
            let refused = append_measurement_request(9, enable(2), used, &mut out[..length]);
            assert_eq!(refused, Err(refusal));
        }
        // Where it is past the octets in use, it is written over.
        let mut out = [&request[..], &[221, 3, 7, 7, 7]].concat();
        assert_eq!(append_measurement_request(9, enable(2), 8, &mut out), Ok(5));
        assert_eq!(out[8..], [38, 3, 2, 2 | 8, 1]);
    }

    #[test]
    fn vendors_elements_are_not_written_again() {
        // Each body, with where the element that they stand after ends.
        let bodies: [(&[u8], usize); 5] = [
            (&[0, 0, 9, 38, 3, 1, 2, 0, 38, 3, 2, 2, 0], 8),
            (&[0, 1, 9, 39, 3, 1, 1, 0, 39, 3, 1, 1, 0], 8),
            (&[0, 2, 9, 34, 0], 5),
            (&[0, 3, 9, 35, 2, 0x80, 0x7F], 7),
            (&[0, 4, 37, 3, 1, 200, 2], 7),
        ];
        for (body, end) in bodies {
            for vendors in [&[221, 0][..], &[221, 1, 7, 221, 0]] {
                let (front, back_part) = body.split_at(end);
                let frame = back(&[front, vendors, back_part, vendors].concat());
                let mut out = [0xEE; 14];
                assert_eq!(rewrite(&frame, &mut out), Ok(body.len()));
                assert_eq!(&out[..body.len()], body);
                assert!(out[body.len()..].iter().all(|&octet| octet == 0xEE));
            }
        }
    }

    #[test]
    fn room_to_append_on_both_sides() {
        let mut out = [0xEE; 8];
        assert_eq!(
            append_measurement_request(9, enable(1), 0, &mut out[..7]),
            Err(13)
        );
        assert_eq!(out, [0xEE; 8]);
        assert_eq!(append_measurement_request(9, enable(1), 0, &mut out), Ok(8));
        let mut longer = [0xEE; 13];
        longer[..8].copy_from_slice(&out);
        let before = longer;
        for length in 8..13 {
            let refused = append_measurement_request(9, enable(2), 8, &mut longer[..length]);
            assert_eq!(refused, Err(13));
            assert_eq!(longer, before);
        }
        assert_eq!(
            append_measurement_request(9, enable(2), 8, &mut longer),
            Ok(5)
        );
    }

    #[test]
    fn fewer_octets_than_are_in_use() {
        let whole = [0, 0, 9, 38, 3, 1, 2, 0, 38, 3, 2, 2, 0];
        for length in 0..=whole.len() {
            for used in (length + 1..20).chain([2313, usize::MAX]) {
                let mut out = whole[..length].to_vec();
                // What there is of a body is judged: nothing, or one or two
                // whole elements, are a body that can be appended to.
                let plain = [0, 8, 13].contains(&length);
                let refused = append_measurement_request(9, enable(3), used, &mut out);
                assert_eq!(refused, Err(if plain { 13 } else { 16 }));
                // The second element's token is one of those in use only
                // where the buffer has it.
                let refused = append_measurement_request(9, enable(2), used, &mut out);
                let plain = [0, 8].contains(&length);
                assert_eq!(refused, Err(if plain { 13 } else { 16 }));
                for (token, request) in [(8, enable(3)), (9, measure(0))] {
                    let refused = append_measurement_request(token, request, used, &mut out);
                    let plain = length == 0 && token == 8;
                    assert_eq!(refused, Err(if plain { 13 } else { 16 }));
                }
                assert_eq!(out, whole[..length]);
            }
        }
        // A reserved bit is seen in what the buffer has, and not past it.
        let mut out = [0, 1, 9, 39, 3, 1, 1, 0, 39, 3, 1, 1 | 8, 0];
        let short = append_measurement_report(9, late(1), 13, &mut out[..8]);
        assert_eq!(short, Err(13));
        let judged = append_measurement_report(9, late(1), 14, &mut out);
        assert_eq!(judged, Err(16));
        out[11] = 1;
        let short = append_measurement_report(9, late(1), 14, &mut out);
        assert_eq!(short, Err(13));
    }

    #[test]
    fn appending_up_to_the_longest_body() {
        // 3 + 461 * 5 = 2,308 octets; 3 + 5 + 144 * 16 = 2,312 are the most.
        let mut out = [0; 3000];
        let mut used = 0;
        for _ in 0..461 {
            used += append_measurement_report(1, late(1), used, &mut out).unwrap();
        }
        assert_eq!(used, 2308);
        let over = append_measurement_report(1, late(1), used, &mut out);
        assert_eq!(over, Err(16));
        let over = append_measurement_report(1, late(1), used + 1, &mut out[..used]);
        assert_eq!(over, Err(16));
        let mut used = append_measurement_request(1, enable(145), 0, &mut out).unwrap();
        for token in 1..=144 {
            used += append_measurement_request(1, measure(token), used, &mut out).unwrap();
        }
        assert_eq!(used, 2312);
        assert!(matches!(
            back(&out[..2312]),
            Frame::MeasurementRequest { requests, .. } if requests.len() == 145
        ));
        let over = append_measurement_request(1, enable(146), used, &mut out);
        assert_eq!(over, Err(16));
    }

    /// Writes an action frame's record again, where a writer can.
    fn rewrite(frame: &Frame, out: &mut [u8]) -> Result<usize, u8> {
        match frame {
            Frame::MeasurementRequest { token, requests } => {
                write_measurement_request_body(*token, requests, out)
            }
            Frame::MeasurementReport { token, reports } => {
                write_measurement_report_body(*token, reports, out)
            }
            Frame::TpcRequest { token } => write_tpc_request_body(*token, out),
            Frame::TpcReport {
                token,
                power,
                margin,
            } => write_tpc_report_body(*token, *power, *margin, out),
            Frame::ChannelSwitch(switch) => write_channel_switch_body(*switch, out),
            Frame::Beacon(_) | Frame::ProbeResponse(_) => Err(0),
        }
    }

    /// A measurement body written one element at a time is the same body.
    fn assert_appends_agree(frame: &Frame, body: &[u8]) {
        let mut out = [0; 200];
        let mut used = 0;
        match frame {
            Frame::MeasurementRequest { token, requests } => {
                for &request in requests {
                    used += append_measurement_request(*token, request, used, &mut out).unwrap();
                }
            }
            Frame::MeasurementReport { token, reports } => {
                for &report in reports {
                    used += append_measurement_report(*token, report, used, &mut out).unwrap();
                }
            }
            _ => return,
        }
        assert_eq!(&out[..used], body);
    }

    /// One element that is often right.
    fn some_element(dice: &mut Dice, id: u8) -> Vec<u8> {
        let lengths = [0, 1, 2, 3, 3, 3, 3, 4, 6, 14, 14, 14, 15, 15, 15, 22, 22];
        let length = lengths[dice.roll(lengths.len() as u64) as usize];
        let mut contents: Vec<u8> = (0..length).map(|_| dice.roll(256) as u8).collect();
        if length >= 3 && dice.roll(4) != 0 {
            contents[0] = dice.roll(6) as u8;
            contents[1] = dice.roll(5) as u8;
            contents[2] = dice.roll(4) as u8;
        }
        element_octets(id, &contents)
    }

    #[test]
    fn what_is_read_is_written_again() {
        let mut dice = Dice(11);
        let mut agreed = [0; 5];
        for _ in 0..200_000 {
            let action_number = dice.roll(5) as u8;
            let mut body = vec![0, action_number];
            if action_number < 4 {
                body.push(dice.roll(4) as u8);
            }
            let id = [38, 39, 34, 35, 37][usize::from(action_number)];
            for _ in 0..1 + dice.roll(3) / 2 {
                body.append(&mut some_element(&mut dice, id));
            }
            let frame = match read_frame(&action(OWN, &body), OWN, AP, 100) {
                Ok(received) => received.frame,
                Err(_) => continue,
            };
            let uninterpreted = match &frame {
                Frame::MeasurementRequest { requests, .. } => requests
                    .iter()
                    .any(|request| request.asks == Asks::Uninterpreted),
                Frame::MeasurementReport { reports, .. } => reports
                    .iter()
                    .any(|report| report.says == Says::Uninterpreted),
                _ => false,
            };
            let mut out = [0; 200];
            match rewrite(&frame, &mut out) {
                Ok(length) => {
                    assert!(!uninterpreted);
                    // The same length; only reserved bits may differ.
                    assert_eq!(length, body.len());
                    assert_eq!(back(&out[..length]), frame);
                    assert_appends_agree(&frame, &out[..length]);
                    agreed[usize::from(action_number)] += 1;
                }
                Err(refusal) => {
                    assert!(uninterpreted);
                    assert_eq!(refusal, 16);
                }
            }
        }
        assert!(agreed.iter().all(|&times| times > 500), "{:?}", agreed);
    }
}
