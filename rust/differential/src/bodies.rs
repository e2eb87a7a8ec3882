//! Action bodies. Those of one element are written at once by both. A
//! measurement body the twin writes from all its records at once and the
//! library element by element, so each step is compared with the twin's body
//! of all records so far.

use crate::builder::{action, mutate, Builder, Stage, HEADER, LONGEST_BODY};
use crate::count::{Call, Count};
use crate::elements::{
    read_back, report_limits, request_limits, some_report, some_request, switches, Writers,
};
use crate::frames;
use crate::lend::{hex, lend, lend_after};
use crate::pairs;
use crate::rng::Rng;
use oneiralth::{Frame, Received, Written};
use std::fmt::Debug;

const SEED: u64 = 0x8021_1000_2003_0003;

/// Bodies of each sort that are appended from nothing, and single elements
/// after octets of all sorts.
const APPENDED: usize = 1_200;
const AFTER_OCTETS: usize = 12_000;

/// Longer than any body.
const AMPLE: usize = LONGEST_BODY + 60;

/// Long enough for the body of so many records, whatever they are.
fn ample<S: Sort>(records: usize) -> usize {
    AMPLE.min(3 + (records + 1) * S::LONGEST)
}

pub fn run(count: &mut Count) {
    let mut rng = count.begin("bodies", SEED);
    tpc_request_bodies(count);
    tpc_report_bodies(count, &mut rng);
    channel_switch_bodies(count, &mut rng);
    measurement_bodies::<Requests>(count, &mut rng);
    measurement_bodies::<Reports>(count, &mut rng);
}

/// An accepted frame to the station itself.
fn to_station(frame: Frame) -> Received {
    Received {
        broadcast: false,
        frame,
    }
}

fn tpc_request_bodies(count: &mut Count) {
    let stage = Stage::usual(100);
    for token in 0..=255 {
        let writers = Writers {
            call: Call::WriteBody,
            library: |out: &mut [u8]| oneiralth::write_tpc_request_body(token, out),
            twin: |out: &mut [u8]| twin::write_tpc_request_body(token, out),
            most: 5,
        };
        if let Some(body) = writers.in_all_lengths(count, ("TPC request body", token)) {
            let expected = to_station(Frame::TpcRequest { token });
            read_back(count, &stage, &action(&stage, &body), expected);
        }
    }
}

fn tpc_report_bodies(count: &mut Count, rng: &mut Rng) {
    let stage = Stage::usual(100);
    for token in 0..=255 {
        let some = (rng.octet() as i8, rng.octet() as i8);
        let record = rng.pick(&[(-128, 127), (127, -128), (-1, 0), some]);
        let writers = Writers {
            call: Call::WriteFree,
            library: |out: &mut [u8]| {
                oneiralth::write_tpc_report_body(token, pairs::tpc(record), out)
            },
            twin: |out: &mut [u8]| twin::write_tpc_report_body(token, record.0, record.1, out),
            most: 7,
        };
        if let Some(body) = writers.in_all_lengths(count, ("TPC report body", token, record)) {
            let report = pairs::tpc(record);
            let expected = to_station(Frame::TpcReport { token, report });
            read_back(count, &stage, &action(&stage, &body), expected);
        }
    }
}

fn channel_switch_bodies(count: &mut Count, rng: &mut Rng) {
    let stage = Stage::usual(100);
    for record in switches(rng) {
        let writers = Writers {
            call: Call::WriteBody,
            library: |out: &mut [u8]| {
                oneiralth::write_channel_switch_body(pairs::switch(record), out)
            },
            twin: |out: &mut [u8]| twin::write_channel_switch_body(record, out),
            most: 7,
        };
        if let Some(body) = writers.in_all_lengths(count, ("body", record)) {
            let expected = to_station(Frame::ChannelSwitch(pairs::switch(record)));
            read_back(count, &stage, &action(&stage, &body), expected);
        }
    }
}

/// One of the two measurement bodies.
trait Sort {
    type Record: Copy + Debug + PartialEq;
    /// The lengths of its elements, the shortest and the longest.
    const SHORTEST: usize;
    const LONGEST: usize;

    /// The library's call.
    fn append(buffer: &mut [u8], used: usize, dialog: u8, record: Self::Record) -> Written;
    /// The twin's.
    fn twin_append(
        buffer: &mut [u8],
        used: usize,
        dialog: u8,
        record: Self::Record,
    ) -> Result<usize, u8>;
    /// A whole body, as the twin writes it.
    fn write(dialog: u8, records: &[Self::Record], out: &mut [u8]) -> Result<usize, u8>;
    /// Token and records of a body, as the twin reads it.
    fn read(body: &[u8]) -> Option<(u8, Vec<Self::Record>)>;

    fn limits() -> Vec<Self::Record>;
    fn some(rng: &mut Rng) -> Self::Record;
    /// A record that may be written; `place` is its place in the body, so that
    /// up to 255 of them have tokens that differ.
    fn sound(rng: &mut Rng, place: usize) -> Self::Record;
    /// One whose element is as short or as long as any.
    fn shortest(place: usize) -> Self::Record;
    fn longest(place: usize) -> Self::Record;
    /// A frame of this sort at random.
    fn frame(builder: &mut Builder<'_>) -> Vec<u8>;
}

struct Requests;
struct Reports;

/// From 1 to 255, each once before one comes again.
fn token(place: usize) -> u8 {
    (place % 255) as u8 + 1
}

impl Sort for Requests {
    type Record = twin::Request;
    const SHORTEST: usize = 5;
    const LONGEST: usize = 16;

    fn append(buffer: &mut [u8], used: usize, dialog: u8, record: twin::Request) -> Written {
        oneiralth::append_request(buffer, used, dialog, pairs::request(record))
    }

    fn twin_append(
        buffer: &mut [u8],
        used: usize,
        dialog: u8,
        record: twin::Request,
    ) -> Result<usize, u8> {
        twin::append_measurement_request(dialog, record, used, buffer)
    }

    fn write(dialog: u8, records: &[twin::Request], out: &mut [u8]) -> Result<usize, u8> {
        twin::write_measurement_request_body(dialog, records, out)
    }

    fn read(body: &[u8]) -> Option<(u8, Vec<twin::Request>)> {
        match read(body)? {
            twin::Frame::MeasurementRequest { token, requests } => Some((token, requests)),
            _ => None,
        }
    }

    fn limits() -> Vec<twin::Request> {
        request_limits()
    }

    fn some(rng: &mut Rng) -> twin::Request {
        some_request(rng)
    }

    fn sound(rng: &mut Rng, place: usize) -> twin::Request {
        if rng.one_in(3) {
            return Requests::shortest(place);
        }
        let kind = rng.below(3) as u8;
        let asks = twin::Asks::Measure {
            channel: rng.below(201) as u8,
            start: rng.next(),
            duration: rng.u16(),
        };
        twin::Request {
            token: token(place),
            kind,
            asks,
        }
    }

    fn shortest(place: usize) -> twin::Request {
        // With a type over 2 the two bits would be reserved.
        twin::Request {
            token: token(place),
            kind: (place % 3) as u8,
            asks: twin::Asks::Enable {
                request: place % 2 == 0,
                report: place % 3 == 0,
            },
        }
    }

    fn longest(place: usize) -> twin::Request {
        twin::Request {
            token: token(place),
            kind: (place % 3) as u8,
            asks: twin::Asks::Measure {
                channel: 200,
                start: place as u64,
                duration: 65_535,
            },
        }
    }

    fn frame(builder: &mut Builder<'_>) -> Vec<u8> {
        builder.measurement_request()
    }
}

impl Sort for Reports {
    type Record = twin::Report;
    const SHORTEST: usize = 5;
    const LONGEST: usize = 24;

    fn append(buffer: &mut [u8], used: usize, dialog: u8, record: twin::Report) -> Written {
        oneiralth::append_report(buffer, used, dialog, pairs::report(record))
    }

    fn twin_append(
        buffer: &mut [u8],
        used: usize,
        dialog: u8,
        record: twin::Report,
    ) -> Result<usize, u8> {
        twin::append_measurement_report(dialog, record, used, buffer)
    }

    fn write(dialog: u8, records: &[twin::Report], out: &mut [u8]) -> Result<usize, u8> {
        twin::write_measurement_report_body(dialog, records, out)
    }

    fn read(body: &[u8]) -> Option<(u8, Vec<twin::Report>)> {
        match read(body)? {
            twin::Frame::MeasurementReport { token, reports } => Some((token, reports)),
            _ => None,
        }
    }

    fn limits() -> Vec<twin::Report> {
        report_limits()
    }

    fn some(rng: &mut Rng) -> twin::Report {
        some_report(rng)
    }

    fn sound(rng: &mut Rng, place: usize) -> twin::Report {
        loop {
            let record = some_report(rng);
            if twin::write_measurement_report(record, &mut [0; 24]).is_ok() {
                // Tokens may repeat here, and be 0.
                return twin::Report {
                    token: (place % 7) as u8,
                    ..record
                };
            }
        }
    }

    fn shortest(place: usize) -> twin::Report {
        twin::Report {
            token: place as u8,
            kind: place as u8,
            says: [twin::Says::Late, twin::Says::Incapable, twin::Says::Refused][place % 3],
        }
    }

    fn longest(place: usize) -> twin::Report {
        twin::Report {
            token: place as u8,
            kind: 2,
            says: twin::Says::Rpi {
                channel: 200,
                start: u64::MAX,
                duration: 65_535,
                densities: [place as u8; 8],
            },
        }
    }

    fn frame(builder: &mut Builder<'_>) -> Vec<u8> {
        builder.measurement_report()
    }
}

/// What the twin reads from a body, in a frame of this test's making.
fn read(body: &[u8]) -> Option<twin::Frame> {
    let stage = Stage::usual(100);
    let frame = action(&stage, body);
    let received = twin::read_frame(&frame, stage.own, stage.ap, stage.interval).ok()?;
    Some(received.frame)
}

fn measurement_bodies<S: Sort>(count: &mut Count, rng: &mut Rng) {
    // Each record at a limit as the first of a body, and after another.
    for record in S::limits() {
        for dialog in [0, 1, 255] {
            append_all::<S>(count, dialog, &[record, S::shortest(7)], ample::<S>(2));
        }
        append_all::<S>(count, 1, &[S::longest(8), record], ample::<S>(2));
    }
    for _ in 0..APPENDED {
        at_random::<S>(count, rng);
    }
    long_bodies::<S>(count, rng);
    for _ in 0..AFTER_OCTETS {
        after_octets::<S>(count, rng);
    }
}

/// Some records, in a buffer that is long enough or around some length at
/// which it no longer is.
fn at_random<S: Sort>(count: &mut Count, rng: &mut Rng) {
    let many = rng.pick(&[1, 2, 3, 5, 9, 20]);
    let faults = rng.pick(&[0, 3, 12]);
    let records: Vec<S::Record> = (0..many)
        .map(|place| {
            if faults != 0 && rng.one_in(faults) {
                S::some(rng)
            } else {
                // Now and then a token comes twice.
                let place = if rng.one_in(30) { 0 } else { place };
                S::sound(rng, place)
            }
        })
        .collect();
    let dialog = rng.pick(&[0, 1, 77, 255, 255]);
    let body = append_all::<S>(count, dialog, &records, ample::<S>(many));
    for _ in 0..4 {
        let length = rng.place(body.len() + 30);
        append_all::<S>(count, dialog, &records, length);
    }
    if body.is_empty() {
        return;
    }
    for length in [0, body.len() - 1, body.len(), body.len() + 1] {
        append_all::<S>(count, dialog, &records, length);
    }
}

/// Appends the records one after the other; one that is refused is left out,
/// and the next is tried. Gives the body that has come to be.
fn append_all<S: Sort>(
    count: &mut Count,
    dialog: u8,
    records: &[S::Record],
    length: usize,
) -> Vec<u8> {
    let mut body = Vec::new();
    let mut kept = Vec::new();
    let mut first_refusal = None;
    for &record in records {
        kept.push(record);
        let used = body.len();
        let library = lend_after(&body, length, |buffer| {
            S::append(buffer, used, dialog, record)
        });
        let twin = lend_after(&body, length, |buffer| {
            S::write(dialog, &kept, buffer).map(|all| all - used)
        });
        count.buffers(Call::WriteBody, &library, &twin, || {
            let body = hex(&body);
            format!(
                "token {:x}, {:x?} after {} in {} octets",
                dialog, record, body, length
            )
        });
        match library.answer {
            Ok(put) => body = library.buffer()[..used + put].to_vec(),
            Err(refusal) => {
                kept.pop();
                first_refusal = first_refusal.or(Some(refusal));
            }
        }
    }
    if length == ample::<S>(records.len()) {
        // Nothing is 13 here, so the whole is refused as its first refused
        // record is.
        let library = match first_refusal {
            None => Ok(body.clone()),
            Some(refusal) => Err(refusal),
        };
        let twin = lend(length, |out| S::write(dialog, records, out));
        let twin = twin.answer.map(|_| twin.written().to_vec());
        count.compare(&library, &twin, || {
            format!("token {:x}, {:x?}", dialog, records)
        });
        read_body_back::<S>(count, dialog, &kept, &body);
    }
    body
}

/// A body that was written, read again: both sides read the same from it, and
/// the twin, which gives all records at once, what was to be written.
fn read_body_back<S: Sort>(count: &mut Count, dialog: u8, kept: &[S::Record], body: &[u8]) {
    if !kept.is_empty() {
        let stage = Stage::usual(100);
        frames::compare(count, &stage, &action(&stage, body));
        let expected = Some((dialog, kept.to_vec()));
        count.twin_gives(&S::read(body), &expected, || {
            format!("read back from {}", hex(body))
        });
    }
}

/// Bodies around the longest that a frame can hold: an element with which it
/// would be over 2,312 octets is 16, even where the buffer is short as well.
fn long_bodies<S: Sort>(count: &mut Count, rng: &mut Rng) {
    let stage = Stage::usual(100);
    // So many octets short of the limit, until one more element is tried.
    for short_of in 0..=S::LONGEST + 2 {
        // 3 octets, and elements of two lengths that add up to the rest.
        let rest = LONGEST_BODY - 3 - short_of;
        let longest = (0..=rest / S::LONGEST)
            .rev()
            .find(|longest| (rest - longest * S::LONGEST) % S::SHORTEST == 0)
            .expect("the two lengths have no common divisor");
        let shortest = (rest - longest * S::LONGEST) / S::SHORTEST;
        let mut records: Vec<S::Record> = (0..longest).map(S::longest).collect();
        records.extend((longest..longest + shortest).map(S::shortest));
        let next = records.len();
        let mut front = vec![0; LONGEST_BODY - short_of];
        let written = S::write(9, &records, &mut front);
        count.twin_gives(&written, &Ok(front.len()), || {
            format!("a body of {} octets", LONGEST_BODY - short_of)
        });
        frames::compare(count, &stage, &action(&stage, &front));
        for record in [S::shortest(next), S::longest(next), S::sound(rng, next)] {
            for length in [
                front.len(),
                front.len() + S::SHORTEST - 1,
                LONGEST_BODY - 1,
                LONGEST_BODY,
                LONGEST_BODY + 1,
                AMPLE,
            ] {
                append_after::<S>(count, &front, front.len(), length, 9, record);
            }
        }
    }
    // From nothing until nothing goes in any more, with elements of all sorts.
    for _ in 0..6 {
        let records: Vec<S::Record> = (0..255).map(|place| S::sound(rng, place)).collect();
        append_all::<S>(count, 9, &records, AMPLE);
    }
    let shortest: Vec<S::Record> = (0..LONGEST_BODY / S::SHORTEST + 2)
        .map(S::shortest)
        .collect();
    append_all::<S>(count, 9, &shortest, AMPLE);
}

/// One element after octets that may be no body at all.
fn after_octets<S: Sort>(count: &mut Count, rng: &mut Rng) {
    let stage = Stage::usual(100);
    let mut dialog = rng.between(1, 255) as u8;
    let mut front = if rng.one_in(2) {
        // What the builder makes has reserved bits and types that are not
        // interpreted, which may not stand in front.
        let faults = rng.pick(&[0, 40]);
        let frame = S::frame(&mut Builder { rng, stage, faults });
        dialog = frame.get(HEADER + 2).copied().unwrap_or(dialog);
        frame.get(HEADER..).unwrap_or(&[]).to_vec()
    } else {
        let many = rng.pick(&[1, 1, 2, 3, 10]);
        let records: Vec<S::Record> = (0..many).map(|place| S::sound(rng, place)).collect();
        let mut body = vec![0; AMPLE];
        let length = S::write(dialog, &records, &mut body).unwrap_or(0);
        body.truncate(length);
        body
    };
    if rng.one_in(4) {
        mutate(rng, &mut front);
    }
    if rng.one_in(8) {
        dialog = rng.octet();
    }
    let used = match rng.below(8) {
        0 => rng.place(front.len() + 4),
        1 => rng.pick(&[0, 1, 2, 3, front.len() + 40, usize::MAX]),
        _ => front.len(),
    };
    let place = rng.place(40);
    let record = if rng.one_in(6) {
        S::some(rng)
    } else {
        S::sound(rng, place)
    };
    for length in [
        0,
        used.min(AMPLE),
        front.len() + rng.place(S::LONGEST + 3),
        front.len() + S::SHORTEST,
        front.len() + S::LONGEST,
        front.len() + 40,
    ] {
        append_after::<S>(count, &front, used, length, dialog, record);
    }
}

/// One element after the first `used` octets of a buffer that begins with
/// these octets.
fn append_after<S: Sort>(
    count: &mut Count,
    front: &[u8],
    used: usize,
    length: usize,
    dialog: u8,
    record: S::Record,
) {
    let library = lend_after(front, length, |buffer| {
        S::append(buffer, used, dialog, record)
    });
    let twin = lend_after(front, length, |buffer| {
        S::twin_append(buffer, used, dialog, record)
    });
    count.buffers(Call::WriteBody, &library, &twin, || {
        let front = hex(front);
        format!(
            "token {:x}, {:x?} after {:x} octets of {} in {} octets",
            dialog, record, used, front, length
        )
    });
}
