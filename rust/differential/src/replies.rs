//! Replies to TPC Requests and to the elements of Measurement Requests, due
//! and not due, and the error returns of broken bodies.

use crate::builder::{
    action, element, header, measured, measurements, mutate, soup, Address, Builder, Stage, ACTION,
    ALL_ONES, HEADER, LONGEST, LONGEST_BODY,
};
use crate::count::{Call, Count};
use crate::frames;
use crate::lend::{hex, lend, Left};
use crate::pairs;
use crate::rng::Rng;
use oneiralth::answers::NO_REPLY_DUE;
use twin::Finding;

const SEED: u64 = 0x8021_1000_2003_0004;

/// Requests at random, each asked for replies of several sorts.
const AT_RANDOM: usize = 72_000;

/// The lengths of the reports that there are as replies. An error return is as
/// long as the frame that it answers.
const TPC_REPLY: usize = 31;
const MEASUREMENT_REPLIES: [usize; 3] = [32, 44, 51];

/// The bit of a category that makes an error return of it.
const ERROR: u8 = 0x80;

/// µs in a TU.
const TU: u64 = 1024;

pub fn run(count: &mut Count) {
    let mut rng = count.begin("replies", SEED);
    tpc_replies(count, &mut rng);
    starts_and_clocks(count);
    findings(count);
    elements(count);
    all_lengths(count);
    error_returns(count, &mut rng);
    categories(count, &mut rng);
    at_random(count, &mut rng);
}

/// The reply to a TPC Request, in one buffer, and what becomes of it.
fn tpc(count: &mut Count, stage: &Stage, frame: &[u8], report: (i8, i8), length: usize) {
    let library = tpc_alone(count, stage, frame, report, length);
    answered(count, stage, frame, &library, Call::ReturnTpc);
}

fn tpc_alone(
    count: &mut Count,
    stage: &Stage,
    frame: &[u8],
    report: (i8, i8),
    length: usize,
) -> Left {
    let (own, ap) = (stage.own, stage.ap);
    let library = lend(length, |out| {
        oneiralth::reply_to_tpc_request(frame, own, ap, pairs::tpc(report), out)
    });
    let twin = lend(length, |out| {
        twin::reply_to_tpc_request(frame, own, ap, report.0, report.1, out)
    });
    count.buffers(Call::ReplyTpc, &library, &twin, || {
        let (frame, own, ap) = (hex(frame), hex(&own), hex(&ap));
        format!("frame {frame}, own {own}, AP {ap}, {report:?}, {length} octets")
    });
    library
}

/// What a caller of a measurement reply has to give.
#[derive(Clone, Copy)]
struct Asked {
    clock: u32,
    index: usize,
    finding: Finding,
}

/// The reply to an element of a Measurement Request, in one buffer, and what
/// becomes of it.
fn measurement(count: &mut Count, stage: &Stage, frame: &[u8], asked: Asked, length: usize) {
    let library = measurement_alone(count, stage, frame, asked, length);
    answered(count, stage, frame, &library, Call::ReturnMeasurement);
}

fn measurement_alone(
    count: &mut Count,
    stage: &Stage,
    frame: &[u8],
    asked: Asked,
    length: usize,
) -> Left {
    let (own, ap) = (stage.own, stage.ap);
    let Asked {
        clock,
        index,
        finding,
    } = asked;
    let library = lend(length, |out| {
        let finding = pairs::finding(finding);
        oneiralth::reply_to_measurement_request(frame, own, ap, clock, index, finding, out)
    });
    let twin = lend(length, |out| {
        twin::reply_to_measurement_request(frame, own, ap, clock, index, finding, out)
    });
    count.buffers(Call::ReplyMeasurement, &library, &twin, || {
        let (frame, own, ap) = (hex(frame), hex(&own), hex(&ap));
        format!(
            "frame {frame}, own {own}, AP {ap}, clock {clock:x}, index {index:x}, \
             {finding:x?}, {length} octets"
        )
    });
    library
}

/// A reply with DA and SA exchanged is a frame to the station again, which
/// both sides must read alike. No report has the bit of an error return, so
/// that bit tells which it is.
fn answered(count: &mut Count, stage: &Stage, frame: &[u8], library: &Left, error: Call) {
    if library.answer.is_err() {
        return;
    }
    let reply = library.written();
    let mut back = reply.to_vec();
    back[4..10].copy_from_slice(&reply[10..16]);
    back[10..16].copy_from_slice(&reply[4..10]);
    frames::compare(count, stage, &back);
    if reply[HEADER] & ERROR != 0 {
        returned(count, stage, frame, reply, &back, error);
    }
}

/// An error return, by the document: the body of a frame that is refused, with
/// one bit more, after the header of a reply. It gets no reply itself, or two
/// stations would return it to each other for ever.
fn returned(
    count: &mut Count,
    stage: &Stage,
    frame: &[u8],
    reply: &[u8],
    back: &[u8],
    error: Call,
) {
    let refusal = oneiralth::read_frame(frame, stage.settings()).err();
    count.note(error, refusal.unwrap_or(0));
    let mut expected = header(stage, ACTION, stage.ap);
    expected[10..16].copy_from_slice(&stage.own);
    expected.extend_from_slice(&frame[HEADER..]);
    expected[HEADER] |= ERROR;
    count.library_gives(&reply, &&expected[..], || {
        format!("error return of {}", hex(frame))
    });
    let asked = Asked {
        clock: 0,
        index: 0,
        finding: Finding::Refused,
    };
    let replies = [
        tpc_alone(count, stage, back, (0, 0), back.len()).answer,
        measurement_alone(count, stage, back, asked, back.len()).answer,
    ];
    count.library_gives(&replies, &[Err(NO_REPLY_DUE); 2], || {
        format!("replies to {}", hex(back))
    });
}

/// In buffers around each length that a reply can have.
fn measurement_in_some(count: &mut Count, stage: &Stage, frame: &[u8], asked: Asked) {
    for length in [0, 31, 32, 43, 44, 50, 51, 60] {
        measurement(count, stage, frame, asked, length);
    }
}

/// A Measurement Request of one element, to the station.
fn request(stage: &Stage, kind: u8, channel: u8, start: u64, duration: u16) -> Vec<u8> {
    let contents = measured([0x5A, 0, kind], channel, start, duration);
    action(
        stage,
        &[&[0, 0, 0xC3][..], &element(38, &contents)].concat(),
    )
}

/// Every token, powers and margins at their ends; to the station and to all
/// ones, also where that is the station's own address; to an AP of any sort.
fn tpc_replies(count: &mut Count, rng: &mut Rng) {
    let usual = Stage::usual(100);
    for token in 0..=255 {
        let frame = action(&usual, &[0, 2, token, 34, 0]);
        let report = (token as i8, rng.octet() as i8);
        for length in 0..=TPC_REPLY + 3 {
            if length < TPC_REPLY - 1 && length % 8 != 0 && token > 1 {
                continue;
            }
            tpc(count, &usual, &frame, report, length);
        }
    }
    let addresses: [Address; 5] = [usual.own, usual.ap, ALL_ONES, [0; 6], [1, 0, 0, 0, 0, 0]];
    for own in addresses {
        for ap in addresses {
            for da in addresses {
                let stage = Stage { own, ap, ..usual };
                let mut frame = action(&stage, &[0, 2, 1, 34, 0]);
                frame[4..10].copy_from_slice(&da);
                tpc(count, &stage, &frame, (-128, 127), 40);
                tpc(count, &stage, &frame, (-128, 127), 30);
                let mut frame = request(&stage, 0, 36, 0, 1);
                frame[4..10].copy_from_slice(&da);
                let asked = Asked {
                    clock: 7,
                    index: 0,
                    finding: Finding::Map(1),
                };
                measurement_in_some(count, &stage, &frame, asked);
            }
        }
    }
}

/// Starts before, at and after the clock, for clocks from end to end: when a
/// request is late.
fn starts_and_clocks(count: &mut Count) {
    let stage = Stage::usual(100);
    for clock in [0, 1, 2, 3, 1024, 65_535, 4_194_304, u32::MAX - 1, u32::MAX] {
        let now = u64::from(clock) * TU;
        let mut starts = vec![
            0,
            1,
            2,
            1023,
            1024,
            1025,
            u64::from(clock),
            1 << 32,
            u64::MAX,
        ];
        for near in [1, 2, 1023, 1024] {
            starts.push(now.saturating_sub(near));
            starts.push(now + near);
        }
        starts.push(now);
        for start in starts {
            for kind in [0, 1, 2, 3, 255] {
                let frame = request(&stage, kind, 200, start, 2);
                for finding in [
                    Finding::Refused,
                    Finding::Map(0b101),
                    Finding::Busy(2048),
                    Finding::Times([256; 8]),
                ] {
                    let asked = Asked {
                        clock,
                        index: 0,
                        finding,
                    };
                    measurement(count, &stage, &frame, asked, 51);
                    measurement(count, &stage, &frame, asked, 43);
                }
            }
        }
    }
}

/// Each finding against each type and duration, around what is possible; the
/// buffer too short or not. Readings are judged only where they are carried:
/// the same ones with a late request, which is answered in any case.
fn findings(count: &mut Count) {
    let stage = Stage::usual(100);
    for duration in [0, 1, 2, 255, 256, 65_535] {
        let limit = TU as u32 * u32::from(duration);
        let mut findings = vec![Finding::Refused];
        findings.extend((0..=255).map(Finding::Map));
        let below = limit.saturating_sub(1);
        for busy in [
            0,
            1,
            2,
            limit / 255,
            limit / 2,
            below,
            limit,
            limit + 1,
            u32::MAX,
        ] {
            findings.push(Finding::Busy(busy));
            findings.push(Finding::Times([busy, 0, 0, 0, 0, 0, 0, 0]));
            findings.push(Finding::Times([busy / 2, 0, 0, busy / 2, 0, 0, 0, 1]));
            findings.push(Finding::Times([0, 0, 0, 0, 0, 0, 1, busy]));
            findings.push(Finding::Times([busy / 8; 8]));
            findings.push(Finding::Times([busy; 8]));
        }
        for kind in [0, 1, 2, 3, 4, 255] {
            for start in [0, 9 * TU - 1, 9 * TU] {
                let frame = request(&stage, kind, 0, start, duration);
                for &finding in &findings {
                    let asked = Asked {
                        clock: 9,
                        index: 0,
                        finding,
                    };
                    // Most maps are alike to the other types.
                    if kind != 0 && matches!(finding, Finding::Map(map) if map % 37 != 0) {
                        continue;
                    }
                    measurement(count, &stage, &frame, asked, 60);
                    measurement(count, &stage, &frame, asked, 31);
                }
            }
        }
    }
}

/// A request of several elements by each index, past the last too; Enable
/// elements, types that are not interpreted, reserved bits; replies of the
/// other sort than was asked for.
fn elements(count: &mut Count) {
    let stage = Stage::usual(100);
    let elements = [
        element(38, &measured([1, 0b1100, 0], 7, 0, 5)),
        element(38, &[2, 0b1110, 1]),
        element(38, &[3, 0b0010, 200]),
        element(38, &[4, 0, 3]),
        element(38, &[5, 0xFD, 255, 1, 2, 3]),
        element(38, &measured([255, 0xF1, 2], 200, u64::MAX, 65_535)),
        element(38, &measured([6, 0, 1], 0, 5 * TU, 1)),
    ];
    let all = action(&stage, &[&[0, 0, 9][..], &elements.concat()].concat());
    let enables = action(
        &stage,
        &[&[0, 0, 9][..], &elements[1], &elements[2]].concat(),
    );
    let wrong = action(
        &stage,
        &[&[0, 0, 9][..], &elements[0], &elements[0]].concat(),
    );
    let tpc_request = action(&stage, &[0, 2, 9, 34, 0]);
    let report = action(&stage, &[0, 1, 9, 39, 3, 1, 1, 0]);
    let switch = action(&stage, &[0, 4, 37, 3, 0, 1, 1]);
    for frame in [&all, &enables, &wrong, &tpc_request, &report, &switch] {
        for length in [0, TPC_REPLY - 1, TPC_REPLY, 60] {
            tpc(count, &stage, frame, (1, -1), length);
        }
        for index in (0..=8).chain([255, 256, 65_536, 1 << 32, usize::MAX]) {
            for finding in [
                Finding::Refused,
                Finding::Map(16),
                Finding::Busy(1024),
                Finding::Times([128; 8]),
            ] {
                for clock in [0, 5, 6] {
                    let asked = Asked {
                        clock,
                        index,
                        finding,
                    };
                    measurement_in_some(count, &stage, frame, asked);
                }
            }
        }
    }
}

/// A reply of each length in buffers of every length up to some more.
fn all_lengths(count: &mut Count) {
    let stage = Stage::usual(100);
    for (kind, finding) in [
        (0, Finding::Refused),
        (0, Finding::Map(2)),
        (1, Finding::Busy(3)),
        (2, Finding::Times([1; 8])),
        (2, Finding::Map(2)),
        (3, Finding::Refused),
    ] {
        let frame = request(&stage, kind, 36, 0, 4);
        let asked = Asked {
            clock: 1,
            index: 0,
            finding,
        };
        for length in 0..=MEASUREMENT_REPLIES[2] + 4 {
            measurement(count, &stage, &frame, asked, length);
        }
        // The header's refusals come first, whatever the buffer.
        for cut in 0..=frame.len() {
            measurement(count, &stage, &frame[..cut], asked, 60);
            measurement(count, &stage, &frame[..cut], asked, 0);
            tpc(count, &stage, &frame[..cut], (0, 0), 60);
            tpc(count, &stage, &frame[..cut], (0, 0), 0);
        }
    }
    let long = vec![0xD0; 2337];
    let asked = Asked {
        clock: 1,
        index: 0,
        finding: Finding::Refused,
    };
    for length in [0, 60] {
        measurement(count, &stage, &long, asked, length);
        tpc(count, &stage, &long, (0, 0), length);
    }
}

/// Action bodies that are refused with each number that has an error return.
fn broken() -> Vec<(u8, Vec<u8>)> {
    let bodies: [(u8, &[u8]); 45] = [
        (1, &[0]),
        (1, &[0, 0]),
        (1, &[0, 1]),
        (1, &[0, 2]),
        (1, &[0, 3]),
        (5, &[1]),
        (5, &[127]),
        (5, &[1, 2, 7, 34, 0]),
        (5, &[127, 0, 9, 38, 3, 1, 2, 0]),
        (5, &[0, 5]),
        (5, &[0, 255, 9]),
        (6, &[0, 0, 9, 38]),
        (6, &[0, 0, 9, 38, 3, 1, 2, 0, 38, 3, 2, 2]),
        (6, &[0, 1, 0, 39, 3, 0, 1]),
        (6, &[0, 2, 7, 34]),
        (6, &[0, 3, 0, 35, 2, 0]),
        (6, &[0, 4, 37]),
        (7, &[0, 0, 9]),
        (7, &[0, 1, 0]),
        (7, &[0, 2, 7]),
        (7, &[0, 3, 0]),
        (7, &[0, 4]),
        (8, &[0, 0, 9, 38, 0]),
        (8, &[0, 1, 0, 39, 3, 0, 1, 9, 39, 4, 0, 1, 9, 0]),
        (8, &[0, 2, 7, 34, 1, 0]),
        (8, &[0, 3, 0, 35, 1, 0]),
        (8, &[0, 4, 37, 4, 0, 36, 1, 0]),
        (9, &[0, 0, 0]),
        (9, &[0, 0, 9, 38, 3, 0, 2, 0]),
        (9, &[0, 1, 0, 39, 3, 0, 3, 9]),
        (9, &[0, 2, 0, 34, 0]),
        (9, &[0, 4, 37, 3, 2, 36, 1]),
        (9, &[0, 4, 37, 3, 1, 201, 1]),
        (10, &[0, 0, 9, 38, 3, 1, 2, 0, 38, 3, 1, 2, 0]),
        (10, &[0, 0, 9, 38, 3, 1, 2, 0, 38, 3, 2, 2, 0, 38, 3, 1, 2, 0]),
        (21, &[0, 0, 9, 39, 3, 1, 1, 0]),
        (21, &[0, 0, 9, 38, 3, 1, 2, 0, 37, 0]),
        (21, &[0, 1, 0, 38, 0]),
        (21, &[0, 2, 7, 35, 0]),
        (21, &[0, 3, 0, 34, 2]),
        (21, &[0, 4, 40, 6]),
        (22, &[0, 2, 7, 34, 0, 0]),
        (22, &[0, 2, 7, 34, 0, 34, 0]),
        (22, &[0, 3, 0, 35, 2, 0, 0, 255]),
        (22, &[0, 4, 37, 3, 1, 200, 0, 37]),
    ];
    bodies.iter().map(|&(number, body)| (number, body.to_vec())).collect()
}

/// As many octets as a frame can hold, one less and one more, after bodies that
/// are refused with the same number whatever follows; and a body that is cut
/// that late.
fn long_broken(rng: &mut Rng) -> Vec<(u8, Vec<u8>)> {
    let mut bodies = Vec::new();
    for length in [LONGEST_BODY - 1, LONGEST_BODY, LONGEST_BODY + 1] {
        let too_long = length > LONGEST_BODY;
        for (number, body) in broken() {
            if ![1, 6, 7].contains(&number) {
                let more = rng.octets(length - body.len());
                bodies.push((if too_long { 2 } else { number }, [body, more].concat()));
            }
        }
        for (kind, id) in [(0, 38), (1, 39)] {
            for tail in [&[id][..], &[id, 1], &[id, 3, 250, 2]] {
                let many = measurements(rng, id, length - 3 - tail.len());
                let body = [&[0, kind, 9][..], &many, tail].concat();
                bodies.push((if too_long { 2 } else { 6 }, body));
            }
        }
    }
    bodies
}

/// Both calls, whatever a caller may give them, in buffers of the lengths that
/// reports need and of those that this frame's error return needs.
fn both_calls(count: &mut Count, stage: &Stage, frame: &[u8]) {
    let own = frame.len();
    for length in [0, 31, 32, 44, 51, 60, own - 1, own, own + 1, LONGEST, LONGEST + 9] {
        tpc(count, stage, frame, (-3, 20), length);
        for (clock, index, finding) in [
            (0, 0, Finding::Refused),
            (7, 1, Finding::Busy(u32::MAX)),
            (u32::MAX, usize::MAX, Finding::Map(0xFF)),
            (1, 0, Finding::Times([u32::MAX; 8])),
        ] {
            let asked = Asked {
                clock,
                index,
                finding,
            };
            measurement(count, stage, frame, asked, length);
        }
    }
}

/// Broken bodies of each number, short and long: to the station, to all ones,
/// to a station that takes all ones or its AP for its own address, with
/// something in the free fields of the header, and with a fault in it.
fn error_returns(count: &mut Count, rng: &mut Rng) {
    let usual = Stage::usual(100);
    let mut bodies = broken();
    bodies.extend(long_broken(rng));
    for (number, body) in bodies {
        let frame = action(&usual, &body);
        let library = oneiralth::read_frame(&frame, usual.settings()).err();
        count.library_gives(&library, &Some(number), || {
            format!("number of {}", hex(&frame))
        });
        frames::compare(count, &usual, &frame);
        both_calls(count, &usual, &frame);
        let mut free = frame.clone();
        free[1] = 0b1011_1000;
        free[2..4].copy_from_slice(&[0xAA, 0x55]);
        free[22..24].copy_from_slice(&[0xF0, 0x12]);
        both_calls(count, &usual, &free);
        let mut to_all = frame.clone();
        to_all[4..10].copy_from_slice(&ALL_ONES);
        both_calls(count, &usual, &to_all);
        for own in [ALL_ONES, usual.ap] {
            let stage = Stage { own, ..usual };
            both_calls(count, &stage, &action(&stage, &body));
        }
        // Flags, fragment, each address; a beacon's or another subtype.
        for (place, octet) in [(0, 0x80), (0, 0xC0), (1, 0x40), (4, 0), (10, 0), (16, 0), (22, 1)] {
            let mut other = frame.clone();
            other[place] = octet;
            for length in [0, LONGEST] {
                tpc(count, &usual, &other, (1, 2), length);
                let asked = Asked {
                    clock: 0,
                    index: 0,
                    finding: Finding::Refused,
                };
                measurement(count, &usual, &other, asked, length);
            }
        }
    }
    both_calls(count, &usual, &action(&usual, &[]));
}

/// Every category: alone, before what would be right with category 0, before
/// another action, and before as much as a frame can hold.
fn categories(count: &mut Count, rng: &mut Rng) {
    let stage = Stage::usual(100);
    let long = [vec![2, 7, 34, 0], rng.octets(LONGEST_BODY - 5)].concat();
    for category in 0..=255 {
        for rest in [&[][..], &[2, 7, 34, 0], &[0, 9, 38, 3, 1, 2, 0], &[5, 1], &long] {
            let frame = action(&stage, &[&[category][..], rest].concat());
            let asked = Asked {
                clock: 0,
                index: 0,
                finding: Finding::Refused,
            };
            for length in [0, frame.len() - 1, frame.len(), LONGEST] {
                tpc(count, &stage, &frame, (1, 2), length);
                measurement(count, &stage, &frame, asked, length);
            }
        }
    }
}

/// Times that fit into so many µs, all of them or nearly; or that do not.
pub fn some_times(rng: &mut Rng, limit: u32) -> [u32; 8] {
    let mut left = limit;
    let mut times = [0; 8];
    for time in &mut times {
        *time = match rng.below(3) {
            0 => 0,
            1 => rng.below(u64::from(left) + 1) as u32,
            _ => left / 3,
        };
        left -= *time;
    }
    let last = rng.place(8);
    times[last] = times[last].saturating_add(match rng.below(4) {
        0 => left,
        1 => left.saturating_add(1),
        2 => rng.u32(),
        _ => 0,
    });
    times
}

pub fn some_finding(rng: &mut Rng, duration: u16) -> Finding {
    let limit = TU as u32 * u32::from(duration);
    match rng.below(8) {
        0 => Finding::Refused,
        1 | 2 => Finding::Map(rng.pick(&[0, 1, 15, 16, 17, 32])),
        3 | 4 => {
            let some = rng.below(u64::from(limit) + 1) as u32;
            Finding::Busy(rng.pick(&[0, some, limit, limit + 1]))
        }
        _ => Finding::Times(some_times(rng, limit)),
    }
}

/// The length of a buffer: one of those around reports, or one time in three
/// around what an error return of this frame needs.
pub fn some_length(rng: &mut Rng, frame: &[u8], reports: &[usize]) -> usize {
    if !rng.one_in(3) {
        return rng.pick(reports);
    }
    let own = frame.len();
    rng.pick(&[own.saturating_sub(1), own, own + 1, LONGEST])
}

/// Frames of all sorts, whole, changed and cut. Most ask for nothing, are
/// broken, or are not for the station.
fn at_random(count: &mut Count, rng: &mut Rng) {
    for _ in 0..AT_RANDOM {
        let mut stage = Stage::at_random(rng);
        // The interval takes no part in replies.
        stage.interval = 100;
        let faults = rng.pick(&[0, 0, 0, 60, 20]);
        let mut builder = Builder { rng, stage, faults };
        let mut frame = match builder.rng.below(8) {
            0 => builder.frame(),
            1 | 2 => builder.tpc_request(),
            3 => {
                let length = builder.rng.pick(&[0, 1, 2, 6, 20]);
                let octets = soup(builder.rng, length);
                let category = builder.rng.pick(&[0, 0, 0, 1, 127, 128]);
                let body = [&[category, builder.rng.below(6) as u8][..], &octets].concat();
                action(&stage, &body)
            }
            _ => builder.measurement_request(),
        };
        if rng.one_in(4) {
            mutate(rng, &mut frame);
        }
        let power = (rng.octet() as i8, rng.octet() as i8);
        let length = some_length(rng, &frame, &[0, 30, 31, 32, 60]);
        tpc(count, &stage, &frame, power, length);
        // The duration of the first element, if it has one, so that findings
        // are often possible.
        let duration = match frame.get(HEADER + 17..HEADER + 19) {
            Some(octets) => u16::from_le_bytes([octets[0], octets[1]]),
            None => 0,
        };
        for _ in 0..3 {
            let start = match frame.get(HEADER + 9..HEADER + 17) {
                Some(octets) => octets
                    .iter()
                    .rev()
                    .fold(0, |n, &octet| n << 8 | u64::from(octet)),
                None => 0,
            };
            let near = (start / TU).wrapping_add(rng.below(3)).wrapping_sub(1) as u32;
            let some = rng.u32();
            let asked = Asked {
                clock: rng.pick(&[0, 1, near, some, u32::MAX]),
                index: rng.pick(&[0, 0, 0, 1, 2, 5]),
                finding: some_finding(rng, duration),
            };
            let length = some_length(rng, &frame, &[0, 31, 32, 43, 44, 50, 51, 51, 60, 60]);
            measurement(count, &stage, &frame, asked, length);
        }
    }
}
