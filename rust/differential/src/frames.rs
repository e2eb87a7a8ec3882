//! Frames: the kind, every field, every measurement element by its index, and
//! refusals with the place where the frame broke.

use crate::builder::{
    action, element, header, measured, measurements, mutate, notice, padding, quiet, soup, vendors,
    Builder, Stage, ACTION, ALL_ONES, BEACON, HEADER, LONGEST, LONGEST_BODY, NOTICE,
    PROBE_RESPONSE, VENDOR,
};
use crate::count::{Call, Count, Reader};
use crate::lend::hex;
use crate::pairs;
use crate::raw;
use crate::rng::Rng;
use oneiralth::answers::IMPOSSIBLE;

const SEED: u64 = 0x8021_1000_2003_0001;

/// Frames built at random; each is then changed and cut as well.
const BUILT: usize = 66_000;
/// Bodies at random after a header that is right.
const SOUPS: usize = 150_000;

pub fn run(count: &mut Count) {
    let mut rng = count.begin("frames", SEED);
    header_octets(count);
    addresses(count);
    body_octets(count);
    element_lengths(count);
    intervals(count);
    repeated_elements(count);
    sizes(count, &mut rng);
    full_frames(count, &mut rng);
    last_places(count, &mut rng);
    passed_over(count, &mut rng);
    built(count, &mut rng);
    soups(count, &mut rng);
}

fn input(stage: &Stage, frame: &[u8]) -> String {
    format!(
        "frame {}, own {}, AP {}, B {:04x}",
        hex(frame),
        hex(&stage.own),
        hex(&stage.ap),
        stage.interval
    )
}

/// What the twin read.
type Reading<'a> = Result<&'a twin::Received, u8>;

/// Compares a frame, and its Quiet and measurement elements up to one past the
/// last.
pub fn compare(count: &mut Count, stage: &Stage, frame: &[u8]) {
    compare_with(count, stage, frame, indices);
}

/// Compares a frame, and its Quiet and measurement elements by the indices that
/// are chosen for so many.
fn compare_with(
    count: &mut Count,
    stage: &Stage,
    frame: &[u8],
    indices: impl Fn(usize) -> Vec<usize>,
) {
    let library = oneiralth::read_frame(frame, stage.settings());
    let received = twin::read_frame(frame, stage.own, stage.ap, stage.interval);
    let twin: Reading<'_> = received.as_ref().map_err(|refusal| refusal.number);
    count.values(
        Call::ReadFrame,
        &library,
        &twin.map(pairs::received),
        || input(stage, frame),
    );
    place(count, stage, frame, library.err(), received.as_ref().err());
    let (quiets, requests, reports) = match twin.map(|received| &received.frame) {
        Ok(twin::Frame::Beacon(said) | twin::Frame::ProbeResponse(said)) => (said.quiets.len(), 0, 0),
        Ok(twin::Frame::MeasurementRequest { requests, .. }) => (0, requests.len(), 0),
        Ok(twin::Frame::MeasurementReport { reports, .. }) => (0, 0, reports.len()),
        _ => (0, 0, 0),
    };
    // Where there is none, one frame in eight is asked all the same.
    if quiets > 0 || frame.len() % 8 == 0 {
        for index in indices(quiets) {
            quiet_at(count, stage, frame, twin, index);
        }
    }
    for index in indices(requests) {
        request_at(count, stage, frame, twin, index);
    }
    for index in indices(reports) {
        report_at(count, stage, frame, twin, index);
    }
}

/// Where a frame broke: a place, or the refusal again where it has none; 16 for
/// a frame that is accepted.
fn place(
    count: &mut Count,
    stage: &Stage,
    frame: &[u8],
    refusal: Option<u8>,
    twin: Option<&twin::Refusal>,
) {
    let library = raw::fault_offset(stage, frame);
    let expected = match twin {
        None => Err(IMPOSSIBLE),
        Some(twin) => twin.offset.ok_or(twin.number),
    };
    count.values(Call::FaultOffset, &library, &expected, || {
        format!("place in {}", input(stage, frame))
    });
    if let (Some(refusal), Ok(place)) = (refusal, library) {
        count.note_place(Reader::Ap, refusal, place);
    }
    // The safe call gives the number and the place together.
    let library = oneiralth::fault(frame, stage.settings());
    count.compare(&library, &twin.map(pairs::fault), || {
        format!("fault of {}", input(stage, frame))
    });
}

/// The Quiet element at an index, as the twin keeps it in the order of the
/// frame; one past the last, or of another kind, is 16.
fn quiet_at(count: &mut Count, stage: &Stage, frame: &[u8], twin: Reading<'_>, index: usize) {
    let library = oneiralth::read_quiet(frame, stage.settings(), index);
    let twin = twin.and_then(|received| match &received.frame {
        twin::Frame::Beacon(said) | twin::Frame::ProbeResponse(said) => {
            said.quiets.get(index).copied().map(pairs::quiet).ok_or(IMPOSSIBLE)
        }
        _ => Err(IMPOSSIBLE),
    });
    count.values(Call::ReadElement, &library, &twin, || {
        format!("quiet {:x} of {}", index, input(stage, frame))
    });
}

/// The request at an index. One of a frame of another kind is 16, and one of a
/// refused frame is that frame's refusal (docs/DECISIONS.md, "Frames").
fn request_at(count: &mut Count, stage: &Stage, frame: &[u8], twin: Reading<'_>, index: usize) {
    let library = oneiralth::read_request(frame, stage.settings(), index);
    let twin = twin.and_then(|received| received.frame.request(index).map(pairs::request));
    count.values(Call::ReadElement, &library, &twin, || {
        format!("request {:x} of {}", index, input(stage, frame))
    });
}

/// The report at an index, in the same way.
fn report_at(count: &mut Count, stage: &Stage, frame: &[u8], twin: Reading<'_>, index: usize) {
    let library = oneiralth::read_report(frame, stage.settings(), index);
    let twin = twin.and_then(|received| received.frame.report(index).map(pairs::report));
    count.values(Call::ReadElement, &library, &twin, || {
        format!("report {:x} of {}", index, input(stage, frame))
    });
}

/// The indices that are asked for of so many elements: each of a few, of many
/// the first, the last and some between, always one past the last, and for
/// frames with elements the greatest number that there is.
pub fn indices(elements: usize) -> Vec<usize> {
    let mut indices: Vec<usize> = (0..=elements)
        .filter(|&index| index < 12 || index + 6 > elements || index % 16 == 0)
        .collect();
    if elements > 0 {
        indices.push(usize::MAX);
    }
    indices
}

/// A frame of each kind with some of everything in it, for sweeps.
fn samples(stage: &Stage) -> Vec<Vec<u8>> {
    let elements = [
        element(40, &quiet(1, 2, 300, 4)),
        element(32, &[7]),
        element(38, &[0]),
        element(37, &[1, 200, 3]),
        element(35, &[255, 128]),
        element(40, &quiet(255, 0, 1, stage.interval - 1)),
    ]
    .concat();
    let requests = [
        element(
            38,
            &measured([1, 0b1100, 0], 200, 0x0102_0304_0506_0708, 0x0A0B),
        ),
        element(38, &[2, 0b1010, 3]),
        element(38, &[3, 0, 9, 4, 5]),
        element(38, &measured([4, 0, 2], 36, 0, 1)),
    ]
    .concat();
    let basic = [measured([1, 0, 0], 1, 2, 3), vec![0b1111]].concat();
    let cca = [measured([1, 0b1000, 1], 200, 2, 3), vec![255]].concat();
    let rpi = [measured([0, 0, 2], 9, 8, 7), vec![1, 2, 3, 4, 5, 6, 7, 8]].concat();
    let reports = [
        element(39, &basic),
        element(39, &[0, 0b100, 77]),
        element(39, &cca),
        element(39, &[6, 0, 200, 1]),
        element(39, &rpi),
    ]
    .concat();
    vec![
        notice(stage, BEACON, &elements),
        notice(stage, PROBE_RESPONSE, &elements),
        action(stage, &[&[0, 0, 5][..], &requests].concat()),
        action(stage, &[&[0, 1, 0][..], &reports].concat()),
        action(stage, &[0, 2, 9, 34, 0]),
        action(stage, &[0, 3, 0, 35, 2, 128, 127]),
        action(stage, &[0, 4, 37, 3, 0, 200, 0]),
    ]
}

/// Every value of each octet of the header but the addresses.
fn header_octets(count: &mut Count) {
    let stage = Stage::usual(100);
    for sample in samples(&stage) {
        for place in [0, 1, 2, 3, 22, 23] {
            for value in 0..=255 {
                let mut frame = sample.clone();
                frame[place] = value;
                compare(count, &stage, &frame);
            }
        }
    }
}

/// Each address with each bit changed, and the addresses in each other's
/// places, for stations of several addresses.
fn addresses(count: &mut Count) {
    let usual = Stage::usual(100);
    let group = [0x01, 0, 0, 0, 0, 0x80];
    for stage in [
        usual,
        Stage {
            own: ALL_ONES,
            ..usual
        },
        Stage {
            ap: ALL_ONES,
            ..usual
        },
        Stage {
            own: usual.ap,
            ..usual
        },
        Stage {
            own: group,
            ap: group,
            ..usual
        },
        Stage {
            own: [0; 6],
            ..usual
        },
    ] {
        for sample in samples(&stage) {
            for bit in 0..18 * 8 {
                for da in [stage.own, ALL_ONES] {
                    let mut frame = sample.clone();
                    frame[4..10].copy_from_slice(&da);
                    frame[4 + bit / 8] ^= 1 << (bit % 8);
                    compare(count, &stage, &frame);
                }
            }
            let all = [stage.own, stage.ap, ALL_ONES, usual.own, usual.ap, [0; 6]];
            for da in all {
                for sa in all {
                    for bssid in all {
                        let mut frame = sample.clone();
                        frame[4..10].copy_from_slice(&da);
                        frame[10..16].copy_from_slice(&sa);
                        frame[16..22].copy_from_slice(&bssid);
                        compare(count, &stage, &frame);
                    }
                }
            }
        }
    }
}

/// Every value of each octet of the body, and each sample cut at every length:
/// categories, actions, tokens, modes, types, channels, maps, lengths.
fn body_octets(count: &mut Count) {
    let stage = Stage::usual(100);
    for sample in samples(&stage) {
        for place in HEADER..sample.len() {
            for value in 0..=255 {
                let mut frame = sample.clone();
                frame[place] = value;
                compare(count, &stage, &frame);
            }
        }
        for length in 0..=sample.len() {
            compare(count, &stage, &sample[..length]);
        }
    }
}

/// Each ID in each place, with every length, and with contents that are as
/// long as it says, or one octet shorter or longer.
fn element_lengths(count: &mut Count) {
    let stage = Stage::usual(100);
    let openings: [Vec<u8>; 6] = [
        notice(&stage, BEACON, &[]),
        action(&stage, &[0, 0, 1]),
        action(&stage, &[0, 1, 1]),
        action(&stage, &[0, 2, 1]),
        action(&stage, &[0, 3, 1]),
        action(&stage, &[0, 4]),
    ];
    // Token 1, each mode that decides a length, types 0 to 3; the other octets
    // are small enough to be allowed everywhere.
    let mut heads = Vec::new();
    for mode in [0, 1, 2, 3, 4, 6] {
        for kind in [0, 1, 2, 3] {
            heads.push([1, mode, kind]);
        }
    }
    for opening in &openings {
        for id in [0, 32, 34, 35, 36, 37, 38, 39, 40, 255] {
            // The head matters to measurement elements alone.
            let heads = if id == 38 || id == 39 {
                &heads[..]
            } else {
                &heads[..1]
            };
            for head in heads {
                for length in 0..=255usize {
                    if heads.len() > 1 && (27..254).contains(&length) {
                        continue;
                    }
                    for more in 0..3 {
                        let mut contents = head.to_vec();
                        contents.resize(256, 1);
                        contents.truncate((length + more).saturating_sub(1));
                        let mut frame = opening.clone();
                        frame.extend_from_slice(&[id, length as u8]);
                        frame.extend_from_slice(&contents);
                        compare(count, &stage, &frame);
                    }
                }
            }
        }
    }
}

/// Beacons of each interval against stations of each, and Quiet offsets around
/// the limit.
fn intervals(count: &mut Count) {
    let all = [
        0, 1, 2, 99, 100, 101, 255, 256, 25_600, 32_767, 65_534, 65_535,
    ];
    for interval in all {
        let stage = Stage::usual(interval);
        for other in all {
            let mut frame = notice(&stage, BEACON, &[40, 0]);
            frame[HEADER + 8..HEADER + 10].copy_from_slice(&other.to_le_bytes());
            compare(count, &stage, &frame);
            compare(count, &stage, &frame[..HEADER + 12]);
            compare(count, &stage, &frame[..HEADER + 11]);
        }
        let below = interval.wrapping_sub(1);
        for offset in [0, 1, below, interval, interval.wrapping_add(1), 65_535] {
            for quiet_count in [0, 1, 255] {
                for period in [0, 255] {
                    for duration in [0, 1, 65_535] {
                        let contents = quiet(quiet_count, period, duration, offset);
                        let frame = notice(&stage, PROBE_RESPONSE, &element(40, &contents));
                        compare(count, &stage, &frame);
                    }
                }
            }
        }
    }
}

/// One to ten Quiet elements, each told by its offset, with elements that may
/// come once and come twice before, among or after them.
fn repeated_elements(count: &mut Count) {
    let stage = Stage::usual(100);
    for quiets in 0..=10u8 {
        let quiets: Vec<Vec<u8>> = (0..quiets)
            .map(|place| element(40, &quiet(1 + place, place, 500, u16::from(place))))
            .collect();
        compare(count, &stage, &notice(&stage, BEACON, &quiets.concat()));
        for once in [
            vec![32, 1, 3],
            vec![35, 2, 4, 5],
            vec![37, 3, 0, 6, 7],
            vec![33, 1, 8],
        ] {
            for first in 0..=quiets.len() {
                for second in first..=quiets.len() {
                    let mut elements = quiets.clone();
                    elements.insert(second, once.clone());
                    elements.insert(first, once.clone());
                    compare(count, &stage, &notice(&stage, BEACON, &elements.concat()));
                }
            }
        }
    }
}

/// Frames of every length up to past the longest: zeros, beacons that are all
/// right, and Measurement Reports that are until the octets run out.
fn sizes(count: &mut Count, rng: &mut Rng) {
    let stage = Stage::usual(100);
    let pad = padding(rng, LONGEST + 10);
    let beacon = notice(&stage, BEACON, &pad);
    let mut report = action(&stage, &[0, 1, 7]);
    while report.len() < LONGEST + 10 {
        report.extend_from_slice(&element(39, &[7, 1, 7]));
    }
    for length in 0..=LONGEST + 4 {
        // A frame with a fault in its header: over the length limit that is
        // found first, under it second.
        let mut other = beacon[..length].to_vec();
        if let Some(first) = other.first_mut() {
            *first ^= 1;
        }
        compare(count, &stage, &other);
        compare(count, &stage, &beacon[..length]);
        if length % 3 == 0 || length + 8 > LONGEST {
            compare(count, &stage, &report[..length]);
        }
    }
    for length in [65_535, 65_536, 65_560, 131_072] {
        compare(count, &stage, &vec![0x80; length]);
    }
}

/// Frames that have the longest length exactly and are accepted, one octet
/// less and one more; and every element of theirs by its index.
fn full_frames(count: &mut Count, rng: &mut Rng) {
    let stage = Stage::at_random(rng);
    for length in [LONGEST - 1, LONGEST, LONGEST + 1] {
        let open = notice(&stage, BEACON, &[]);
        let pad = padding(rng, length - open.len());
        compare(count, &stage, &notice(&stage, BEACON, &pad));
        for spare in [5, 8, 11, 100] {
            // So many octets for a last element of a type over 2.
            let mut requests = action(&stage, &[0, 0, 255]);
            let mut token = 0;
            while requests.len() + 16 + spare <= length {
                token += 1;
                let contents = measured([token, 0, token % 3], token, u64::from(token), 1);
                requests.extend_from_slice(&element(38, &contents));
            }
            let rest = length - requests.len() - 2;
            let last = [vec![255, 0, 3], rng.octets(rest - 3)].concat();
            requests.extend_from_slice(&element(38, &last));
            every_element(count, &stage, &requests);
            let mut reports = action(&stage, &[0, 1, 0]);
            while reports.len() + 5 + spare <= length {
                let excuse = rng.pick(&[1, 2, 4]);
                reports.extend_from_slice(&element(39, &[rng.octet(), excuse, rng.octet()]));
            }
            let rest = length - reports.len() - 2;
            let last = [vec![0, 0, 3], rng.octets(rest - 3)].concat();
            reports.extend_from_slice(&element(39, &last));
            every_element(count, &stage, &reports);
        }
    }
}

/// Frames of the longest length, one octet less and one more, that are all
/// right up to their last octets: the last places that there are.
fn last_places(count: &mut Count, rng: &mut Rng) {
    let stage = Stage::usual(100);
    for length in [LONGEST - 1, LONGEST, LONGEST + 1] {
        let quiets = element(40, &quiet(1, 0, 1, 0)).repeat(8);
        let front = [&[32, 1, 3, 35, 2, 0, 0, 37, 3, 0, 36, 1][..], &quiets].concat();
        let tails: [&[u8]; 13] = [
            &[],
            &[32],
            &[33],
            &[32, 0],
            &[33, 0],
            &[33, 1],
            &[40, 0],
            &[32, 1, 3],
            &[35, 2, 0, 0],
            &[37, 3, 2, 36, 1],
            &[37, 3, 1, 36, 1],
            &[40, 6, 1, 0, 1, 0, 0, 0],
            &[40, 6, 0, 0, 1, 0, 0, 0],
        ];
        for subtype in [BEACON, PROBE_RESPONSE] {
            for tail in tails {
                let pad = padding(rng, length - NOTICE - front.len() - tail.len());
                let elements = [&front[..], &pad, tail].concat();
                compare(count, &stage, &notice(&stage, subtype, &elements));
            }
        }
        for (kind, id, other) in [(0, 38, 39), (1, 39, 38)] {
            let tails: [&[u8]; 11] = [
                &[],
                &[id],
                &[other],
                &[id, 0],
                &[other, 0],
                &[id, 1],
                &[other, 1],
                // A token of 0, an excuse and another, a token again.
                &[id, 3, 0, 2, 0],
                &[id, 3, 0, 3, 0],
                &[id, 3, 1, 2, 0],
                &[id, 3, 99, 2],
            ];
            for tail in tails {
                let pad = measurements(rng, id, length - HEADER - 3 - tail.len());
                let body = [&[0, kind, 1][..], &pad, tail].concat();
                compare(count, &stage, &action(&stage, &body));
            }
        }
        // As much left over as there can be, and as many vendors' elements.
        let most = LONGEST_BODY + length - LONGEST;
        for body in SOUND {
            let mut left = body.to_vec();
            left.resize(most, 34);
            compare(count, &stage, &action(&stage, &left));
            for tail in VENDOR_TAILS {
                let pad = vendors(rng, most - body.len() - tail.len());
                compare(count, &stage, &action(&stage, &[body, &pad, tail].concat()));
            }
        }
    }
}

/// An action body of each kind.
const SOUND: [&[u8]; 5] = [
    &[0, 0, 1, 38, 3, 1, 2, 0],
    &[0, 1, 0, 39, 3, 0, 1, 0],
    &[0, 2, 1, 34, 0],
    &[0, 3, 0, 35, 2, 0, 0],
    &[0, 4, 37, 3, 0, 36, 1],
];

/// What can stand last, after vendors' elements.
const VENDOR_TAILS: [&[u8]; 9] = [
    &[],
    &[VENDOR],
    &[VENDOR, 0],
    &[VENDOR, 1],
    &[VENDOR + 1],
    &[VENDOR + 1, 0],
    &[38, 3, 2, 2, 0],
    &[39, 3, 1, 1, 0],
    &[34],
];

/// Each ID, whole, cut in its contents and in its header, before, between and
/// after the elements of each action body; and vendors' elements between
/// measurements, by every index.
fn passed_over(count: &mut Count, rng: &mut Rng) {
    let stage = Stage::usual(100);
    for body in SOUND {
        let fields = if body[1] == 4 { 2 } else { 3 };
        let (fixed, own) = body.split_at(fields);
        for id in 0..=255 {
            for other in [&[id, 2, 34, 0][..], &[id, 0], &[id, 1], &[id]] {
                for run in [
                    [other, own].concat(),
                    [own, other].concat(),
                    [own, other, own].concat(),
                    [own, other, other].concat(),
                    [own, &[VENDOR, 0], other].concat(),
                ] {
                    compare(count, &stage, &action(&stage, &[fixed, &run].concat()));
                }
            }
        }
    }
    for (kind, id) in [(0, 38), (1, 39)] {
        for most in [0, 2, 3, 40, 300] {
            let mut body = vec![0, kind, 1];
            for token in 1..=20 {
                body.extend_from_slice(&element(id, &[token, 2, token]));
                let length = rng.place(most + 1);
                body.extend_from_slice(&vendors(rng, length));
            }
            body.truncate(LONGEST_BODY);
            every_element(count, &stage, &action(&stage, &body));
        }
    }
}

/// As `compare`, but with every index up to some past the most elements that a
/// frame can have.
fn every_element(count: &mut Count, stage: &Stage, frame: &[u8]) {
    compare_with(count, stage, frame, |_| (0..LONGEST / 5 + 5).collect());
}

/// Frames built at random: without fault, with some, changed, extended, and
/// cut, short ones at every length.
fn built(count: &mut Count, rng: &mut Rng) {
    for _ in 0..BUILT {
        let stage = Stage::at_random(rng);
        let faults = rng.pick(&[0, 0, 60, 25, 10]);
        let frame = Builder { rng, stage, faults }.frame();
        compare(count, &stage, &frame);
        for _ in 0..4 {
            let mut changed = frame.clone();
            mutate(rng, &mut changed);
            compare(count, &stage, &changed);
        }
        let mut longer = frame.clone();
        let more = rng.pick(&[1, 2, 3, 30, LONGEST]);
        longer.extend_from_slice(&soup(rng, more));
        compare(count, &stage, &longer);
        // A cut header is 1 whatever else there is, which the sweeps have shown.
        let first = HEADER.min(frame.len());
        if frame.len() < 100 && rng.one_in(3) {
            for length in first..frame.len() {
                compare(count, &stage, &frame[..length]);
            }
        } else {
            for _ in 0..4 {
                let length = first + rng.place(frame.len() - first + 1);
                compare(count, &stage, &frame[..length]);
            }
        }
        // The same frame as another station hears it.
        let other = Stage::at_random(rng);
        for elsewhere in [
            Stage {
                own: other.own,
                ..stage
            },
            Stage {
                interval: other.interval,
                ..stage
            },
        ] {
            compare(count, &elsewhere, &frame);
        }
    }
}

/// Octets at random after a header that is right, so that a body of any sort
/// is met, and alone.
fn soups(count: &mut Count, rng: &mut Rng) {
    for _ in 0..SOUPS {
        let stage = Stage::at_random(rng);
        let length = rng.pick(&[1, 4, 12, 24, 60, 60, 300]);
        let length = rng.place(length + 1);
        let octets = soup(rng, length);
        let frame = match rng.below(6) {
            0 => octets,
            1 => notice(&stage, rng.pick(&[BEACON, PROBE_RESPONSE]), &octets),
            2 => action(&stage, &[&[0, rng.below(5) as u8][..], &octets].concat()),
            3 => action(&stage, &[&[0, rng.below(4) as u8, 1][..], &octets].concat()),
            _ => {
                let subtype = rng.pick(&[BEACON, PROBE_RESPONSE, ACTION]);
                let mut frame = header(&stage, subtype, rng.pick(&[stage.own, ALL_ONES]));
                frame.extend_from_slice(&octets);
                frame
            }
        };
        compare(count, &stage, &frame);
    }
}
