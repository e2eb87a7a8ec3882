//! Frames as a station of an IBSS reads them (document 02, Five): from any
//! sender, with the element 41 of a beacon and its pairs by index; and element
//! 41 written, into buffers of every length.

use crate::builder::{
    action, address, element, header, measurements, mutate, notice, quiet, soup, vendors, Address,
    Builder, Stage, ACTION, ALL_ONES, BEACON, HEADER, LONGEST, NOTICE, PROBE_RESPONSE, VENDOR,
};
use crate::count::{Call, Count, Reader};
use crate::elements::Writers;
use crate::frames;
use crate::lend::{hex, lend};
use crate::pairs;
use crate::raw;
use crate::rng::Rng;
use oneiralth::answers::{BUFFER_SHORT, IMPOSSIBLE};
use oneiralth::places;

const SEED: u64 = 0x8021_1000_2003_0007;

/// Frames built at random; each is then changed and cut as well.
const BUILT: usize = 60_000;
/// Bodies at random after a header that is right.
const SOUPS: usize = 100_000;
/// Elements 41 with any owner, interval and pairs.
const WRITTEN: usize = 4_000;

/// The ID of the IBSS DFS element, and the octets of the shortest one.
const DFS: u8 = 41;
const SHORTEST: usize = 9;
/// The most octets of pairs that an element holds.
const MOST_PAIRS: usize = 248;

/// The ID of no element that an action body has, nor of a vendor's.
const NO_ELEMENT: u8 = 222;

/// An individual address that is neither the station's nor the BSSID.
const PEER: Address = [0x06, 1, 2, 3, 4, 5];
const OWNER: Address = [0x0E, 9, 8, 7, 6, 5];
const GROUP: Address = [0x01, 0, 0x5E, 0, 0, 1];

pub fn run(count: &mut Count) {
    let mut rng = count.begin("ibss", SEED);
    headers(count);
    addresses(count);
    octets(count);
    lengths(count);
    values(count);
    twice(count);
    intervals(count);
    every_pair(count);
    short_buffers(count);
    last_places(count, &mut rng);
    built(count, &mut rng);
    soups(count, &mut rng);
    written_lengths(count, &mut rng);
    written_values(count, &mut rng);
}

fn input(stage: &Stage, frame: &[u8]) -> String {
    format!(
        "frame {}, own {}, BSSID {}, B {:04x}",
        hex(frame),
        hex(&stage.own),
        hex(&stage.ap),
        stage.interval
    )
}

/// A frame from another sender. One that is cut before its end stays so.
fn from(sender: Address, mut frame: Vec<u8>) -> Vec<u8> {
    if let Some(sa) = frame.get_mut(10..16) {
        sa.copy_from_slice(&sender);
    }
    frame
}

/// An element 41 with so many octets of pairs, all of them different enough.
fn dfs(owner: Address, recovery: u8, pairs: usize) -> Vec<u8> {
    let mut contents = owner.to_vec();
    contents.push(recovery);
    contents.extend((0..pairs).map(|place| (place as u8).wrapping_mul(37) ^ 0x5A));
    element(DFS, &contents)
}

/// What the twin read.
type Reading<'a> = Result<&'a twin::IbssReceived, u8>;

/// Compares a frame, where it broke, and its Quiet elements and pairs up to one
/// past the last.
fn compare(count: &mut Count, stage: &Stage, frame: &[u8]) {
    compare_with(count, stage, frame, frames::indices);
}

fn compare_with(
    count: &mut Count,
    stage: &Stage,
    frame: &[u8],
    indices: impl Fn(usize) -> Vec<usize>,
) {
    let library = oneiralth::read_ibss_frame(frame, stage.in_ibss());
    let received = twin::read_ibss_frame(frame, stage.own, stage.ap, stage.interval);
    let twin: Reading<'_> = received.as_ref().map_err(|refusal| refusal.number);
    count.values(
        Call::ReadIbss,
        &library,
        &twin.map(pairs::ibss_received),
        || input(stage, frame),
    );
    place(count, stage, frame, library.err(), received.as_ref().err());
    let quiets = twin.map_or(0, |received| quiets_of(received).len());
    let pairs = twin.map_or(0, |received| {
        received.dfs.as_ref().map_or(0, |dfs| dfs.pairs.len())
    });
    // Where there is none, one frame in four is asked all the same.
    if quiets > 0 || frame.len() % 4 == 0 {
        for index in indices(quiets) {
            quiet_at(count, stage, frame, twin, index);
        }
    }
    if pairs > 0 || frame.len() % 4 == 1 {
        for index in indices(pairs) {
            pair_at(count, stage, frame, twin, index);
        }
    }
}

/// Where a frame broke, as with document 01's reader.
fn place(
    count: &mut Count,
    stage: &Stage,
    frame: &[u8],
    refusal: Option<u8>,
    twin: Option<&twin::Refusal>,
) {
    let library = raw::ibss_fault_offset(stage, frame);
    let expected = match twin {
        None => Err(IMPOSSIBLE),
        Some(twin) => twin.offset.ok_or(twin.number),
    };
    count.values(Call::IbssOffset, &library, &expected, || {
        format!("place in {}", input(stage, frame))
    });
    if let (Some(refusal), Ok(place)) = (refusal, library) {
        count.note_place(Reader::Ibss, refusal, place);
        if is_dfs_fault(frame, refusal, place) {
            count.note_place(Reader::Dfs, refusal, place);
        }
    }
    let library = oneiralth::ibss_fault(frame, stage.in_ibss());
    count.compare(&library, &twin.map(pairs::fault), || {
        format!("fault of {}", input(stage, frame))
    });
}

/// Whether it is an element 41 that broke a beacon: 6, 8, 9 and 10 are told at
/// the element's ID octet.
fn is_dfs_fault(frame: &[u8], refusal: u8, place: usize) -> bool {
    let of_element = [6, 8, 9, 10].contains(&refusal) && place >= NOTICE;
    of_element && frame[0] >> 4 == BEACON && frame.get(place) == Some(&DFS)
}

fn quiets_of(received: &twin::IbssReceived) -> &[twin::Quiet] {
    match &received.frame {
        twin::Frame::Beacon(said) | twin::Frame::ProbeResponse(said) => &said.quiets,
        _ => &[],
    }
}

fn quiet_at(count: &mut Count, stage: &Stage, frame: &[u8], twin: Reading<'_>, index: usize) {
    let library = oneiralth::read_ibss_quiet(frame, stage.in_ibss(), index);
    let twin = twin.and_then(|received| {
        let quiet = quiets_of(received).get(index).copied();
        quiet.map(pairs::quiet).ok_or(IMPOSSIBLE)
    });
    count.values(Call::IbssQuiet, &library, &twin, || {
        format!("quiet {:x} of {}", index, input(stage, frame))
    });
}

fn pair_at(count: &mut Count, stage: &Stage, frame: &[u8], twin: Reading<'_>, index: usize) {
    let library = oneiralth::read_dfs_pair(frame, stage.in_ibss(), index);
    let twin = twin.and_then(|received| received.pair(index).map(pairs::pair));
    count.values(Call::DfsPair, &library, &twin, || {
        format!("pair {:x} of {}", index, input(stage, frame))
    });
}

/// A frame of each kind, from a peer; beacon and probe response have an element
/// 41 between the others.
fn samples(stage: &Stage) -> Vec<Vec<u8>> {
    let elements = [
        element(40, &quiet(1, 2, 300, 4)),
        element(32, &[7]),
        dfs(OWNER, 3, 6),
        element(37, &[1, 200, 3]),
        element(35, &[255, 128]),
        element(40, &quiet(255, 0, 1, stage.interval - 1)),
    ]
    .concat();
    [
        notice(stage, BEACON, &elements),
        notice(stage, PROBE_RESPONSE, &elements),
        notice(stage, BEACON, &dfs(PEER, 1, 0)),
        action(stage, &[0, 0, 5, 38, 3, 2, 2, 0]),
        action(stage, &[0, 1, 0, 39, 3, 1, 1, 0]),
        action(stage, &[0, 2, 9, 34, 0]),
        action(stage, &[0, 3, 0, 35, 2, 128, 127]),
        action(stage, &[0, 4, 37, 3, 0, 200, 0]),
    ]
    .into_iter()
    .map(|frame| from(PEER, frame))
    .collect()
}

/// Every value of each octet of the header but the addresses.
fn headers(count: &mut Count) {
    let stage = Stage::usual(100);
    for sample in samples(&stage) {
        for place in [0, 1, 2, 3, 22, 23] {
            for value in 0..=255 {
                let mut frame = sample.clone();
                frame[place] = value;
                compare(count, &stage, &frame);
            }
        }
    }
}

/// Each address with each bit changed, each first octet of a sender, and the
/// addresses in each other's places, for stations of several addresses.
fn addresses(count: &mut Count) {
    let usual = Stage::usual(100);
    let stages = [
        usual,
        Stage {
            own: ALL_ONES,
            ..usual
        },
        Stage {
            ap: ALL_ONES,
            ..usual
        },
        Stage {
            own: usual.ap,
            ..usual
        },
        Stage {
            own: GROUP,
            ap: GROUP,
            ..usual
        },
        Stage {
            own: [0; 6],
            ap: [0; 6],
            ..usual
        },
    ];
    for stage in stages {
        for sample in samples(&stage) {
            for bit in 0..18 * 8 {
                for da in [stage.own, ALL_ONES] {
                    let mut frame = sample.clone();
                    frame[4..10].copy_from_slice(&da);
                    frame[4 + bit / 8] ^= 1 << (bit % 8);
                    compare(count, &stage, &frame);
                }
            }
            for first in 0..=255 {
                let mut frame = sample.clone();
                frame[10] = first;
                compare(count, &stage, &frame);
            }
            let all = [stage.own, stage.ap, ALL_ONES, GROUP, PEER, usual.ap, [0; 6]];
            for da in all {
                for sa in all {
                    for bssid in all {
                        let mut frame = sample.clone();
                        frame[4..10].copy_from_slice(&da);
                        frame[10..16].copy_from_slice(&sa);
                        frame[16..22].copy_from_slice(&bssid);
                        compare(count, &stage, &frame);
                    }
                }
            }
        }
    }
}

/// Every value of each octet of the body, and each sample cut at every length.
fn octets(count: &mut Count) {
    let stage = Stage::usual(100);
    for sample in samples(&stage) {
        for place in HEADER..sample.len() {
            for value in 0..=255 {
                let mut frame = sample.clone();
                frame[place] = value;
                compare(count, &stage, &frame);
            }
        }
        for length in 0..=sample.len() {
            compare(count, &stage, &sample[..length]);
        }
    }
}

/// Elements of a beacon in which one more stands first, between or last.
fn around(more: &[u8]) -> [Vec<u8>; 4] {
    let (front, back) = (element(32, &[7]), element(40, &quiet(1, 0, 1, 0)));
    [
        more.to_vec(),
        [more, &front, &back].concat(),
        [&front, more, &back].concat(),
        [&front, &back, more].concat(),
    ]
}

/// Element 41 of every length, with contents as long as it says, one octet
/// shorter or longer, at each place; document 01's reader skips it.
fn lengths(count: &mut Count) {
    let stage = Stage::usual(100);
    for length in 0..=255usize {
        for more in 0..3 {
            for recovery in [0, 1, 255] {
                let mut dfs = dfs(OWNER, recovery, MOST_PAIRS + 2);
                dfs.truncate(2 + (length + more).saturating_sub(1));
                dfs[1] = length as u8;
                for subtype in [BEACON, PROBE_RESPONSE] {
                    for elements in around(&dfs) {
                        let frame = notice(&stage, subtype, &elements);
                        frames::compare(count, &stage, &frame);
                        compare(count, &stage, &from(PEER, frame));
                    }
                }
            }
        }
    }
}

/// Every interval, every first octet of an owner, and both wrong.
fn values(count: &mut Count) {
    let stage = Stage::usual(100);
    for value in 0..=255 {
        let owner = |first: u8| [first, 0, 0x5E, 1, 2, 3];
        for (owner, recovery) in [
            (OWNER, value),
            (GROUP, value),
            (owner(value), 1),
            (owner(value), 0),
            ([value; 6], value),
        ] {
            for pairs in [0, 2, 7] {
                let dfs = dfs(owner, recovery, pairs);
                for subtype in [BEACON, PROBE_RESPONSE] {
                    for elements in around(&dfs) {
                        compare(
                            count,
                            &stage,
                            &from(PEER, notice(&stage, subtype, &elements)),
                        );
                    }
                }
            }
        }
    }
}

/// Two elements 41, each right or wrong, with up to ten Quiet elements and
/// another element between or around them.
fn twice(count: &mut Count) {
    let stage = Stage::usual(100);
    let kinds = [
        dfs(OWNER, 3, 4),
        dfs(PEER, 1, 0),
        dfs(OWNER, 0, 2),
        dfs(GROUP, 9, 2),
        dfs(OWNER, 3, 3),
        vec![DFS, 0],
        vec![DFS, 9, 1],
        vec![DFS],
    ];
    for quiets in 0..=10u8 {
        let others: Vec<Vec<u8>> = (0..quiets)
            .map(|place| element(40, &quiet(1 + place, place, 500, u16::from(place))))
            .chain([element(37, &[0, 36, 1])])
            .collect();
        for one in &kinds {
            for other in &kinds {
                for first in 0..=others.len() {
                    for second in first..=others.len() {
                        let mut elements = others.clone();
                        elements.insert(second, other.clone());
                        elements.insert(first, one.clone());
                        let frame = notice(&stage, BEACON, &elements.concat());
                        compare(count, &stage, &from(PEER, frame));
                    }
                }
            }
        }
    }
}

/// Beacons of each interval against stations of each, with a whole element 41
/// and with a broken one.
fn intervals(count: &mut Count) {
    let all = [0, 1, 2, 99, 100, 101, 255, 256, 25_600, 65_534, 65_535];
    for interval in all {
        let stage = Stage::usual(interval);
        for other in all {
            for dfs in [dfs(OWNER, 3, 4), vec![DFS, 3, 0, 0, 0]] {
                for subtype in [BEACON, PROBE_RESPONSE] {
                    let mut frame = from(PEER, notice(&stage, subtype, &dfs));
                    frame[HEADER + 8..HEADER + 10].copy_from_slice(&other.to_le_bytes());
                    compare(count, &stage, &frame);
                }
            }
        }
    }
}

/// Elements 41 with every number of pairs, each pair by its index, and indices
/// past the last.
fn every_pair(count: &mut Count) {
    let stage = Stage::usual(100);
    for octets in 0..=MOST_PAIRS {
        for subtype in [BEACON, PROBE_RESPONSE] {
            let elements = [element(32, &[7]), dfs(OWNER, 3, octets), element(33, &[1])].concat();
            let frame = from(PEER, notice(&stage, subtype, &elements));
            let far = [
                1 << 31,
                1 << 32,
                1 << 62,
                1 << 63,
                usize::MAX - 3,
                usize::MAX,
            ];
            compare_with(count, &stage, &frame, |many| {
                (0..many + 3).chain(far).collect()
            });
        }
    }
}

/// The octets of a frame as the table of docs/BOUNDARY.md has them, from the
/// twin's reading.
fn laid(received: &twin::IbssReceived) -> Vec<u8> {
    let (mut kind, mut token, mut elements) = (0, 0, 0);
    let (mut report, mut switch) = (None, None);
    let mut said: Option<&twin::Notice> = None;
    match &received.frame {
        twin::Frame::Beacon(notice) => said = Some(notice),
        twin::Frame::ProbeResponse(notice) => (kind, said) = (1, Some(notice)),
        twin::Frame::MeasurementRequest {
            token: of,
            requests,
        } => {
            (kind, token, elements) = (2, *of, requests.len());
        }
        twin::Frame::MeasurementReport { token: of, reports } => {
            (kind, token, elements) = (3, *of, reports.len());
        }
        twin::Frame::TpcRequest { token: of } => (kind, token) = (4, *of),
        twin::Frame::TpcReport {
            token: of,
            power,
            margin,
        } => {
            (kind, token, report) = (5, *of, Some((*power, *margin)));
        }
        twin::Frame::ChannelSwitch(told) => (kind, switch) = (6, Some(*told)),
    }
    if let Some(notice) = said {
        (report, switch) = (notice.tpc_report, notice.switch);
    }
    let mut out = vec![kind, u8::from(received.broadcast), token];
    out.extend_from_slice(&(elements as u64).to_le_bytes());
    let quiets = said.map_or(0, |notice| notice.quiets.len());
    out.extend_from_slice(&(quiets as u64).to_le_bytes());
    out.extend_from_slice(&said.map_or(0, |notice| notice.timestamp).to_le_bytes());
    out.extend_from_slice(&said.map_or(0, |notice| notice.capability).to_le_bytes());
    let constraint = said.and_then(|notice| notice.constraint);
    out.extend_from_slice(&constraint.map_or([0, 0], |value| [1, value]));
    out.extend_from_slice(&report.map_or([0; 3], |(power, margin)| [1, power as u8, margin as u8]));
    out.extend_from_slice(&switch.map_or([0; 4], |told| [1, told.mode, told.channel, told.count]));
    out.extend_from_slice(&received.sender);
    let dfs = received.dfs.as_ref();
    out.push(u8::from(dfs.is_some()));
    out.extend_from_slice(&dfs.map_or([0; 6], |dfs| dfs.owner));
    out.push(dfs.map_or(0, |dfs| dfs.recovery));
    out.extend_from_slice(&dfs.map_or(0, |dfs| dfs.pairs.len() as u64).to_le_bytes());
    out
}

/// Puts octets into a buffer, or refuses one that is too short.
fn put(octets: &[u8], out: &mut [u8]) -> Result<usize, u8> {
    let place = out.get_mut(..octets.len()).ok_or(BUFFER_SHORT)?;
    place.copy_from_slice(octets);
    Ok(octets.len())
}

/// The exported calls themselves, in buffers of every length up to some octets
/// more than needed: the frame's refusal comes before a short buffer's, and a
/// refusal leaves every octet. Frames of every refusal are among them.
fn short_buffers(count: &mut Count) {
    let stage = Stage::usual(100);
    let mut frames = samples(&stage);
    for sample in samples(&stage) {
        for length in [0, 23, 24, 26, 27, 35, 37, sample.len() - 1] {
            frames.push(sample[..length.min(sample.len())].to_vec());
        }
        for (place, value) in [(0, 0x81), (10, 1), (24, 1), (HEADER + 8, 7)] {
            let mut frame = sample.clone();
            if let Some(octet) = frame.get_mut(place) {
                *octet = value;
            }
            frames.push(frame);
        }
        frames.push([&sample[..], &[0; LONGEST]].concat());
        frames.push([&sample[..], &[0]].concat());
    }
    let quiets = element(40, &quiet(1, 0, 1, 0)).repeat(9);
    for elements in [
        dfs(OWNER, 0, 2),
        dfs(OWNER, 1, 1),
        dfs(OWNER, 1, 2).repeat(2),
        quiets,
    ] {
        frames.push(from(PEER, notice(&stage, BEACON, &elements)));
    }
    frames.push(from(PEER, action(&stage, &[0, 2, 1, 33, 0])));
    frames.push(from(PEER, action(&stage, &[0, 2, 1])));
    for frame in &frames {
        in_short_buffers(count, &stage, frame);
    }
}

fn in_short_buffers(count: &mut Count, stage: &Stage, frame: &[u8]) {
    let received = twin::read_ibss_frame(frame, stage.own, stage.ap, stage.interval);
    let twin: Reading<'_> = received.as_ref().map_err(|refusal| refusal.number);
    for length in 0..=places::IBSS_FRAME_LENGTH + 2 {
        let library = lend(length, |out| raw::read_ibss_frame(stage, frame, out));
        let expected = lend(length, |out| put(&laid(twin?), out));
        count.buffers(Call::ReadIbss, &library, &expected, || {
            format!("buffer of {}, {}", length, input(stage, frame))
        });
    }
    for index in 0..4 {
        for length in 0..=places::QUIET_LENGTH + 2 {
            let library = lend(length, |out| raw::read_ibss_quiet(stage, frame, index, out));
            let expected = lend(length, |out| {
                let said = quiets_of(twin?).get(index).ok_or(IMPOSSIBLE)?;
                put(
                    &quiet(said.count, said.period, said.duration, said.offset),
                    out,
                )
            });
            count.buffers(Call::IbssQuiet, &library, &expected, || {
                format!(
                    "quiet {}, buffer of {}, {}",
                    index,
                    length,
                    input(stage, frame)
                )
            });
        }
        for length in 0..=places::PAIR_LENGTH + 2 {
            let library = lend(length, |out| raw::read_dfs_pair(stage, frame, index, out));
            let expected = lend(length, |out| {
                let pair = twin?.pair(index)?;
                put(&[pair.channel, pair.map], out)
            });
            count.buffers(Call::DfsPair, &library, &expected, || {
                format!(
                    "pair {}, buffer of {}, {}",
                    index,
                    length,
                    input(stage, frame)
                )
            });
        }
    }
}

/// Frames of the longest length, one octet less and one more, that are all
/// right up to their last octets, where an element 41 stands or something else
/// is wrong.
fn last_places(count: &mut Count, rng: &mut Rng) {
    let stage = Stage::usual(100);
    let (whole, zero, group) = (dfs(OWNER, 1, 0), dfs(OWNER, 0, 0), dfs(GROUP, 1, 0));
    let cut = &whole[..SHORTEST - 1];
    let tails: [&[u8]; 17] = [
        &[],
        &[DFS],
        &[DFS, 0],
        &[DFS, 1],
        &[DFS, 6, 0, 0, 0, 0, 0, 0],
        &[DFS, 8, 0, 0, 0, 0, 0, 0, 1, 0],
        cut,
        &whole,
        &zero,
        &group,
        &[32],
        &[32, 0],
        &[32, 1, 3],
        &[37, 3, 2, 36, 1],
        &[37, 3, 1, 36, 1],
        &[40, 6, 1, 0, 1, 0, 0, 0],
        &[40, 6, 0, 0, 1, 0, 0, 0],
    ];
    let quiets = element(40, &quiet(1, 0, 1, 0)).repeat(8);
    let fronts = [
        Vec::new(),
        [&[32, 1, 3, 35, 2, 0, 0, 37, 3, 0, 36, 1][..], &quiets].concat(),
        [&[32, 1, 3][..], &dfs(PEER, 2, 2), &quiets].concat(),
    ];
    for length in [LONGEST - 1, LONGEST, LONGEST + 1] {
        for subtype in [BEACON, PROBE_RESPONSE] {
            for front in &fronts {
                for tail in tails {
                    let pad = vendors(rng, length - NOTICE - front.len() - tail.len());
                    let elements = [&front[..], &pad, tail].concat();
                    compare(
                        count,
                        &stage,
                        &from(PEER, notice(&stage, subtype, &elements)),
                    );
                }
            }
        }
        last_actions(count, rng, &stage, length);
    }
}

/// Action frames that break as late and as early as they can.
fn last_actions(count: &mut Count, rng: &mut Rng, stage: &Stage, length: usize) {
    for (kind, id, other) in [(0, 38, 39), (1, 39, 38)] {
        let tails: [&[u8]; 8] = [
            &[id],
            &[id, 0],
            &[other, 0],
            &[id, 1],
            &[id, 3, 0, 2, 0],
            &[id, 3, 0, 3, 0],
            &[id, 3, 1, 2, 0],
            &[NO_ELEMENT, 0],
        ];
        for tail in tails {
            let pad = measurements(rng, id, length - HEADER - 3 - tail.len());
            let body = [&[0, kind, 1][..], &pad, tail].concat();
            compare(count, stage, &from(PEER, action(stage, &body)));
        }
    }
    for body in [&[0, 2, 1, 34, 0][..], &[0, 4, 37, 3, 0, 36, 1]] {
        for tail in [&[34][..], &[VENDOR], &[34, 0]] {
            let pad = vendors(rng, length - HEADER - body.len() - tail.len());
            compare(
                count,
                stage,
                &from(PEER, action(stage, &[body, &pad, tail].concat())),
            );
        }
    }
}

/// A sender of any sort.
fn sender(rng: &mut Rng, stage: &Stage) -> Address {
    let mut some = address(rng);
    if !rng.one_in(6) {
        some[0] &= !1;
    }
    rng.pick(&[
        some, some, some, stage.own, stage.ap, PEER, PEER, GROUP, ALL_ONES, [0; 6],
    ])
}

/// An element 41 that is right, or wrong in one way or another once in `faults`
/// times; 0 for never.
fn some_dfs(rng: &mut Rng, faults: u64) -> Vec<u8> {
    let wrong = |rng: &mut Rng| faults != 0 && rng.one_in(faults);
    let mut owner = address(rng);
    owner[0] &= !1;
    if wrong(rng) {
        owner[0] |= 1;
    }
    let most = rng.pick(&[1, 3, 10, 125]);
    let mut octets = 2 * rng.place(most);
    if wrong(rng) {
        octets += 1;
    }
    let recovery = if wrong(rng) {
        0
    } else {
        rng.between(1, 255) as u8
    };
    let mut contents = owner.to_vec();
    contents.push(recovery);
    contents.extend_from_slice(&rng.octets(octets));
    if wrong(rng) {
        contents.truncate(rng.place(contents.len()));
    }
    let mut dfs = element(DFS, &contents);
    if wrong(rng) {
        dfs[1] = rng.octet();
    }
    dfs
}

/// Puts element 41 once, mostly, or twice, or not, between the elements of a
/// beacon or probe response; those that builders skip may be 41 already.
fn put_dfs(rng: &mut Rng, frame: &mut Vec<u8>, faults: u64) {
    for _ in 0..rng.pick(&[0, 1, 1, 1, 1, 1, 2]) {
        let mut between = vec![NOTICE];
        let mut at = NOTICE;
        while at + 1 < frame.len() {
            at += 2 + usize::from(frame[at + 1]);
            between.push(at);
        }
        between.retain(|&at| at <= frame.len());
        if between.is_empty() {
            return;
        }
        let at = rng.pick(&between);
        frame.splice(at..at, some_dfs(rng, faults));
    }
}

/// Frames built at random, from any sender: without fault, with some, changed,
/// extended and cut.
fn built(count: &mut Count, rng: &mut Rng) {
    for _ in 0..BUILT {
        let mut stage = Stage::at_random(rng);
        if !rng.one_in(8) {
            stage.ap[0] &= !1;
        }
        let faults = rng.pick(&[0, 0, 60, 25, 10]);
        let kind = rng.below(5);
        let mut builder = Builder { rng, stage, faults };
        let frame = match kind {
            0..=2 => builder.notice(BEACON),
            3 => builder.notice(PROBE_RESPONSE),
            _ => builder.frame(),
        };
        let mut frame = from(sender(rng, &stage), frame);
        if kind < 4 {
            put_dfs(rng, &mut frame, faults);
        }
        compare(count, &stage, &frame);
        for _ in 0..3 {
            let mut changed = frame.clone();
            mutate(rng, &mut changed);
            compare(count, &stage, &changed);
        }
        let mut longer = frame.clone();
        let more = rng.pick(&[1, 2, 3, 30, LONGEST]);
        longer.extend_from_slice(&soup(rng, more));
        compare(count, &stage, &longer);
        let first = HEADER.min(frame.len());
        for _ in 0..3 {
            let length = first + rng.place(frame.len() - first + 1);
            compare(count, &stage, &frame[..length]);
        }
        // The same frame as another station, or one of another IBSS, hears it.
        let other = Stage::at_random(rng);
        for elsewhere in [
            Stage {
                own: other.own,
                ..stage
            },
            Stage {
                ap: other.ap,
                ..stage
            },
            Stage {
                interval: other.interval,
                ..stage
            },
        ] {
            compare(count, &elsewhere, &frame);
        }
        // To document 01's station it is from another AP, or skipped.
        if kind < 4 {
            frames::compare(count, &stage, &from(stage.ap, frame));
        }
    }
}

/// Octets at random after a header that is right, element 41 among them.
fn soups(count: &mut Count, rng: &mut Rng) {
    for _ in 0..SOUPS {
        let stage = Stage::at_random(rng);
        let length = rng.pick(&[1, 4, 12, 24, 60, 60, 300]);
        let length = rng.place(length + 1);
        let mut octets = soup(rng, length);
        for octet in &mut octets {
            if rng.one_in(12) {
                *octet = rng.pick(&[DFS, 7, 9, 11]);
            }
        }
        let frame = match rng.below(5) {
            0 => octets,
            1 | 2 => notice(&stage, BEACON, &octets),
            3 => notice(&stage, PROBE_RESPONSE, &octets),
            _ => {
                let subtype = rng.pick(&[BEACON, PROBE_RESPONSE, ACTION]);
                let mut frame = header(&stage, subtype, rng.pick(&[stage.own, ALL_ONES]));
                frame.extend_from_slice(&octets);
                frame
            }
        };
        compare(count, &stage, &from(sender(rng, &stage), frame));
    }
}

/// What the twin is to write of pairs that are octets: half a pair is no record
/// of its, which is 16 as any record is that an element cannot hold.
fn twin_writes(owner: Address, recovery: u8, octets: &[u8], out: &mut [u8]) -> Result<usize, u8> {
    if octets.len() % 2 != 0 {
        return Err(IMPOSSIBLE);
    }
    let pair = |pair: &[u8]| twin::ChannelMap {
        channel: pair[0],
        map: pair[1],
    };
    let dfs = twin::IbssDfs {
        owner,
        recovery,
        pairs: octets.chunks_exact(2).map(pair).collect(),
    };
    twin::write_ibss_dfs(&dfs, out)
}

/// Writes an element 41 by both; what was written is read back, alone by the
/// twin and in a beacon by both.
fn written(count: &mut Count, owner: Address, recovery: u8, octets: &[u8], every: bool) {
    let writers = Writers {
        call: Call::WriteDfs,
        library: |out: &mut [u8]| oneiralth::write_ibss_dfs(owner, recovery, octets, out),
        twin: |out: &mut [u8]| twin_writes(owner, recovery, octets, out),
        most: SHORTEST + octets.len(),
    };
    let record = ("element 41", owner, recovery, octets);
    let written = if every {
        writers.in_all_lengths(count, record)
    } else {
        writers.in_some_lengths(count, record)
    };
    let Some(written) = written else {
        return;
    };
    let read = twin::read_ibss_dfs(&written[2..]);
    let pairs = read.as_ref().map_or(Vec::new(), |dfs| {
        dfs.pairs
            .iter()
            .flat_map(|pair| [pair.channel, pair.map])
            .collect()
    });
    let read = read.map(|dfs| (dfs.owner, dfs.recovery, pairs));
    count.twin_gives(&read, &Ok((owner, recovery, octets.to_vec())), || {
        format!("contents read back from {}", hex(&written))
    });
    let stage = Stage::usual(100);
    let frame = from(PEER, notice(&stage, BEACON, &written));
    compare(count, &stage, &frame);
    let library =
        oneiralth::read_ibss_frame(&frame, stage.in_ibss()).map(|read| (read.sender, read.dfs));
    let dfs = oneiralth::IbssDfs {
        owner,
        recovery,
        pairs: octets.len() / 2,
    };
    count.read_back(Call::ReadIbss, &library, (PEER, Some(dfs)), || {
        format!("read back from {}", hex(&frame))
    });
}

/// 0 to 130 pairs, half pairs too, in buffers of every length.
fn written_lengths(count: &mut Count, rng: &mut Rng) {
    for length in 0..=261 {
        written(count, OWNER, 3, &rng.octets(length), true);
    }
    for length in [65_536, 1 << 20, (1 << 20) + 248] {
        written(count, OWNER, 3, &rng.octets(length), false);
    }
}

/// Every interval and every first octet of an owner; then at random.
fn written_values(count: &mut Count, rng: &mut Rng) {
    for value in 0..=255 {
        for octets in [&[][..], &[36, 1, 201, 255], &[1]] {
            written(count, OWNER, value, octets, true);
            written(count, [value, 1, 2, 3, 4, 5], 1, octets, true);
            written(count, [value; 6], value, octets, true);
        }
    }
    for _ in 0..WRITTEN {
        let mut owner = address(rng);
        if !rng.one_in(3) {
            owner[0] &= !1;
        }
        let most = rng.pick(&[1, 5, 20, 127]);
        let mut length = 2 * rng.place(most);
        if rng.one_in(5) {
            length += 1;
        }
        let octets = rng.octets(length);
        written(count, owner, rng.octet(), &octets, false);
    }
}
