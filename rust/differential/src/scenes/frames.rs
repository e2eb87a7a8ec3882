//! Frames of the scenes, and their words.

use crate::builder::{element, quiet as quiet_contents, HEADER, VENDOR};
use crate::rng::Rng;
use std::fmt::Write;
use twin::Address;

/// So many numbers has the longest call.
pub const NUMBERS: usize = 127;
/// So many octets has the longest frame that a program of scenes can make.
pub const LONGEST: usize = 2400;

/// The timestamp of beacons and probe responses, which their verbs do not spell.
const TIMESTAMP: [u8; 8] = [7, 0, 0, 0, 0, 0, 0, 0];

/// A frame, and what of it the scenes spell: all of a whole one, and of one by
/// its verb what follows the header and the timestamp.
pub struct Sent {
    /// The verb and its first numbers; `None` for a whole frame.
    by: Option<String>,
    pub parts: Vec<Vec<u8>>,
    pub octets: Vec<u8>,
}

impl Sent {
    /// In the words of the scenes.
    pub fn words(&self) -> String {
        let parts = spelt(&self.parts);
        match &self.by {
            Some(verb) => format!("{verb}{parts}"),
            None => format!("frame {}{parts}", self.octets.len()),
        }
    }

    /// Cuts a whole frame, or lets zeros follow; the scenes spell the same.
    pub fn resize(&mut self, length: usize) {
        self.octets.resize(length, 0);
    }
}

/// Which of the three frames that hold announcements it is.
#[derive(Clone, Copy, PartialEq)]
pub enum Kind {
    Beacon,
    Probe,
    Action,
}

impl Kind {
    fn word(self) -> &'static str {
        match self {
            Kind::Beacon => "beacon",
            Kind::Probe => "probe",
            Kind::Action => "action",
        }
    }

    fn subtype(self) -> u8 {
        match self {
            Kind::Beacon => 8,
            Kind::Probe => 5,
            Kind::Action => 13,
        }
    }
}

/// What follows the header: the parts that the scenes part by commas.
pub struct Body {
    pub kind: Kind,
    pub parts: Vec<Vec<u8>>,
}

/// The parts, with a comma before each.
pub fn spelt(parts: &[Vec<u8>]) -> String {
    let mut words = String::new();
    for part in parts {
        words.push(',');
        for octet in part {
            write!(words, " {octet}").expect("a string takes all");
        }
    }
    words
}

pub fn header(kind: Kind, da: Address, sa: Address, bssid: Address) -> Vec<u8> {
    let mut octets = vec![kind.subtype() << 4, 0, 0, 0];
    octets.extend([da, sa, bssid].concat());
    octets.extend([0, 0]);
    octets
}

impl Body {
    /// As the verb of its kind sends it, with the numbers by which the scenes
    /// name sender or receiver and with the header that these stand for.
    pub fn sent(&self, named: &str, header: Vec<u8>) -> Sent {
        let mut octets = header;
        if self.kind != Kind::Action {
            octets.extend(TIMESTAMP);
        }
        octets.extend(self.parts.concat());
        Sent {
            by: Some(format!("{} {named}", self.kind.word())),
            parts: self.parts.clone(),
            octets,
        }
    }

    /// As a whole frame with this header, cut where a call has no more room.
    pub fn whole(&self, header: &[u8]) -> Sent {
        let mut parts = vec![header.to_vec()];
        if self.kind != Kind::Action {
            parts.push(TIMESTAMP.to_vec());
        }
        parts.extend(self.parts.iter().cloned());
        whole(parts, NUMBERS - 1)
    }
}

/// A whole frame of these parts, cut where there is room for no more octets.
pub fn whole(mut parts: Vec<Vec<u8>>, room: usize) -> Sent {
    cut(&mut parts, room);
    Sent {
        by: None,
        octets: parts.concat(),
        parts,
    }
}

/// Leaves so many octets of these parts, at most.
pub fn cut(parts: &mut Vec<Vec<u8>>, length: usize) {
    let mut left = length;
    for part in parts.iter_mut() {
        part.truncate(left);
        left -= part.len();
    }
    parts.retain(|part| !part.is_empty());
}

pub fn quiet(rng: &mut Rng, interval: u16) -> Vec<u8> {
    let b = u64::from(interval);
    let count = rng.pick(&[1, 1, 1, 2, 3, 255]);
    let period = rng.pick(&[0, 0, 0, 1, 2, 9]);
    let duration = match rng.below(8) {
        0 => 0,
        1 => 1,
        2 => b.min(65_535),
        3 => (3 * b).min(65_535),
        4 => rng.below(65_536),
        _ => rng.below(b / 3 + 2),
    } as u16;
    let offset = match rng.below(20) {
        0 => b,
        1 => b - 1,
        2..=5 => 0,
        _ => rng.below(b),
    } as u16;
    let mut contents = quiet_contents(count, period, duration, offset);
    match rng.below(40) {
        0 => contents[0] = 0,
        1 => contents.truncate(5),
        _ => {}
    }
    element(40, &contents)
}

pub fn announcement(rng: &mut Rng) -> Vec<u8> {
    let mode = rng.pick(&[0, 0, 0, 1, 1]);
    let channel = rng.pick(&[0, 36, 40, 44, 48, 149, 200]);
    let count = rng.pick(&[0, 1, 1, 2, 2, 3, 5, 255]);
    match rng.below(60) {
        0 => element(37, &[2, channel, count]),
        1 => element(37, &[mode, 201, count]),
        2 => element(37, &[mode, channel]),
        _ => element(37, &[mode, channel, count]),
    }
}

/// The elements of a beacon or a probe response that document 01 knows, and
/// some that it skips.
pub fn elements(rng: &mut Rng, announces: bool, interval: u16) -> Vec<Vec<u8>> {
    let mut elements = Vec::new();
    if announces {
        elements.push(announcement(rng));
        if rng.one_in(30) {
            elements.push(announcement(rng));
        }
    }
    let quiets = if rng.one_in(40) {
        rng.pick(&[8, 9])
    } else {
        rng.pick(&[0, 0, 0, 0, 1, 1, 1, 2, 3])
    };
    for _ in 0..quiets {
        elements.push(quiet(rng, interval));
    }
    if rng.one_in(4) {
        elements.push(element(32, &[rng.octet()]));
    }
    match rng.below(40) {
        0 => elements.push(element(32, &[3])),
        1 => elements.push(element(32, &[3, 4])),
        2 => elements.push(element(35, &[rng.octet(), rng.octet()])),
        3 => elements.push(element(35, &[7])),
        4 => elements.push(element(VENDOR, &[1, 2, 3])),
        5 => elements.push(element(0, &[])),
        6 => elements.push(element(42, &rng.octets(5))),
        _ => {}
    }
    elements
}

/// The fixed fields of a beacon or a probe response, now and then with another
/// interval than it should have.
pub fn fixed_fields(rng: &mut Rng, interval: u16) -> Vec<Vec<u8>> {
    let said = match rng.below(40) {
        0 => interval ^ 1,
        1 => interval.wrapping_add(256),
        _ => interval,
    };
    vec![said.to_le_bytes().to_vec(), vec![0, 1]]
}

/// A beacon or a probe response, now and then cut. In front of its octets the
/// scenes have a sender, or a receiver of two numbers, or an index too.
pub fn notice(
    rng: &mut Rng,
    kind: Kind,
    fixed_fields: Vec<Vec<u8>>,
    elements: Vec<Vec<u8>>,
) -> Body {
    let mut parts = [fixed_fields, elements].concat();
    let length: usize = parts.iter().map(Vec::len).sum();
    let kept = match rng.below(40) {
        0 => rng.place(length + 1),
        1 => length - 1,
        _ => length,
    };
    cut(&mut parts, kept.min(NUMBERS - 2));
    Body { kind, parts }
}

/// An action frame that announces, now and then with a vendor's element.
pub fn announcing_action(rng: &mut Rng) -> Body {
    let mut parts = vec![vec![0, 4], announcement(rng)];
    if rng.one_in(6) {
        parts.push(element(VENDOR, &[9]));
    }
    Body {
        kind: Kind::Action,
        parts,
    }
}

/// An action body that announces nothing, or a broken one.
pub fn other_action(rng: &mut Rng) -> Body {
    let measure = element(38, &[7, 0, 0, 36, 0, 0, 0, 0, 0, 0, 0, 0, 10, 0]);
    let enable = element(38, &[8, 2, 0]);
    let report = element(39, &[7, 1, 0]);
    let vendor = element(VENDOR, &[1, 2]);
    let parts = match rng.below(16) {
        0 => vec![vec![0, 0, 7], measure, enable],
        1 => vec![vec![0, 0, 7], measure.clone(), vendor, measure],
        2 => vec![vec![0, 1, 0], report.clone(), report],
        3 => vec![vec![0, 2, 7], element(34, &[])],
        4 => vec![vec![0, 2, 0], element(34, &[])],
        5 => vec![
            vec![0, 3, 7],
            element(35, &[rng.octet(), rng.octet()]),
            vendor,
        ],
        6 => vec![vec![1, 4]],
        7 => vec![vec![0, 5, 7]],
        8 => vec![vec![0]],
        9 => vec![vec![0, 2]],
        10 => vec![vec![0, 4]],
        11 => vec![vec![0, 4], element(34, &[])],
        12 => vec![vec![0, 4], element(37, &[0, 44, 1]), vec![0]],
        13 => vec![vec![0, 4], vec![37, 3, 0, 44]],
        14 => vec![vec![0, 4], element(37, &[0, 44])],
        _ => vec![vec![0, 3, 7], vec![35]],
    };
    Body {
        kind: Kind::Action,
        parts,
    }
}

/// The frame with a header of its own: now and then with a fault, cut within
/// it, or with zeros after it.
pub fn with_header(rng: &mut Rng, body: &Body, mut header: Vec<u8>) -> Sent {
    match rng.below(24) {
        0 => header[0] |= 1,
        1 => header[0] |= 4,
        2 => header[0] ^= 0x30,
        3 => header[1] = rng.pick(&[1, 2, 4, 64]),
        4 => header[22] = 1,
        5 => header[22] = 0xF0,
        6 => header[1] = 0x98,
        _ => {}
    }
    if rng.one_in(24) {
        header.truncate(rng.place(HEADER));
        return whole(vec![header], HEADER);
    }
    let mut sent = body.whole(&header);
    if rng.one_in(12) {
        let length = lengthened(rng, sent.octets.len());
        sent.resize(length);
    }
    sent
}

/// With zeros after its octets, up to the longest frame and past it.
pub fn lengthened(rng: &mut Rng, length: usize) -> usize {
    match rng.below(4) {
        0 => length + rng.place(300),
        1 => 2336,
        2 => 2337,
        _ => rng.between(2330, LONGEST as u64) as usize,
    }
}
