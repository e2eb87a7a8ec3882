//! Frames of the test's own making, from neither side's writers: a fault that
//! a writer and a reader share would not show in frames that they made.

use crate::rng::Rng;

pub type Address = [u8; 6];

pub const ALL_ONES: Address = [0xFF; 6];

pub const PROBE_RESPONSE: u8 = 5;
pub const BEACON: u8 = 8;
pub const ACTION: u8 = 13;

/// The ID of vendors' elements, which an action body may have after its own.
pub const VENDOR: u8 = 221;

/// Octets of a header, and of the longest frame and body that are read.
pub const HEADER: usize = 24;
pub const LONGEST: usize = 2336;
pub const LONGEST_BODY: usize = LONGEST - HEADER;
/// Where the elements of a beacon or probe response begin.
pub const NOTICE: usize = HEADER + 12;

/// Octets that mean something somewhere in a frame: element IDs, lengths,
/// limits. A change to one of them does more than one to any other octet.
const TELLING: [u8; 34] = [
    0, 1, 2, 3, 4, 5, 6, 7, 8, 9, 13, 14, 15, 16, 22, 23, 31, 32, 34, 35, 37, 38, 39, 40, 127, 128,
    199, 200, 201, 202, 221, 222, 254, 255,
];

/// The station that hears the frame.
#[derive(Clone, Copy, Debug)]
pub struct Stage {
    pub own: Address,
    pub ap: Address,
    pub interval: u16,
}

impl Stage {
    /// For sweeps, where the addresses do not matter.
    pub fn usual(interval: u16) -> Stage {
        Stage {
            own: [0x02, 0x13, 0x57, 0x9B, 0xDF, 0x24],
            ap: [0x0A, 0xFE, 0xDC, 0xBA, 0x98, 0x76],
            interval,
        }
    }

    /// The readers take every address and every interval, so these are free
    /// too: own address all ones, both addresses the same, group addresses,
    /// B = 0.
    pub fn at_random(rng: &mut Rng) -> Stage {
        let ap = if rng.one_in(40) {
            ALL_ONES
        } else {
            address(rng)
        };
        let own = match rng.below(20) {
            0 => ALL_ONES,
            1 => ap,
            _ => address(rng),
        };
        let interval = if rng.one_in(4) {
            rng.u16()
        } else {
            rng.pick(&[0, 1, 2, 99, 100, 101, 255, 256, 257, 32_768, 65_534, 65_535])
        };
        Stage { own, ap, interval }
    }

    pub fn settings(&self) -> oneiralth::Settings {
        oneiralth::Settings {
            own: self.own,
            ap: self.ap,
            interval: self.interval,
        }
    }

    /// As a station of an IBSS; `ap` is the BSSID there.
    pub fn in_ibss(&self) -> oneiralth::IbssSettings {
        oneiralth::IbssSettings {
            own: self.own,
            bssid: self.ap,
            interval: self.interval,
        }
    }
}

pub fn address(rng: &mut Rng) -> Address {
    std::array::from_fn(|_| rng.octet())
}

/// A header with nothing in its free fields.
pub fn header(stage: &Stage, subtype: u8, da: Address) -> Vec<u8> {
    let mut frame = vec![subtype << 4, 0, 0, 0];
    frame.extend_from_slice(&da);
    frame.extend_from_slice(&stage.ap);
    frame.extend_from_slice(&stage.ap);
    frame.extend_from_slice(&[0, 0]);
    frame
}

/// A beacon or probe response to all ones, with the station's interval.
pub fn notice(stage: &Stage, subtype: u8, elements: &[u8]) -> Vec<u8> {
    let mut frame = header(stage, subtype, ALL_ONES);
    frame.extend_from_slice(&[0xF1, 0xE2, 0xD3, 0xC4, 0xB5, 0xA6, 0x97, 0x88]);
    frame.extend_from_slice(&stage.interval.to_le_bytes());
    frame.extend_from_slice(&[0x21, 0x43]);
    frame.extend_from_slice(elements);
    frame
}

/// An action frame to the station itself.
pub fn action(stage: &Stage, body: &[u8]) -> Vec<u8> {
    let mut frame = header(stage, ACTION, stage.own);
    frame.extend_from_slice(body);
    frame
}

/// An element; its length octet is right for up to 255 octets.
pub fn element(id: u8, contents: &[u8]) -> Vec<u8> {
    let mut element = vec![id, contents.len() as u8];
    element.extend_from_slice(contents);
    element
}

/// The contents of a Quiet element.
pub fn quiet(count: u8, period: u8, duration: u16, offset: u16) -> Vec<u8> {
    let mut contents = vec![count, period];
    contents.extend_from_slice(&duration.to_le_bytes());
    contents.extend_from_slice(&offset.to_le_bytes());
    contents
}

/// Token, mode, type, channel, start and duration: the contents of a request
/// to measure, and how those of a report begin.
pub fn measured(head: [u8; 3], channel: u8, start: u64, duration: u16) -> Vec<u8> {
    let mut contents = head.to_vec();
    contents.push(channel);
    contents.extend_from_slice(&start.to_le_bytes());
    contents.extend_from_slice(&duration.to_le_bytes());
    contents
}

/// Elements that a beacon or probe response skips, so many octets of them in
/// all (none for a single octet, which can hold no element).
pub fn padding(rng: &mut Rng, length: usize) -> Vec<u8> {
    filling(rng, length, skipped)
}

/// As many octets of vendors' elements.
pub fn vendors(rng: &mut Rng, length: usize) -> Vec<u8> {
    filling(rng, length, |_| VENDOR)
}

fn filling(rng: &mut Rng, length: usize, id: impl Fn(&mut Rng) -> u8) -> Vec<u8> {
    let mut elements = Vec::new();
    while length - elements.len() >= 2 {
        let left = length - elements.len();
        // One octet over would be half a header.
        let contents = match (left - 2).min(255) {
            most if left - 2 - most == 1 => most - 1,
            most => most,
        };
        elements.extend_from_slice(&element(id(rng), &rng.octets(contents)));
    }
    elements
}

/// Measurement elements of a type that is not interpreted, so many octets of
/// them in all (none for fewer than five). The tokens count from 1.
pub fn measurements(rng: &mut Rng, id: u8, length: usize) -> Vec<u8> {
    let mut elements = Vec::new();
    let mut token = 0;
    while length - elements.len() >= 5 {
        let left = length - elements.len();
        // Under five octets over would be no element.
        let whole = match left.min(257) {
            most if (1..5).contains(&(left - most)) => most - 5,
            most => most,
        };
        token += 1;
        let contents = [vec![token, 0, 3], rng.octets(whole - 5)].concat();
        elements.extend_from_slice(&element(id, &contents));
    }
    elements
}

/// The ID of an element that a beacon or probe response skips.
pub fn skipped(rng: &mut Rng) -> u8 {
    loop {
        let id = if rng.one_in(2) {
            rng.pick(&[0, 1, 3, 5, 7, 31, 33, 34, 36, 38, 39, 41, VENDOR, 255])
        } else {
            rng.octet()
        };
        if ![32, 35, 37, 40].contains(&id) {
            return id;
        }
    }
}

/// Changes a frame a little: bits flipped, octets replaced, inserted, taken
/// out or exchanged, a part said twice, the end cut off or gone past.
pub fn mutate(rng: &mut Rng, frame: &mut Vec<u8>) {
    for _ in 0..rng.pick(&[1, 1, 1, 2, 2, 3]) {
        if frame.is_empty() {
            frame.push(rng.octet());
        }
        // The header takes a fault well enough one time in four.
        let first = if frame.len() > HEADER && !rng.one_in(4) {
            HEADER
        } else {
            0
        };
        let at = first + rng.place(frame.len() - first);
        match rng.below(10) {
            0 | 1 => frame[at] ^= 1 << rng.below(8),
            2 | 3 => frame[at] = rng.pick(&TELLING),
            4 => frame[at] = frame[at].wrapping_add(rng.pick(&[1, 255])),
            5 => frame.insert(at, rng.pick(&TELLING)),
            6 => {
                frame.remove(at);
            }
            7 => {
                let other = first + rng.place(frame.len() - first);
                frame.swap(at, other);
            }
            8 => {
                let end = at + rng.place(frame.len() - at + 1);
                let part = frame[at..end].to_vec();
                frame.splice(at..at, part);
            }
            _ => {
                if rng.one_in(2) {
                    frame.truncate(at);
                } else {
                    let more = rng.pick(&[1, 1, 2, 3, 8]);
                    frame.extend_from_slice(&rng.octets(more));
                }
            }
        }
    }
}

/// Octets that look like elements: mostly telling ones.
pub fn soup(rng: &mut Rng, length: usize) -> Vec<u8> {
    (0..length)
        .map(|_| {
            if rng.one_in(5) {
                rng.octet()
            } else {
                rng.pick(&TELLING)
            }
        })
        .collect()
}

/// Builds frames at random for one stage.
pub struct Builder<'a> {
    pub rng: &'a mut Rng,
    pub stage: Stage,
    /// At each place where something can be wrong, it is once in so many
    /// times; 0 for never. Several faults in one frame show in which order
    /// they are found.
    pub faults: u64,
}

impl Builder<'_> {
    fn wrong(&mut self) -> bool {
        self.faults != 0 && self.rng.one_in(self.faults)
    }

    /// A frame of any of the seven kinds.
    pub fn frame(&mut self) -> Vec<u8> {
        match self.rng.below(10) {
            0 | 1 => self.notice(BEACON),
            2 => self.notice(PROBE_RESPONSE),
            3 | 4 => self.measurement_request(),
            5 | 6 => self.measurement_report(),
            7 => self.tpc_request(),
            8 => self.tpc_report(),
            _ => self.channel_switch(),
        }
    }

    /// Flags, duration and sequence number are free.
    fn header(&mut self, subtype: u8) -> Vec<u8> {
        let da = if self.rng.one_in(3) {
            ALL_ONES
        } else {
            self.stage.own
        };
        let mut frame = header(&self.stage, subtype, da);
        frame[1] = self.rng.octet() & 0b1011_1000;
        frame[2] = self.rng.octet();
        frame[3] = self.rng.octet();
        frame[22] = self.rng.octet() & 0b1111_0000;
        frame[23] = self.rng.octet();
        if self.wrong() {
            match self.rng.below(4) {
                0 => frame[0] ^= 1 << self.rng.below(8),
                1 => frame[1] |= self.rng.pick(&[0b1, 0b10, 0b100, 0b100_0000]),
                2 => frame[22] |= 1 << self.rng.below(4),
                _ => frame[0] = self.rng.octet(),
            }
        }
        if self.wrong() {
            let at = self.rng.pick(&[4, 10, 16]);
            match self.rng.below(3) {
                0 => frame[at + self.rng.place(6)] ^= 1 << self.rng.below(8),
                1 => frame[at..at + 6].copy_from_slice(&self.stage.own),
                _ => frame[at..at + 6].copy_from_slice(&ALL_ONES),
            }
        }
        frame
    }

    /// An element. Its contents can have another length than they should, or
    /// than its length octet says.
    fn put(&mut self, elements: &mut Vec<u8>, id: u8, mut contents: Vec<u8>) {
        if self.wrong() {
            match self.rng.below(4) {
                0 => {
                    contents.pop();
                }
                1 => contents.push(self.rng.octet()),
                2 => contents.truncate(self.rng.place(contents.len() + 1)),
                _ => {
                    let more = self.rng.place(12);
                    contents.extend_from_slice(&self.rng.octets(more));
                }
            }
        }
        let start = elements.len();
        elements.extend_from_slice(&element(id, &contents));
        if self.wrong() {
            elements[start + 1] = match self.rng.below(3) {
                0 => elements[start + 1].wrapping_add(1),
                1 => elements[start + 1].wrapping_sub(1),
                _ => self.rng.octet(),
            };
        }
    }

    pub fn notice(&mut self, subtype: u8) -> Vec<u8> {
        let mut frame = self.header(subtype);
        frame.extend_from_slice(&self.rng.octets(8));
        let interval = if self.wrong() {
            let given = self.stage.interval;
            let (less, more) = (given.wrapping_sub(1), given.wrapping_add(1));
            self.rng.pick(&[less, more, given.swap_bytes(), 0, 100])
        } else {
            self.stage.interval
        };
        frame.extend_from_slice(&interval.to_le_bytes());
        frame.extend_from_slice(&self.rng.octets(2));
        for element in self.notice_elements() {
            frame.extend_from_slice(&element);
        }
        if self.wrong() {
            frame.truncate(HEADER + self.rng.place(frame.len() - HEADER));
        }
        frame
    }

    /// In any order: one each of 32, 35 and 37, up to eight Quiet elements,
    /// and some that are skipped.
    fn notice_elements(&mut self) -> Vec<Vec<u8>> {
        let mut ids = Vec::new();
        for id in [32, 35, 37] {
            if self.rng.one_in(2) {
                ids.push(id);
            }
            if self.wrong() {
                ids.push(id);
            }
        }
        let quiets = if self.wrong() {
            9
        } else {
            self.rng.pick(&[0, 0, 1, 1, 2, 3, 7, 8])
        };
        ids.resize(ids.len() + quiets, 40);
        for _ in 0..self.rng.below(4) {
            ids.push(skipped(self.rng));
        }
        self.rng.shuffle(&mut ids);
        ids.into_iter().map(|id| self.notice_element(id)).collect()
    }

    fn notice_element(&mut self, id: u8) -> Vec<u8> {
        let contents = match id {
            32 => self.rng.octets(1),
            35 => self.rng.octets(2),
            37 => self.switch_contents(),
            40 => self.quiet_contents(),
            _ => {
                let most = self.rng.pick(&[1, 4, 20, 256]);
                let length = self.rng.place(most);
                self.rng.octets(length)
            }
        };
        let mut element = Vec::new();
        self.put(&mut element, id, contents);
        element
    }

    /// A channel that may be measured or switched to.
    fn channel(&mut self) -> u8 {
        if self.wrong() {
            return self.rng.pick(&[201, 202, 254, 255]);
        }
        match self.rng.below(4) {
            0 => self.rng.pick(&[0, 1, 199, 200]),
            _ => self.rng.below(201) as u8,
        }
    }

    pub fn switch_contents(&mut self) -> Vec<u8> {
        let mode = if self.wrong() {
            self.rng.pick(&[2, 3, 128, 255])
        } else {
            self.rng.pick(&[0, 1])
        };
        let channel = self.channel();
        let count = match self.rng.below(4) {
            0 => self.rng.octet(),
            _ => self.rng.pick(&[0, 1, 2, 255]),
        };
        vec![mode, channel, count]
    }

    fn quiet_contents(&mut self) -> Vec<u8> {
        let count = if self.wrong() {
            0
        } else {
            self.rng.between(1, 255) as u8
        };
        let limit = self.stage.interval;
        let offset = if self.wrong() || limit == 0 {
            self.rng.pick(&[limit, limit.saturating_add(1), 65_535])
        } else {
            let some = self.rng.below(u64::from(limit)) as u16;
            self.rng.pick(&[0, limit - 1, some])
        };
        let some = self.rng.u16();
        let duration = self.rng.pick(&[0, 1, some, 65_535]);
        quiet(count, self.rng.octet(), duration, offset)
    }

    /// Category and action, and the token where there is one.
    fn opening(&mut self, action: u8, token: Option<u8>) -> Vec<u8> {
        let mut frame = self.header(ACTION);
        frame.push(if self.wrong() {
            // From 128 on it is an error return itself.
            let some = self.rng.octet();
            self.rng.pick(&[1, 127, 128, 255, some, some])
        } else {
            0
        });
        frame.push(if self.wrong() {
            self.rng.octet()
        } else {
            action
        });
        frame.extend(token);
        frame
    }

    /// A dialog token for a request, where 0 is forbidden.
    fn token(&mut self) -> u8 {
        if self.wrong() {
            return 0;
        }
        self.rng.between(1, 255) as u8
    }

    /// Vendors' elements now and then, any number of them.
    fn vendors(&mut self, frame: &mut Vec<u8>) {
        if !self.rng.one_in(4) {
            return;
        }
        for _ in 0..self.rng.pick(&[1, 1, 2, 5]) {
            let most = self.rng.pick(&[1, 4, 20, 256]);
            let length = self.rng.place(most);
            let contents = self.rng.octets(length);
            let id = self.id(VENDOR);
            self.put(frame, id, contents);
        }
    }

    /// In front of the first element they are wrong.
    fn vendors_in_front(&mut self, frame: &mut Vec<u8>) {
        if self.wrong() {
            self.vendors(frame);
        }
    }

    /// What can be wrong at the end of an action body.
    fn close(&mut self, frame: &mut Vec<u8>) {
        if self.wrong() {
            let more = self.rng.pick(&[1, 2, 5]);
            frame.extend_from_slice(&soup(self.rng, more));
        }
        if self.wrong() {
            frame.truncate(HEADER + self.rng.place(frame.len() - HEADER));
        }
    }

    /// The ID that belongs in this place, or another.
    fn id(&mut self, id: u8) -> u8 {
        if self.wrong() {
            return self
                .rng
                .pick(&[0, 32, 34, 35, 37, 38, 39, 40, 220, 221, 222, 255]);
        }
        id
    }

    pub fn tpc_request(&mut self) -> Vec<u8> {
        let token = self.token();
        let mut frame = self.opening(2, Some(token));
        self.vendors_in_front(&mut frame);
        let id = self.id(34);
        self.put(&mut frame, id, Vec::new());
        self.vendors(&mut frame);
        self.close(&mut frame);
        frame
    }

    fn tpc_report(&mut self) -> Vec<u8> {
        let token = self.rng.octet();
        let mut frame = self.opening(3, Some(token));
        self.vendors_in_front(&mut frame);
        let id = self.id(35);
        let contents = if self.rng.one_in(2) {
            vec![
                self.rng.pick(&[0, 127, 128, 255]),
                self.rng.pick(&[0, 127, 128, 255]),
            ]
        } else {
            self.rng.octets(2)
        };
        self.put(&mut frame, id, contents);
        self.vendors(&mut frame);
        self.close(&mut frame);
        frame
    }

    pub fn channel_switch(&mut self) -> Vec<u8> {
        let mut frame = self.opening(4, None);
        self.vendors_in_front(&mut frame);
        let id = self.id(37);
        let contents = self.switch_contents();
        self.put(&mut frame, id, contents);
        self.vendors(&mut frame);
        self.close(&mut frame);
        frame
    }

    /// How many elements a measurement body gets; `None` for as many as a
    /// frame can hold.
    fn many(&mut self) -> Option<usize> {
        match self.rng.below(64) {
            0 => None,
            1..=6 => Some(self.rng.between(6, 20) as usize),
            7..=35 => Some(self.rng.between(2, 5) as usize),
            _ => Some(1),
        }
    }

    pub fn measurement_request(&mut self) -> Vec<u8> {
        let token = self.token();
        let mut frame = self.opening(0, Some(token));
        self.vendors_in_front(&mut frame);
        let many = self.many();
        // A step that has no divisor in common with 255 passes all tokens from
        // 1 to 255 before one comes again.
        let (mut token, step) = (self.rng.below(255), self.rng.pick(&[1, 2, 7, 254]));
        for index in 0..many.unwrap_or(255) {
            if !(index > 0 && self.wrong()) {
                token = (token + step) % 255;
            }
            let measurement_token = if self.wrong() { 0 } else { token as u8 + 1 };
            let contents = self.request_contents(measurement_token);
            if many.is_none() && frame.len() + 2 + contents.len() > LONGEST && !self.wrong() {
                break;
            }
            let id = self.id(38);
            self.put(&mut frame, id, contents);
            if many.is_some() {
                self.vendors(&mut frame);
            }
        }
        self.close(&mut frame);
        frame
    }

    /// Reserved bits are set now and then; they mean nothing.
    fn request_contents(&mut self, token: u8) -> Vec<u8> {
        let reserved = if self.rng.one_in(3) {
            self.rng.octet()
        } else {
            0
        };
        if self.rng.one_in(3) {
            let mode = reserved & 0b1111_0001 | 0b10 | self.rng.octet() & 0b1100;
            return vec![token, mode, self.any_kind()];
        }
        let mode = reserved & 0b1111_1101;
        if self.rng.one_in(4) {
            let kind = self.rng.between(3, 255) as u8;
            return self.uninterpreted([token, mode, kind]);
        }
        let head = [token, mode, self.rng.pick(&[0, 1, 2])];
        self.span(head)
    }

    /// A type, mostly one that is interpreted or the first that is not.
    fn any_kind(&mut self) -> u8 {
        let some = self.rng.octet();
        self.rng.pick(&[0, 1, 2, 3, 255, some])
    }

    fn uninterpreted(&mut self, head: [u8; 3]) -> Vec<u8> {
        let most = self.rng.pick(&[1, 4, 12, 20, 253]);
        let length = self.rng.place(most);
        let mut contents = head.to_vec();
        contents.extend_from_slice(&self.rng.octets(length));
        contents
    }

    fn span(&mut self, head: [u8; 3]) -> Vec<u8> {
        let channel = self.channel();
        let (some_start, some_duration) = (self.rng.next(), self.rng.u16());
        let start = self.rng.pick(&[0, 1, u64::MAX, some_start]);
        let duration = self.rng.pick(&[0, 1, 65_535, some_duration]);
        measured(head, channel, start, duration)
    }

    pub fn measurement_report(&mut self) -> Vec<u8> {
        let token = self.rng.octet();
        let mut frame = self.opening(1, Some(token));
        self.vendors_in_front(&mut frame);
        let many = self.many();
        for _ in 0..many.unwrap_or(LONGEST) {
            let contents = self.report_contents();
            if many.is_none() && frame.len() + 2 + contents.len() > LONGEST {
                break;
            }
            let id = self.id(39);
            self.put(&mut frame, id, contents);
            if many.is_some() {
                self.vendors(&mut frame);
            }
        }
        self.close(&mut frame);
        frame
    }

    fn report_contents(&mut self) -> Vec<u8> {
        let token = self.rng.octet();
        let reserved = if self.rng.one_in(3) {
            self.rng.octet() & 0b1111_1000
        } else {
            0
        };
        if self.wrong() {
            // More than one mode bit, at any length.
            let mode = reserved | self.rng.pick(&[3, 5, 6, 7]);
            let kind = self.rng.pick(&[0, 1, 2, 3, 255]);
            return self.uninterpreted([token, mode, kind]);
        }
        if self.rng.one_in(3) {
            let mode = reserved | self.rng.pick(&[1, 2, 4]);
            return vec![token, mode, self.any_kind()];
        }
        if self.rng.one_in(4) {
            let kind = self.rng.between(3, 255) as u8;
            return self.uninterpreted([token, reserved, kind]);
        }
        let kind = self.rng.pick(&[0, 1, 2]);
        let mut contents = self.span([token, reserved, kind]);
        match kind {
            0 => contents.push(self.map()),
            1 => contents.push(self.rng.octet()),
            _ => contents.extend_from_slice(&self.rng.octets(8)),
        }
        contents
    }

    /// Unmeasured alone, or any of the four that can be found; bits 5 to 7 are
    /// reserved.
    fn map(&mut self) -> u8 {
        let reserved = if self.rng.one_in(3) {
            self.rng.octet() & 0b1110_0000
        } else {
            0
        };
        let found = self.rng.octet() & 0b1111;
        if self.wrong() {
            return reserved | 0b1_0000 | found;
        }
        reserved | if self.rng.one_in(3) { 0b1_0000 } else { found }
    }
}
