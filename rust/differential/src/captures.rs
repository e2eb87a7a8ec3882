//! Stations, by captures: the list shows the answer to every record, so the
//! lists of both sides show whether their stations go the same way.

use crate::builder::{
    action, element, measurements, mutate, notice, padding, quiet, soup, vendors, Builder, Stage,
    ALL_ONES, BEACON, HEADER, NOTICE, PROBE_RESPONSE,
};
use crate::count::{Asked, Call, Count};
use crate::lend::{hex, lend, Left};
use crate::rng::Rng;
use crate::tape::{
    block, damage, record, record_saying, seal, sound, Tape, ADVANCE, ASK, BLOCK, FRAME, HEAD,
    PAYLOAD, ROOM, START,
};

const SEED: u64 = 0x8021_1000_2003_0006;

/// Evenings in which every unit is asked about.
const DENSE: usize = 1_600;
/// Evenings of some dozen records, and files that are changed afterwards.
const SHORT: usize = 6_000;
const CHANGED: usize = 6_000;
/// Evenings of some thousand records.
const LONG: usize = 160;
/// The beacon intervals of evenings that reach the clock's limit. That limit is
/// 65,537 times 65,535, so it is a TBTT for some of them.
const AT_THE_LIMIT: [u16; 10] = [
    65_535, 1, 65_534, 100, 32_768, 65_535, 2, 255, 65_535, 10_000,
];

/// The clock's limit, and the longest advance and ask.
const LIMIT: u64 = 4_294_967_295;
const STEP: u64 = 65_535;

pub fn run(count: &mut Count) {
    let mut rng = count.begin("captures", SEED);
    example(count);
    files(count, &mut rng);
    blocks(count, &mut rng);
    records(count, &mut rng);
    starts(count);
    places(count, &mut rng);
    for _ in 0..DENSE {
        dense_evening(count, &mut rng);
    }
    for _ in 0..SHORT {
        short_evening(count, &mut rng);
    }
    for _ in 0..CHANGED {
        changed_file(count, &mut rng);
    }
    for _ in 0..LONG {
        long_evening(count, &mut rng);
    }
    for interval in AT_THE_LIMIT {
        evening_at_the_limit(count, &mut rng, interval);
    }
}

/// Compares the lists of a capture, in buffers that are exact, one octet short,
/// longer and empty, and counts what the lines say.
fn compare(count: &mut Count, capture: &[u8]) {
    let list = twin::list(capture);
    for length in [0, list.len() - 1, list.len() + 77] {
        in_length(count, capture, &list, length);
    }
    let exact = in_length(count, capture, &list, list.len());
    tally(count, exact.written());
}

/// Compares in one buffer. The twin gives its list whole; in a lent buffer it
/// stands in front, or the buffer is too short: 13.
fn in_length(count: &mut Count, capture: &[u8], list: &[u8], length: usize) -> Left {
    let library = lend(length, |out| oneiralth::list(capture, out));
    let twin = lend(length, |out| match out.get_mut(..list.len()) {
        None => Err(13),
        Some(front) => {
            front.copy_from_slice(list);
            Ok(list.len())
        }
    });
    count.buffers(Call::List, &library, &twin, || {
        let place = first_difference(library.buffer(), twin.buffer());
        format!("capture {}, {} octets, {}", packed(capture), length, place)
    });
    library
}

/// The first line in which two lists differ, if they do.
fn first_difference(library: &[u8], twin: &[u8]) -> String {
    let lines = |list: &[u8]| -> Vec<String> {
        let text = String::from_utf8_lossy(list);
        text.lines().map(str::to_string).collect()
    };
    let (library, twin) = (lines(library), lines(twin));
    let place = library
        .iter()
        .zip(&twin)
        .position(|(one, other)| one != other);
    match place {
        None => "no line differs".to_string(),
        Some(place) => format!("line '{}' against '{}'", library[place], twin[place]),
    }
}

/// A capture in hexadecimal, in which equal blocks in a row are said once.
fn packed(capture: &[u8]) -> String {
    let mut text = String::new();
    let mut blocks = capture.chunks(BLOCK).peekable();
    while let Some(block) = blocks.next() {
        let mut times = 1;
        while blocks.peek() == Some(&block) {
            blocks.next();
            times += 1;
        }
        text.push_str(&format!("[{} times {}]", times, hex(block)));
    }
    text
}

/// Counts the answers in a list. A line that is not of a list's form is a
/// difference, which `compare` has told.
fn tally(count: &mut Count, list: &[u8]) {
    for line in String::from_utf8_lossy(list).lines() {
        let words: Vec<&str> = line.split(' ').collect();
        let (word, answer) = match words[..] {
            [_, word, answer] => (word, answer.parse().unwrap_or(u8::MAX)),
            [_, "frame", answer, place] if place.parse::<usize>().is_ok() => {
                count.note(Call::PlacedLine, answer.parse().unwrap_or(u8::MAX));
                continue;
            }
            _ => continue,
        };
        match word {
            "start" => count.note(Call::StartLine, answer),
            "advance" => count.note(Call::AdvanceLine, answer),
            "frame" => count.note(Call::FrameLine, answer),
            "ask" if answer < 6 => count.note_ask(Asked::Line, answer),
            "ask" => count.note(Call::AskLine, answer),
            "record" => count.note(Call::RecordLine, answer),
            "block" => count.note(Call::BlockLine, answer),
            _ => {}
        }
    }
}

fn start(stage: &Stage, channel: u8) -> Vec<u8> {
    let mut contents = stage.own.to_vec();
    contents.extend_from_slice(&stage.ap);
    contents.push(channel);
    contents.extend_from_slice(&stage.interval.to_le_bytes());
    record(START, &contents)
}

fn advance(units: u16) -> Vec<u8> {
    record(ADVANCE, &units.to_le_bytes())
}

fn ask(units: u16) -> Vec<u8> {
    record(ASK, &units.to_le_bytes())
}

/// The document's own example, with its list: both sides, and this test's way
/// of making captures, are held to it.
fn example(count: &mut Count) {
    let stage = Stage::usual(100);
    let announcement = action(&stage, &[0x00, 0x04, 0x25, 0x03, 0x01, 0x2C, 0x02]);
    let capture = sound(&[
        start(&stage, 36),
        record(FRAME, &announcement),
        ask(1),
        advance(100),
        ask(1),
        advance(100),
        ask(1),
    ]);
    let list = "1 start 0\n2 frame 0\n3 ask 1\n4 advance 0\n5 ask 1\n6 advance 0\n7 ask 0\n\
                blocks 1 damaged 0\n";
    for length in 0..=list.len() + 3 {
        in_length(count, &capture, list.as_bytes(), length);
    }
    let twin = twin::list(&capture);
    count.twin_gives(&twin, &list.as_bytes().to_vec(), || {
        "the document's example".to_string()
    });
}

/// Files of no octet, of one, of parts of blocks; and one of three blocks cut
/// at every length.
fn files(count: &mut Count, rng: &mut Rng) {
    compare(count, &[]);
    for length in [1, 2, 3, 509, 510, 511, 512, 513, 1023, 1024, 1025] {
        compare(count, &vec![0; length]);
        compare(count, &vec![1; length]);
        compare(count, &vec![255; length]);
        compare(count, &rng.octets(length));
    }
    let stage = Stage::usual(100);
    let file = [
        sound(&[start(&stage, 36), ask(1), advance(5)]),
        sound(&[ask(2), advance(6), ask(0)]),
        sound(&[advance(7), start(&stage, 37), ask(3)]),
    ]
    .concat();
    for length in 0..=file.len() {
        compare(count, &file[..length]);
    }
    // What follows a damaged block, a malformed record and a refused start has
    // no station.
    let nobody = sound(&[
        ask(1),
        advance(1),
        record(FRAME, &[]),
        start(&stage, 1),
        ask(1),
    ]);
    let mut damaged = sound(&[ask(1)]);
    damaged[510] ^= 1;
    let malformed = sound(&[ask(1), record(9, &[]), start(&stage, 1)]);
    let refused = sound(&[ask(1), start(&stage, 201)]);
    let first = sound(&[start(&stage, 36)]);
    for middle in [damaged, malformed, refused, nobody.clone(), first.clone()] {
        compare(count, &[&first[..], &middle, &nobody].concat());
        compare(
            count,
            &[&middle[..], &first, &middle, &nobody, &middle].concat(),
        );
    }
}

/// Every used length around the limits, every check near the right one, and
/// every octet of a block changed.
fn blocks(count: &mut Count, rng: &mut Rng) {
    let stage = Stage::usual(100);
    let first = sound(&[start(&stage, 36)]);
    let many: Vec<u8> = (0..ROOM).flat_map(|_| ask(1)).take(ROOM).collect();
    for used in (0..=1100)
        .chain((1101..=65_535).step_by(173))
        .chain([65_535])
    {
        let held = &many[..usize::from(used).min(ROOM)];
        for filler in [0, 255] {
            let capture = [&first[..], &block(used, held, filler), &first].concat();
            compare(count, &capture);
        }
    }
    for _ in 0..200 {
        let payload = rng.octets(ROOM);
        let mut other = block(rng.between(0, 520) as u16, &payload, 0);
        compare(count, &[&first[..], &other].concat());
        damage(rng, &mut other);
        compare(count, &[&first[..], &other].concat());
    }
    // The sum passes 65,536, ends at it, and just misses it.
    for octets in 250..=260 {
        let mut payload = vec![0; ROOM];
        payload[..octets].fill(255);
        for last in 0..=255 {
            payload[ROOM - 1] = last;
            let capture = [&first[..], &block(0, &payload, 0), &sound(&[ask(1)])].concat();
            let list = twin::list(&capture);
            in_length(count, &capture, &list, list.len());
        }
    }
    let block = sound(&[ask(1), advance(9), ask(2)]);
    for place in 0..BLOCK {
        for change in [1, 255] {
            let mut other = block.clone();
            other[place] = other[place].wrapping_add(change);
            compare(count, &[&first[..], &other].concat());
            // The same with a check that is right for it.
            seal(&mut other);
            compare(count, &[&first[..], &other].concat());
        }
    }
}

/// Every kind with lengths of all sorts, among other records, and as the last
/// in a block that is full to the last octet or should have one or two more.
fn records(count: &mut Count, rng: &mut Rng) {
    let stage = Stage::usual(100);
    let first = sound(&[start(&stage, 36)]);
    let last = sound(&[ask(1), start(&stage, 36), ask(1)]);
    for kind in 0..=255 {
        for length in [0, 1, 2, 3, 14, 15, 16, 24, 65_535] {
            if kind > 6 && length % 5 != 2 {
                continue;
            }
            let contents = rng.octets(usize::from(length.min(30)));
            let odd = record_saying(kind, length, &contents);
            let middle = sound(&[ask(1), odd, advance(1), ask(1)]);
            compare(count, &[&first[..], &middle, &last].concat());
        }
    }
    for kind in [ADVANCE, FRAME, ASK, START] {
        for before in 0..=4 {
            // So many asks leave room for a record that fills the block.
            let asks: Vec<Vec<u8>> = (0..before * 25).map(|_| ask(1)).collect();
            let left = ROOM - before * 125 - HEAD;
            for length in [left.saturating_sub(1), left, left + 1, left + 2] {
                let mut records = asks.clone();
                let contents = vec![0; left.min(length)];
                records.push(record_saying(kind, length as u16, &contents));
                compare(count, &[&first[..], &sound(&records), &last].concat());
            }
        }
    }
    // One or two octets left over, which hold no head.
    for left_over in 0..=HEAD {
        for octet in 0..=5 {
            let records = [ask(1), vec![octet; left_over]];
            compare(count, &[&first[..], &sound(&records), &last].concat());
        }
    }
    // As many records as a block can have: frames of no octet.
    let frames: Vec<Vec<u8>> = (0..169).map(|_| record(FRAME, &[])).collect();
    compare(count, &[&first[..], &sound(&frames)].concat());
    compare(count, &sound(&[&frames[..], &[vec![FRAME]]].concat()));
}

/// Starts with each setting at its limits.
fn starts(count: &mut Count) {
    let usual = Stage::usual(100);
    for first in 0..=255 {
        let mut own = usual;
        own.own[0] = first;
        let mut ap = usual;
        ap.ap[0] = first;
        for stage in [own, ap] {
            let frame = record(FRAME, &notice(&stage, BEACON, &[]));
            compare(count, &sound(&[start(&stage, 36), ask(1), frame, ask(1)]));
        }
        compare(
            count,
            &sound(&[start(&usual, 36), start(&usual, first), ask(1)]),
        );
    }
    for interval in [0, 1, 2, 255, 256, 65_534, 65_535] {
        let stage = Stage::usual(interval);
        let frame = record(FRAME, &notice(&stage, BEACON, &[]));
        compare(
            count,
            &sound(&[start(&stage, 200), ask(1), frame, advance(1), ask(1)]),
        );
    }
}

/// Frames that break at each place that a frame in a record can have, the
/// longest record's last octet too: in the line the place follows the number.
fn places(count: &mut Count, rng: &mut Rng) {
    let stage = Stage::usual(100);
    let mut broken = Vec::new();
    for place in HEADER..ROOM - HEAD {
        // What stands before it is whole elements: no single octet, and in a
        // report no fewer than five.
        if place >= NOTICE && place != NOTICE + 1 {
            let before = padding(rng, place - NOTICE);
            for (number, last) in [(6, &[32][..]), (8, &[40, 0])] {
                let elements = [&before[..], last].concat();
                broken.push((number, place, notice(&stage, BEACON, &elements)));
            }
        }
        let opening = HEADER + 3;
        if place == opening || place >= opening + 5 {
            let before = measurements(rng, 39, place - opening);
            let body = [&[0, 1, 0][..], &before, &[38, 0]].concat();
            broken.push((21, place, action(&stage, &body)));
        }
        let after = HEADER + 5;
        if place == after || place >= after + 2 {
            let before = vendors(rng, place - after);
            let body = [&[0, 2, 7, 34, 0][..], &before, &[34]].concat();
            broken.push((22, place, action(&stage, &body)));
        }
    }
    let mut interval = notice(&stage, BEACON, &[]);
    interval[HEADER + 8] ^= 1;
    let nine = element(40, &quiet(1, 0, 1, 0)).repeat(9);
    broken.extend([
        (5, HEADER, action(&stage, &[1])),
        (5, HEADER + 1, action(&stage, &[0, 5])),
        (7, HEADER + 2, action(&stage, &[0, 4])),
        (7, HEADER + 3, action(&stage, &[0, 1, 0])),
        (9, HEADER + 2, action(&stage, &[0, 2, 0])),
        (10, NOTICE + 3, notice(&stage, BEACON, &[32, 1, 3, 32, 1, 3])),
        (11, NOTICE + 64, notice(&stage, BEACON, &nine)),
        (12, HEADER + 8, interval),
    ]);
    let first = sound(&[start(&stage, 36)]);
    for (number, place, frame) in broken {
        if frame.len() > ROOM - HEAD {
            continue;
        }
        let capture = [&first[..], &sound(&[record(FRAME, &frame)])].concat();
        let list = format!("1 start 0\n2 frame {number} {place}\nblocks 2 damaged 0\n");
        for length in [0, list.len() - 1, list.len() + 3] {
            in_length(count, &capture, list.as_bytes(), length);
        }
        let exact = in_length(count, &capture, list.as_bytes(), list.len());
        tally(count, exact.written());
        count.twin_gives(&twin::list(&capture), &list.clone().into_bytes(), || {
            format!("frame {}", hex(&frame))
        });
    }
}

/// An evening with one station after the other. It keeps account of the
/// moments at which something begins or ends, only to look there: what is
/// right at such a moment the two sides say.
struct Evening<'a> {
    rng: &'a mut Rng,
    tape: Tape,
    stage: Stage,
    clock: u64,
    marks: Vec<u64>,
    /// Whether there is a station, as far as this account goes: without one
    /// every answer is 19, which is soon seen.
    followed: bool,
    /// Something that takes the station away comes once in so many steps.
    rough: u64,
}

impl<'a> Evening<'a> {
    fn new(rng: &'a mut Rng, rough: u64) -> Evening<'a> {
        Evening {
            rng,
            tape: Tape::new(),
            stage: Stage::usual(100),
            clock: 0,
            marks: Vec::new(),
            followed: false,
            rough,
        }
    }

    fn put(&mut self, record: &[u8]) {
        self.tape.put(self.rng, record);
    }

    /// A start that is accepted, with some interval or a given one.
    fn start(&mut self, interval: Option<u16>) {
        self.stage = Stage::at_random(self.rng);
        // No group bit.
        self.stage.own[0] &= 0xFE;
        self.stage.ap[0] &= 0xFE;
        let some = self.rng.between(1, 65_535) as u16;
        self.stage.interval = interval.unwrap_or_else(|| {
            let usual = [
                1, 2, 3, 5, 7, 10, 16, 33, 100, 100, 100, 255, 1000, 65_535, some,
            ];
            self.rng.pick(&usual)
        });
        self.clock = 0;
        self.marks.clear();
        self.followed = true;
        let channel = self.rng.below(201) as u8;
        self.put(&start(&self.stage, channel));
    }

    fn refused_start(&mut self) {
        let mut stage = self.stage;
        let mut channel = 36;
        match self.rng.below(4) {
            0 => stage.interval = 0,
            1 => channel = self.rng.between(201, 255) as u8,
            2 => stage.own[0] |= 1,
            _ => stage.ap[0] |= 1,
        }
        self.put(&start(&stage, channel));
    }

    fn advance(&mut self, units: u64) {
        self.put(&advance(units as u16));
        if self.clock + units <= LIMIT {
            self.clock += units;
        }
    }

    /// Advances to a moment, if it lies ahead and not too far.
    fn go_to(&mut self, moment: u64) -> bool {
        if moment < self.clock || moment - self.clock > 5 * STEP {
            return false;
        }
        while moment - self.clock > STEP && self.clock + STEP <= LIMIT {
            self.advance(STEP);
        }
        if moment > LIMIT {
            return false;
        }
        self.advance(moment - self.clock);
        true
    }

    fn ask(&mut self, units: u64) {
        self.put(&ask(units as u16));
    }

    /// A moment that is marked, and lies ahead or not far back.
    fn mark(&mut self) -> Option<u64> {
        let clock = self.clock;
        self.marks.retain(|&mark| mark + 3 > clock);
        if self.marks.len() > 24 {
            self.marks.drain(..12);
        }
        if self.marks.is_empty() {
            return None;
        }
        Some(self.rng.pick(&self.marks))
    }

    /// Asks to send until just before, at or after some mark.
    fn ask_up_to_mark(&mut self) {
        let mark = self.mark().unwrap_or(self.clock + 2);
        let units = (mark + self.rng.below(4)).saturating_sub(self.clock + 1);
        self.ask(units.min(STEP));
    }

    /// Looks around a mark, unit by unit.
    fn look_around_mark(&mut self) {
        let mark = match self.mark() {
            Some(mark) => mark,
            None => return,
        };
        if !self.go_to(mark.saturating_sub(2).max(self.clock)) {
            return;
        }
        for _ in 0..4 {
            self.ask(1);
            self.ask(2);
            self.ask_up_to_mark();
            self.advance(1);
        }
        self.ask(1);
    }

    /// The latest TBTT's number.
    fn k(&self) -> u64 {
        self.clock / u64::from(self.stage.interval)
    }

    /// The contents of a Quiet element whose runs touch, overlap, just miss
    /// each other, or have nothing to do with each other.
    fn quiet(&mut self) -> Vec<u8> {
        let interval = u64::from(self.stage.interval);
        let some = self.rng.between(1, 255);
        let count = self.rng.pick(&[1, 1, 1, 1, 2, 3, some]);
        let period = self.rng.pick(&[0, 0, 1, 1, 2, 3, some]);
        let near = match self.rng.below(3) {
            0 => period * interval,
            1 => interval,
            _ => self.rng.below(3 * interval),
        };
        let near = (near + self.rng.below(3)).saturating_sub(1);
        let short = self.rng.between(1, 12);
        let duration = self
            .rng
            .pick(&[0, 1, 2, short, short, near, near, STEP])
            .min(STEP);
        let some = self.rng.below(interval);
        let offset = self
            .rng
            .pick(&[0, 1, interval / 2, interval - 1, some])
            .min(interval - 1);
        let begin = (self.k() + count) * interval + offset;
        let later = begin + period * interval * self.rng.pick(&[0, 1, 1, 2, 3, 40]);
        self.marks
            .extend([begin, begin + duration, later, later + duration]);
        quiet(count as u8, period as u8, duration as u16, offset as u16)
    }

    /// The contents of an announcement.
    fn switch(&mut self) -> Vec<u8> {
        let some = self.rng.between(1, 255);
        let count = self.rng.pick(&[0, 1, 1, 1, 2, 2, 3, some]);
        if count > 0 {
            let moment = (self.k() + count) * u64::from(self.stage.interval);
            self.marks.push(moment);
        }
        let mode = self.rng.pick(&[0, 0, 0, 1]);
        vec![mode, self.rng.below(201) as u8, count as u8]
    }

    /// A beacon or probe response. One in eight has a fault, mostly after what
    /// would have changed something.
    fn beacon(&mut self) -> Vec<u8> {
        let mut elements = Vec::new();
        for _ in 0..self.rng.pick(&[0, 0, 1, 1, 1, 2, 2, 3, 8, 8]) {
            elements.push(element(40, &self.quiet()));
        }
        if self.rng.one_in(3) {
            elements.push(element(32, &[self.rng.octet()]));
        }
        if self.rng.one_in(4) {
            elements.push(element(37, &self.switch()));
        }
        if self.rng.one_in(3) {
            elements.push(element(0, &self.rng.octets(7)));
        }
        self.rng.shuffle(&mut elements);
        if self.rng.one_in(8) {
            elements.push(self.fault());
        }
        let subtype = self.rng.pick(&[BEACON, BEACON, PROBE_RESPONSE]);
        let mut frame = notice(&self.stage, subtype, &elements.concat());
        if self.rng.one_in(2) {
            frame[4..10].copy_from_slice(&self.stage.own);
        }
        frame
    }

    /// An element that can't be in a beacon, or can't be there again.
    fn fault(&mut self) -> Vec<u8> {
        match self.rng.below(7) {
            0 => vec![40],
            1 => vec![40, 6, 1, 0, 5],
            2 => element(40, &quiet(1, 0, 5, 0)[..5]),
            3 => element(40, &quiet(1, 1, 5, self.stage.interval)),
            4 => element(37, &[0, 201, 1]),
            5 => [element(32, &[1]), element(32, &[2])].concat(),
            _ => element(40, &quiet(1, 0, 1, 0)).repeat(9),
        }
    }

    /// One in eight has a fault, and then must count for nothing.
    fn announcement(&mut self) -> Vec<u8> {
        let mut body = [vec![0, 4], element(37, &self.switch())].concat();
        if self.rng.one_in(8) {
            match self.rng.below(7) {
                0 => body[self.rng.place(2)] = 5,
                1 => body.truncate(3 + self.rng.place(4)),
                2 => body.truncate(2),
                3 => {
                    body[3] += 1;
                    body.push(0);
                }
                4 => body[4] = 2,
                5 => body[2] = self.rng.pick(&[0, 36, 38]),
                _ => body.push(self.rng.pick(&[0, 37, 255])),
            }
        }
        let mut frame = action(&self.stage, &body);
        if self.rng.one_in(2) {
            frame[4..10].copy_from_slice(&ALL_ONES);
        }
        frame
    }

    /// A frame that is mostly taken, and changes something.
    fn hear(&mut self) {
        let mut frame = match self.rng.below(8) {
            0..=3 => self.beacon(),
            4 | 5 => self.announcement(),
            _ => {
                let faults = self.rng.pick(&[0, 12]);
                let stage = self.stage;
                Builder {
                    rng: self.rng,
                    stage,
                    faults,
                }
                .frame()
            }
        };
        if self.rng.one_in(8) {
            mutate(self.rng, &mut frame);
        }
        // Longer ones do not fit into a record.
        frame.truncate(ROOM - HEAD);
        self.put(&record(FRAME, &frame));
    }

    /// A frame just before, at or just after a mark: what it says may or may
    /// not come in time.
    fn hear_at_mark(&mut self) {
        if let Some(mark) = self.mark() {
            let moment = (mark + self.rng.below(3)).saturating_sub(1);
            self.go_to(moment.max(self.clock));
        }
        self.hear();
        self.ask(1);
        self.ask_up_to_mark();
    }

    /// Frames and asks at one moment.
    fn stand(&mut self) {
        for _ in 0..20 {
            self.hear();
            self.ask(1);
            for _ in 0..4 {
                self.ask_up_to_mark();
            }
            self.ask(STEP);
        }
    }

    /// Something that takes the station away, or puts another in its place.
    fn upset(&mut self) {
        self.followed = false;
        match self.rng.below(6) {
            0 => self.start(None),
            1 => self.refused_start(),
            2 => self.tape.put_malformed(self.rng),
            3 => self.tape.close_damaged(self.rng),
            4 => {
                let octets = soup(self.rng, 40);
                self.put(&octets);
            }
            _ => {
                // A block may end early: that upsets nothing.
                self.tape.close(self.rng);
                self.followed = true;
            }
        }
    }

    fn step(&mut self) {
        if self.rough != 0 && self.rng.one_in(self.rough) {
            self.upset();
        }
        if !self.followed && self.rng.one_in(3) {
            self.start(None);
        }
        match self.rng.below(20) {
            0..=5 => self.ask_up_to_mark(),
            6..=8 => self.look_around_mark(),
            9..=11 => {
                let most = 1 + 2 * u64::from(self.stage.interval);
                let units = self.rng.below(most).min(STEP);
                self.advance(units);
            }
            12..=14 => self.hear(),
            15 | 16 => self.hear_at_mark(),
            17 | 18 => {
                let some = u64::from(self.rng.u16());
                let units = self.rng.pick(&[0, 1, 2, some, STEP]);
                self.ask(units);
            }
            _ => {
                let units = self
                    .rng
                    .pick(&[0, 1, 1, u64::from(self.stage.interval), STEP]);
                self.advance(units);
            }
        }
    }

    fn finish(self) -> Vec<u8> {
        self.tape.finish(self.rng)
    }
}

/// A capture of few records, sometimes with a short last block.
fn some_capture(rng: &mut Rng) -> Vec<u8> {
    let rough = rng.pick(&[0, 20, 6]);
    let steps = rng.between(1, 40);
    let mut evening = Evening::new(rng, rough);
    if !evening.rng.one_in(20) {
        evening.start(None);
    }
    for _ in 0..steps {
        evening.step();
    }
    let mut capture = evening.finish();
    if rng.one_in(20) {
        capture.truncate(capture.len() - rng.place(BLOCK.min(capture.len() + 1)));
    }
    capture
}

/// Short beacon intervals, a few frames, and at every unit asks of every length
/// up to ten: nothing that begins or ends falls between two asks.
fn dense_evening(count: &mut Count, rng: &mut Rng) {
    let mut evening = Evening::new(rng, 0);
    let interval = evening.rng.between(1, 6) as u16;
    evening.start(Some(interval));
    let frames = evening.rng.pick(&[20, 8, 3]);
    for unit in 0..25 {
        if unit == 0 || evening.rng.one_in(frames) {
            let frame = if evening.rng.one_in(3) {
                evening.announcement()
            } else {
                evening.beacon()
            };
            evening.put(&record(FRAME, &frame));
        }
        for units in 1..=10 {
            evening.ask(units);
        }
        evening.advance(1);
    }
    compare(count, &evening.finish());
}

fn short_evening(count: &mut Count, rng: &mut Rng) {
    compare(count, &some_capture(rng));
}

/// A capture in which some octets are changed, in blocks that get a check which
/// is right again, or do not.
fn changed_file(count: &mut Count, rng: &mut Rng) {
    let mut capture = some_capture(rng);
    for block in capture.chunks_exact_mut(BLOCK) {
        for _ in 0..rng.below(4) {
            let used = usize::from(u16::from_le_bytes([block[0], block[1]])).min(ROOM);
            let place = match rng.below(6) {
                0 => rng.place(PAYLOAD),
                _ => PAYLOAD + rng.place(used + 1),
            };
            block[place] = match rng.below(3) {
                0 => block[place] ^ 1 << rng.below(8),
                1 => rng.below(6) as u8,
                _ => rng.octet(),
            };
        }
        if !rng.one_in(20) {
            seal(block);
        }
    }
    compare(count, &capture);
}

/// Some thousand records, mostly of one station that is left in peace.
fn long_evening(count: &mut Count, rng: &mut Rng) {
    let rough = rng.pick(&[0, 1000, 100]);
    let mut evening = Evening::new(rng, rough);
    evening.start(None);
    for _ in 0..1200 {
        evening.step();
    }
    let capture = evening.finish();
    compare(count, &capture);
}

/// A station whose clock reaches its limit, so that switches and quiet
/// intervals lie past it: they are awaited, and asks see them.
fn evening_at_the_limit(count: &mut Count, rng: &mut Rng, interval: u16) {
    let mut evening = Evening::new(rng, 0);
    evening.start(Some(interval));
    // What is heard at the beginning repeats until the end.
    let contents = quiet(1, 3, interval / 2 + 1, interval / 3);
    let beacon = notice(&evening.stage, BEACON, &element(40, &contents));
    evening.put(&record(FRAME, &beacon));
    for _ in 0..65_537 - 3 {
        evening.advance(STEP);
    }
    let interval = u64::from(interval);
    for _ in 0..60 {
        evening.ask(1);
        evening.ask(2);
        let units = evening.rng.below(4 * interval).min(STEP);
        evening.ask(units);
        let units = evening.rng.below(interval.min(1000));
        evening.advance(units);
    }
    // With a long beacon interval what is heard here begins past the limit.
    for before in [2 * STEP, STEP + 1, STEP, STEP - 1, 40_000, 5_000, 700] {
        evening.go_to(LIMIT - before);
        evening.stand();
    }
    for _ in 0..30 {
        evening.step();
    }
    for before in [200, 2, 1, 0] {
        evening.go_to(LIMIT - before);
        evening.stand();
    }
    evening.marks = vec![LIMIT];
    evening.look_around_mark();
    evening.advance(1);
    evening.advance(0);
    for _ in 0..200 {
        evening.step();
    }
    evening.start(None);
    for _ in 0..100 {
        evening.step();
    }
    let capture = evening.finish();
    compare(count, &capture);
}
