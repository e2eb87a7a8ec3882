//! Stations in octets that their caller keeps (02, Eight), beside the twin's:
//! by the exported calls, which may be lent any octets, and by the safe ones.

use crate::builder::{mutate, Builder, Stage, ALL_ONES, HEADER, LONGEST};
use crate::count::{Asked, Call, Count};
use crate::lend::{hex, lend, lend_after, Left};
use crate::pairs;
use crate::raw;
use crate::replies::{some_finding, some_length};
use crate::rng::Rng;
use crate::scenes::frames::{
    announcing_action, elements, fixed_fields, header, notice, other_action, quiet, with_header,
    Body, Kind,
};
use crate::scenes::moments::{some_interval, Moments, Now, LONGEST_STEP};
use oneiralth::answers::{BUFFER_SHORT, IMPOSSIBLE, PAST_CLOCK};
use oneiralth::places::{
    STATION_AP, STATION_CHANNEL, STATION_CLOCK, STATION_COUNT, STATION_INTERVAL, STATION_OWN,
    STATION_POWER, STATION_SCHEDULES, STATION_SCHEDULE_LENGTH, STATION_SWITCH, STATION_UNTIL,
    STATION_VERSION,
};
use oneiralth::station::SIZE;
use std::ops::Range;
use twin::{Finding, Frame};

const SEED: u64 = 0x8021_1000_2003_0008;

/// So many stations are followed, each for so many steps.
const STATIONS: usize = 1_000;
const STEPS: usize = 240;
/// One in so many goes on near the clock's limit, for so many steps more.
const LATE_ONE_IN: usize = 250;
const LATE_STEPS: usize = 120;

/// The octets of a record with as many schedules as there can be.
const LONGEST_RECORD: usize =
    STATION_SCHEDULES + twin::Station::SCHEDULE_LIMIT * STATION_SCHEDULE_LENGTH;

pub fn run(count: &mut Count) {
    let mut rng = count.begin("records", SEED);
    count.library_gives(&raw::station_size(), &Ok(SIZE), || "size".to_string());
    starts(count, &mut rng);
    nothing_started(count, &mut rng);
    let mut memory = rng.octets(SIZE);
    for number in 1..=STATIONS {
        memory = follow(count, &mut rng, memory, number % LATE_ONE_IN == 0);
    }
}

/// What a call on a record answers, and whether it left what it must: after a
/// refusal every octet, and else every octet that is no part of the record.
fn changed(
    count: &mut Count,
    call: Call,
    left: &Left,
    front: usize,
    expected: Result<usize, u8>,
    input: impl FnOnce() -> String,
) {
    count.note(call, left.answer.err().unwrap_or(0));
    let is_kept = match left.answer {
        Ok(_) => left.is_as_before_but(record_in(left.buffer(), front)),
        Err(_) => left.is_as_before(),
    };
    count.compare(&(left.answer, is_kept), &(expected, true), input);
}

/// What a call gives that only reads the record.
fn only_read(
    count: &mut Count,
    call: Call,
    left: &Left,
    expected: Result<usize, u8>,
    input: impl FnOnce() -> String,
) {
    count.note(call, left.answer.err().unwrap_or(0));
    count.compare(
        &(left.answer, left.is_as_before()),
        &(expected, true),
        input,
    );
}

/// Where the record is that begins here, by how many schedules it says are in
/// use. The buffer may end before that if there is no record.
fn record_in(octets: &[u8], front: usize) -> Range<usize> {
    let schedules = octets
        .get(front + STATION_COUNT)
        .map_or(0, |&count| usize::from(count));
    let end = front + STATION_SCHEDULES + schedules * STATION_SCHEDULE_LENGTH;
    front..end.min(octets.len())
}

/// Settings at their limits, in memory of every length around those of a record
/// and of the octets that must be set aside: 15 comes before 13.
fn starts(count: &mut Count, rng: &mut Rng) {
    let usual = Stage::usual(100);
    let mut settings = vec![
        (Stage::usual(0), 36),
        (Stage::usual(1), 200),
        (Stage::usual(65_535), 0),
    ];
    for first in 0..=255 {
        let (mut own, mut ap) = (usual, usual);
        own.own[0] = first;
        ap.ap[0] = first;
        settings.extend([(own, 36), (ap, 36), (usual, first)]);
    }
    for (stage, channel) in settings {
        start(count, &stage, channel, rng.place(2 * SIZE));
        for length in [0, 1, STATION_SCHEDULES, SIZE - 1, SIZE, SIZE + 1] {
            start(count, &stage, channel, length);
        }
    }
}

fn start(count: &mut Count, stage: &Stage, channel: u8, length: usize) {
    let told = || format!("start {stage:x?}, channel {channel}, {length} octets");
    let twin = twin::Station::start(stage.own, stage.ap, stage.interval, channel).map(|_| 0);
    let safe = oneiralth::Station::start(stage.settings(), channel).map(|_| 0);
    count.compare(&safe, &twin, told);
    let room = if length < SIZE {
        Err(BUFFER_SHORT)
    } else {
        Ok(0)
    };
    let left = lend(length, |memory| raw::station_start(stage, channel, memory));
    changed(count, Call::RecordStart, &left, 0, twin.and(room), told);
}

/// Memory in which no station was started: of all sorts, and of few octets.
fn nothing_started(count: &mut Count, rng: &mut Rng) {
    let stage = Stage::usual(100);
    for length in (0..SIZE).step_by(7).chain([SIZE - 1, SIZE, SIZE + 9]) {
        for octet in [0, 1, 2, 255] {
            Octets::of(&vec![octet; length]).try_all(count, rng, &stage);
        }
        let octets = rng.octets(length);
        Octets::of(&octets).try_all(count, rng, &stage);
    }
}

/// What every call must know of the station that octets hold.
#[derive(Clone, Copy)]
struct Held {
    stage: Stage,
    clock: u32,
}

fn number_at(octets: &[u8], place: usize, length: usize) -> u64 {
    let number = |number, &octet: &u8| number << 8 | u64::from(octet);
    octets[place..place + length].iter().rev().fold(0, number)
}

fn address_at(octets: &[u8], place: usize) -> [u8; 6] {
    std::array::from_fn(|i| octets[place + i])
}

/// The station that octets hold, if they hold one: by the layout, settings that
/// a station may be started with, and nothing that no call leaves.
fn held(octets: &[u8]) -> Option<Held> {
    let record = octets.get(..SIZE)?;
    let stage = Stage {
        own: address_at(record, STATION_OWN),
        ap: address_at(record, STATION_AP),
        interval: number_at(record, STATION_INTERVAL, 2) as u16,
    };
    let clock = number_at(record, STATION_CLOCK, 4) as u32;
    let channel = record[STATION_CHANNEL];
    let is_sound = record[STATION_VERSION] == 1
        && twin::Station::start(stage.own, stage.ap, stage.interval, channel).is_ok()
        && is_power(&record[STATION_POWER..STATION_SWITCH])
        && is_switch(&record[STATION_SWITCH..STATION_UNTIL], clock)
        && usize::from(record[STATION_COUNT]) <= twin::Station::SCHEDULE_LIMIT;
    is_sound.then_some(Held { stage, clock })
}

/// A Power Constraint, or zeros.
fn is_power(octets: &[u8]) -> bool {
    octets[0] == 1 || octets == [0, 0]
}

/// A switch that may be pending at the clock, or zeros.
fn is_switch(octets: &[u8], clock: u32) -> bool {
    match octets[0] {
        0 => octets.iter().all(|&octet| octet == 0),
        1 => {
            let (mode, channel, moment) = (octets[1], octets[2], number_at(octets, 3, 8));
            mode <= 1 && channel <= twin::Station::CHANNEL_LIMIT && moment > u64::from(clock)
        }
        _ => false,
    }
}

/// Octets that are lent to calls, with the station that they hold, if any.
struct Octets<'a> {
    octets: &'a [u8],
    held: Option<Held>,
}

impl<'a> Octets<'a> {
    fn of(octets: &'a [u8]) -> Octets<'a> {
        Octets {
            octets,
            held: held(octets),
        }
    }

    /// Every call on them, with frames that the station there may hear, or else
    /// one of the stage.
    fn try_all(&self, count: &mut Count, rng: &mut Rng, stage: &Stage) {
        self.ask(count);
        self.take_in(count);
        self.advance(count, rng.pick(&[0, 1, 65_535, 65_536, u32::MAX]));
        let stage = self.held.map_or(*stage, |held| held.stage);
        self.take(count, &some_frame(rng, &stage));
        let frame = some_request(rng, &stage);
        self.reply_to_tpc(count, rng, &frame, None);
        self.reply_to_measurement(count, rng, &frame, None);
    }

    /// What a call must answer: 16 where no station is held, and else what this
    /// says of the one that is.
    fn expected(&self, answer: impl FnOnce(Held) -> Result<usize, u8>) -> Result<usize, u8> {
        answer(self.held.ok_or(IMPOSSIBLE)?)
    }

    fn lent(&self, call: impl FnOnce(&mut [u8]) -> Result<usize, u8>) -> Left {
        lend_after(self.octets, self.octets.len(), call)
    }

    fn told(&self, call: &str) -> String {
        format!("{call}, octets {}", hex(self.octets))
    }

    /// Which of the six answers it is, no twin of such octets can say.
    fn ask(&self, count: &mut Count) {
        let is_none = |answer| usize::from(answer > 5);
        let left = self.lent(|station| raw::station_ask(station, 1).map(is_none));
        let expected = self.expected(|_| Ok(0));
        only_read(count, Call::RecordAsk, &left, expected, || self.told("ask"));
    }

    /// The safe station that has these octets.
    fn take_in(&self, count: &mut Count) {
        let first = self
            .octets
            .get(..SIZE)
            .and_then(|first| first.try_into().ok());
        if let Some(first) = first {
            let safe = oneiralth::Station::from_octets(first).map(|_| 0);
            let expected = self.expected(|_| Ok(0));
            count.library_gives(&safe, &expected, || self.told("from_octets"));
        }
    }

    fn advance(&self, count: &mut Count, units: u32) {
        let left = self.lent(|station| raw::station_advance(station, units));
        let expected = self.expected(|held| match held.clock.checked_add(units) {
            Some(_) if u64::from(units) <= LONGEST_STEP => Ok(0),
            _ => Err(PAST_CLOCK),
        });
        let told = || self.told(&format!("advance {units}"));
        changed(count, Call::RecordAdvance, &left, 0, expected, told);
        self.is_held_still(count, &left, told);
    }

    fn take(&self, count: &mut Count, frame: &[u8]) {
        let left = self.lent(|station| raw::station_take(station, frame));
        let expected = self.expected(|Held { stage, .. }| {
            let read = twin::read_frame(frame, stage.own, stage.ap, stage.interval);
            read.map(|_| 0).map_err(|refusal| refusal.number)
        });
        let told = || self.told(&format!("frame {}", hex(frame)));
        changed(count, Call::RecordTake, &left, 0, expected, told);
        self.is_held_still(count, &left, told);
    }

    /// Whether a call left a station where there was one, and none elsewhere.
    fn is_held_still(&self, count: &mut Count, left: &Left, told: impl FnOnce() -> String) {
        let is_held = held(left.buffer()).is_some();
        count.library_gives(&is_held, &self.held.is_some(), told);
    }

    /// The reply to a TPC Request of the station here, and of the same station by
    /// the safe call, if there is one.
    fn reply_to_tpc(
        &self,
        count: &mut Count,
        rng: &mut Rng,
        frame: &[u8],
        safe: Option<&oneiralth::Station>,
    ) {
        let report = (rng.octet() as i8, rng.octet() as i8);
        let length = some_length(rng, frame, &[0, 30, 31, 32, 60]);
        let told = || self.told(&format!("{report:?} in {length} octets to {}", hex(frame)));
        let twin = lend(length, |out| {
            self.expected(|Held { stage, .. }| {
                twin::reply_to_tpc_request(frame, stage.own, stage.ap, report.0, report.1, out)
            })
        });
        let station = self.octets.to_vec();
        let library = lend(length, |out| {
            raw::station_reply_to_tpc_request(&station, frame, report, out)
        });
        count.buffers(Call::RecordTpc, &library, &twin, told);
        count.library_gives(&&station[..], &self.octets, told);
        if let Some(safe) = safe {
            let report = pairs::tpc(report);
            let library = lend(length, |out| safe.reply_to_tpc_request(frame, report, out));
            count.buffers(Call::RecordTpc, &library, &twin, told);
        }
    }

    /// The same for an element of a Measurement Request.
    fn reply_to_measurement(
        &self,
        count: &mut Count,
        rng: &mut Rng,
        frame: &[u8],
        safe: Option<&oneiralth::Station>,
    ) {
        let (index, finding) = some_reading(rng, frame);
        let length = some_length(rng, frame, &[0, 31, 32, 43, 44, 50, 51, 60]);
        let told = || {
            let frame = hex(frame);
            self.told(&format!(
                "{finding:x?} in {length} octets to {index} of {frame}"
            ))
        };
        let twin = lend(length, |out| {
            self.expected(|Held { stage, clock }| {
                let (own, ap) = (stage.own, stage.ap);
                twin::reply_to_measurement_request(frame, own, ap, clock, index, finding, out)
            })
        });
        let station = self.octets.to_vec();
        let library = lend(length, |out| {
            raw::station_reply_to_measurement_request(&station, frame, index, finding, out)
        });
        count.buffers(Call::RecordMeasurement, &library, &twin, told);
        count.library_gives(&&station[..], &self.octets, told);
        if let Some(safe) = safe {
            let finding = pairs::finding(finding);
            let library = lend(length, |out| {
                safe.reply_to_measurement_request(frame, index, finding, out)
            });
            count.buffers(Call::RecordMeasurement, &library, &twin, told);
        }
    }
}

/// An index, and what was found in the duration of the first element, if it has
/// one.
fn some_reading(rng: &mut Rng, frame: &[u8]) -> (usize, Finding) {
    let duration = match frame.get(HEADER + 17..HEADER + 19) {
        Some(octets) => number_at(octets, 0, 2) as u16,
        None => 0,
    };
    (rng.pick(&[0, 0, 0, 1, 5]), some_finding(rng, duration))
}

/// A frame that mostly changes something, or one of any sort.
fn some_frame(rng: &mut Rng, stage: &Stage) -> Vec<u8> {
    let body = some_body(rng, stage.interval);
    let da = rng.pick(&[stage.own, ALL_ONES]);
    let header = header(body.kind, da, stage.ap, stage.ap);
    let mut frame = match rng.below(10) {
        0 | 1 => some_builder(rng, stage).frame(),
        2 => with_header(rng, &body, header).octets,
        _ => body.whole(&header).octets,
    };
    if rng.one_in(12) {
        mutate(rng, &mut frame);
    }
    frame
}

fn some_body(rng: &mut Rng, interval: u16) -> Body {
    match rng.below(10) {
        0..=6 => some_notice(rng, interval),
        7 | 8 => announcing_action(rng),
        _ => other_action(rng),
    }
}

/// A beacon or a probe response; one in four has about as many Quiet elements as
/// there can be.
fn some_notice(rng: &mut Rng, interval: u16) -> Body {
    let kind = rng.pick(&[Kind::Beacon, Kind::Beacon, Kind::Probe]);
    let announces = rng.one_in(4);
    let mut elements = elements(rng, announces, interval);
    if rng.one_in(4) {
        let more = rng.between(4, 8);
        elements.extend((0..more).map(|_| quiet(rng, interval)));
    }
    rng.shuffle(&mut elements);
    let fixed_fields = fixed_fields(rng, interval);
    notice(rng, kind, fixed_fields, elements)
}

fn some_builder<'a>(rng: &'a mut Rng, stage: &Stage) -> Builder<'a> {
    let faults = rng.pick(&[0, 0, 40, 15]);
    Builder {
        rng,
        stage: *stage,
        faults,
    }
}

/// A frame that a reply may be due to.
fn some_request(rng: &mut Rng, stage: &Stage) -> Vec<u8> {
    let mut builder = some_builder(rng, stage);
    let mut frame = match builder.rng.below(5) {
        0 => builder.frame(),
        1 | 2 => builder.tpc_request(),
        _ => builder.measurement_request(),
    };
    match rng.below(24) {
        0..=2 => mutate(rng, &mut frame),
        3 => frame.resize(LONGEST + 1, 0),
        _ => {}
    }
    frame
}

/// Follows a station that is started in this memory, which may hold another,
/// and gives back the memory.
fn follow(count: &mut Count, rng: &mut Rng, memory: Vec<u8>, is_late: bool) -> Vec<u8> {
    let mut followed = Followed::start(count, rng, memory);
    for _ in 0..STEPS {
        followed.step(count, rng);
    }
    if is_late {
        followed.go_late(count, rng);
        for _ in 0..LATE_STEPS {
            followed.step(count, rng);
        }
    }
    followed.memory
}

/// A station on both sides, and by the safe calls.
struct Followed {
    stage: Stage,
    /// The octets that are lent. The record begins at `front`, aligned or not.
    memory: Vec<u8>,
    front: usize,
    safe: oneiralth::Station,
    twin: twin::Station,
    /// The schedules in use, as the record must have them.
    schedules: Vec<u8>,
    moments: Moments,
}

impl Followed {
    fn start(count: &mut Count, rng: &mut Rng, mut memory: Vec<u8>) -> Followed {
        let mut stage = Stage::at_random(rng);
        stage.own[0] &= 0xFE;
        stage.ap[0] &= 0xFE;
        stage.interval = some_interval(rng);
        let channel = rng.below(201) as u8;
        let front = rng.place(9);
        memory.resize(front + SIZE + rng.place(9), rng.octet());
        let mut followed = Followed {
            stage,
            memory,
            front,
            safe: oneiralth::Station::start(stage.settings(), channel)
                .expect("settings that are right"),
            twin: twin::Station::start(stage.own, stage.ap, stage.interval, channel)
                .expect("settings that are right"),
            schedules: Vec::new(),
            moments: Moments::new(stage.interval, rng.pick(&[3, 6, 9])),
        };
        let left = followed.lent(|station| raw::station_start(&stage, channel, station));
        followed.call(count, Call::RecordStart, left, Ok(()), Ok(()), "start");
        followed
    }

    fn step(&mut self, count: &mut Count, rng: &mut Rng) {
        match rng.below(20) {
            0..=4 => {
                let frame = some_frame(rng, &self.stage);
                self.take(count, &frame);
            }
            5..=9 => {
                let units = self.moments.units_to_advance(rng, self.now());
                self.advance(count, units);
            }
            10..=15 => {
                let units = self.moments.units_to_ask(rng, self.now());
                self.ask(count, units);
            }
            16 | 17 => self.reply(count, rng),
            18 => self.stir(rng),
            _ => self.spoil(count, rng),
        }
    }

    fn now(&self) -> Now {
        Now {
            clock: u64::from(self.twin.clock()),
            pending: self.twin.pending_switch().map(|switch| switch.moment),
        }
    }

    /// Lends the octets from the record's first on.
    fn lent(&self, call: impl FnOnce(&mut [u8]) -> Result<usize, u8>) -> Left {
        lend_after(&self.memory, self.memory.len(), |memory| {
            call(&mut memory[self.front..])
        })
    }

    fn take(&mut self, count: &mut Count, frame: &[u8]) {
        let left = self.lent(|station| raw::station_take(station, frame));
        let safe = self.safe.take(frame);
        let twin = self.twin.take(frame).map_err(|refusal| refusal.number);
        if twin.is_ok() {
            self.note(frame);
        }
        self.call(
            count,
            Call::RecordTake,
            left,
            safe,
            twin,
            &format!("frame {}", hex(frame)),
        );
    }

    /// Notes the schedules that an accepted frame sets. A switch at once leaves
    /// none.
    fn note(&mut self, frame: &[u8]) {
        let Stage { own, ap, interval } = self.stage;
        let received = twin::read_frame(frame, own, ap, interval).expect("the twin took it");
        let switch = match received.frame {
            Frame::Beacon(notice) | Frame::ProbeResponse(notice) => {
                self.moments.note(u64::from(self.twin.clock()), &notice);
                self.schedules = self.set_by(&notice.quiets);
                notice.switch
            }
            Frame::ChannelSwitch(switch) => Some(switch),
            _ => None,
        };
        if switch.map_or(false, |switch| switch.count == 0) {
            self.schedules.clear();
        }
    }

    /// "A Quiet element starts at S = (k + count) times B + offset", and again
    /// after each period times B.
    fn set_by(&self, quiets: &[twin::Quiet]) -> Vec<u8> {
        let b = u64::from(self.stage.interval);
        let k = u64::from(self.twin.clock()) / b;
        let mut schedules = Vec::new();
        for quiet in quiets {
            let start = (k + u64::from(quiet.count)) * b + u64::from(quiet.offset);
            schedules.extend(start.to_le_bytes());
            schedules.extend((u64::from(quiet.period) * b).to_le_bytes());
            schedules.extend(quiet.duration.to_le_bytes());
        }
        schedules
    }

    fn advance(&mut self, count: &mut Count, units: u32) {
        let left = self.lent(|station| raw::station_advance(station, units));
        let safe = self.safe.advance(units);
        let was_pending = self.twin.pending_switch().is_some();
        let twin = match self.twin.advance(units) {
            0 => Ok(()),
            refusal => Err(refusal),
        };
        // No advance takes a pending switch away but one that reaches it.
        if was_pending && self.twin.pending_switch().is_none() {
            self.schedules.clear();
        }
        self.call(
            count,
            Call::RecordAdvance,
            left,
            safe,
            twin,
            &format!("advance {units}"),
        );
    }

    /// Compares what a call that may change the station answered on all sides,
    /// and the octets that it left with the record that they must hold.
    fn call(
        &mut self,
        count: &mut Count,
        call: Call,
        left: Left,
        safe: Result<(), u8>,
        twin: Result<(), u8>,
        what: &str,
    ) {
        let before = std::mem::replace(&mut self.memory, left.buffer().to_vec());
        let told = || {
            format!(
                "{what}, octets {}, record from {}",
                hex(&before),
                self.front
            )
        };
        changed(count, call, &left, self.front, twin.map(|()| 0), told);
        count.compare(&safe, &twin, told);
        let record = &self.memory[record_in(&self.memory, self.front)];
        count.compare(&record, &&self.record()[..], told);
        let safe = &self.safe.as_octets()[record_in(self.safe.as_octets(), 0)];
        count.library_gives(&safe, &record, told);
    }

    /// The record by the layout: what the twin tells, and the schedules. Until
    /// when something runs on shows in what the twin is asked alone, so these
    /// octets are taken from the library.
    fn record(&self) -> Vec<u8> {
        let mut record = vec![1, self.twin.channel()];
        record.extend(self.stage.interval.to_le_bytes());
        record.extend(self.twin.clock().to_le_bytes());
        record.extend(self.stage.own);
        record.extend(self.stage.ap);
        record.extend(self.twin.constraint().map_or([0, 0], |power| [1, power]));
        match self.twin.pending_switch() {
            None => record.extend([0; 11]),
            Some(switch) => {
                record.extend([1, switch.mode, switch.channel]);
                record.extend(switch.moment.to_le_bytes());
            }
        }
        record.extend(&self.memory[self.front + STATION_UNTIL..self.front + STATION_COUNT]);
        record.push((self.schedules.len() / STATION_SCHEDULE_LENGTH) as u8);
        record.extend(&self.schedules);
        record
    }

    fn ask(&mut self, count: &mut Count, units: u32) {
        let told = || format!("ask {units}, octets {}", hex(&self.memory[self.front..]));
        let left = self.lent(|station| raw::station_ask(station, units));
        let twin = self.twin.ask(units);
        only_read(count, Call::RecordAsk, &left, Ok(usize::from(twin)), told);
        if let Ok(answer) = left.answer {
            count.note_ask(Asked::Record, answer as u8);
        }
        count.compare(&self.safe.ask(units).number(), &twin, told);
    }

    fn reply(&self, count: &mut Count, rng: &mut Rng) {
        let frame = some_request(rng, &self.stage);
        let octets = Octets {
            octets: &self.memory[self.front..],
            held: Some(Held {
                stage: self.stage,
                clock: self.twin.clock(),
            }),
        };
        octets.reply_to_tpc(count, rng, &frame, Some(&self.safe));
        octets.reply_to_measurement(count, rng, &frame, Some(&self.safe));
    }

    /// Puts anything around the record: it is not looked at.
    fn stir(&mut self, rng: &mut Rng) {
        let record = record_in(&self.memory, self.front);
        let (before, after) = self.memory.split_at_mut(record.end);
        for octet in before[..record.start].iter_mut().chain(after) {
            *octet = rng.octet();
        }
    }

    /// Changes some octets of the record, or cuts it, and tries all calls on what
    /// is left. The station itself goes on with its own octets.
    fn spoil(&self, count: &mut Count, rng: &mut Rng) {
        let mut octets = self.memory[self.front..].to_vec();
        for _ in 0..rng.pick(&[0, 1, 1, 1, 2, 3]) {
            let end = rng.pick(&[STATION_SCHEDULES, LONGEST_RECORD]);
            let place = rng.place(end);
            octets[place] = match rng.below(3) {
                0 => octets[place] ^ 1 << rng.below(8),
                1 => rng.pick(&[0, 1, 2, 8, 9, 200, 201, 255]),
                _ => rng.octet(),
            };
        }
        if rng.one_in(16) {
            octets.truncate(rng.place(SIZE));
        }
        Octets::of(&octets).try_all(count, rng, &self.stage);
    }

    /// Brings the clock near its limit, by the longest advances.
    fn go_late(&mut self, count: &mut Count, rng: &mut Rng) {
        let late = self.moments.late(rng);
        while late - self.twin.clock() > LONGEST_STEP as u32 {
            self.advance(count, LONGEST_STEP as u32);
        }
        self.advance(count, late - self.twin.clock());
    }
}
