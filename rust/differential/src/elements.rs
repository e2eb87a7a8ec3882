//! Elements, written by both into buffers of many lengths; what is written is
//! read back.

use crate::builder::{action, notice, Stage, BEACON};
use crate::count::{Call, Count};
use crate::frames;
use crate::lend::{hex, lend, Left};
use crate::pairs;
use crate::rng::Rng;
use oneiralth::{Frame, Received, Written};
use std::fmt::Debug;

const SEED: u64 = 0x8021_1000_2003_0002;

/// Records at random of each element whose records can be wrong.
const AT_RANDOM: usize = 6_000;

/// Around the limit of a channel, and at the ends of an octet.
pub const CHANNELS: [u8; 8] = [0, 1, 199, 200, 201, 202, 254, 255];
/// Types that are interpreted, and some that are not.
pub const KINDS: [u8; 6] = [0, 1, 2, 3, 4, 255];

pub fn run(count: &mut Count) {
    let mut rng = count.begin("elements", SEED);
    power_constraints(count);
    tpc_requests(count);
    tpc_reports(count, &mut rng);
    channel_switches(count, &mut rng);
    quiets(count, &mut rng);
    requests(count, &mut rng);
    reports(count, &mut rng);
}

/// A record as both sides are to write it.
pub struct Writers<L, T> {
    pub call: Call,
    pub library: L,
    pub twin: T,
    /// How many octets the longest thing has that this writer writes.
    pub most: usize,
}

impl<L, T> Writers<L, T>
where
    L: Fn(&mut [u8]) -> Written,
    T: Fn(&mut [u8]) -> Result<usize, u8>,
{
    /// Writes in buffers of every length up to some octets more than needed.
    pub fn in_all_lengths(&self, count: &mut Count, record: impl Debug) -> Option<Vec<u8>> {
        (0..=self.most + 2).fold(None, |_, length| self.in_length(count, length, &record))
    }

    /// Writes in an empty buffer, and around the length that is needed.
    pub fn in_some_lengths(&self, count: &mut Count, record: impl Debug) -> Option<Vec<u8>> {
        let ample = self.most + 2;
        let needed = lend(ample, &self.twin).answer.unwrap_or(self.most);
        for length in [0, needed.saturating_sub(1), needed, needed + 1] {
            self.in_length(count, length, &record);
        }
        self.in_length(count, ample, &record)
    }

    /// Gives what was written, if anything was.
    fn in_length(&self, count: &mut Count, length: usize, record: &impl Debug) -> Option<Vec<u8>> {
        let library: Left = lend(length, &self.library);
        let twin = lend(length, &self.twin);
        count.buffers(self.call, &library, &twin, || {
            format!("{:x?} in a buffer of {} octets", record, length)
        });
        library.answer.is_ok().then(|| library.written().to_vec())
    }
}

/// What was written, in a frame: both sides must read the same, and it must be
/// what was to be written.
pub fn read_back(count: &mut Count, stage: &Stage, octets: &[u8], expected: Received) {
    frames::compare(count, stage, octets);
    let library = oneiralth::read_frame(octets, stage.settings());
    count.read_back(Call::ReadFrame, &library, expected, || {
        format!("read back from {}", hex(octets))
    });
}

/// What a beacon with one element reads as; `told` puts that element in.
fn beacon(told: impl FnOnce(&mut oneiralth::Notice)) -> Received {
    let mut notice = oneiralth::Notice {
        timestamp: 0x8897_A6B5_C4D3_E2F1,
        capability: 0x4321,
        constraint: None,
        report: None,
        switch: None,
        quiets: 0,
    };
    told(&mut notice);
    Received {
        broadcast: true,
        frame: Frame::Beacon(notice),
    }
}

fn power_constraints(count: &mut Count) {
    let stage = Stage::usual(100);
    for decibels in 0..=255 {
        let writers = Writers {
            call: Call::WriteFree,
            library: |out: &mut [u8]| oneiralth::write_power_constraint(decibels, out),
            twin: |out: &mut [u8]| twin::write_power_constraint(decibels, out),
            most: 3,
        };
        if let Some(element) = writers.in_all_lengths(count, ("power constraint", decibels)) {
            let expected = beacon(|notice| notice.constraint = Some(decibels));
            read_back(count, &stage, &notice(&stage, BEACON, &element), expected);
        }
    }
}

fn tpc_requests(count: &mut Count) {
    let stage = Stage::usual(100);
    let writers = Writers {
        call: Call::WriteFree,
        library: oneiralth::write_tpc_request,
        twin: twin::write_tpc_request,
        most: 2,
    };
    if let Some(element) = writers.in_all_lengths(count, "TPC request") {
        let expected = Received {
            broadcast: false,
            frame: Frame::TpcRequest { token: 9 },
        };
        let frame = action(&stage, &[&[0, 2, 9][..], &element].concat());
        read_back(count, &stage, &frame, expected);
    }
}

/// Each octet in each place, and pairs at random.
fn tpc_reports(count: &mut Count, rng: &mut Rng) {
    let stage = Stage::usual(100);
    let mut records: Vec<(i8, i8)> = (-128..=127).map(|power| (power, -1)).collect();
    records.extend((-128..=127).map(|margin| (127, margin)));
    records.extend((0..200).map(|_| (rng.octet() as i8, rng.octet() as i8)));
    for record in records {
        let writers = Writers {
            call: Call::WriteFree,
            library: |out: &mut [u8]| oneiralth::write_tpc_report(pairs::tpc(record), out),
            twin: |out: &mut [u8]| twin::write_tpc_report(record.0, record.1, out),
            most: 4,
        };
        if let Some(element) = writers.in_all_lengths(count, ("TPC report", record)) {
            // Its margin counts for nothing in a beacon.
            let expected = beacon(|notice| notice.report = Some(pairs::tpc((record.0, 0))));
            read_back(count, &stage, &notice(&stage, BEACON, &element), expected);
        }
    }
}

/// Every mode, channels around the limit, counts; then at random.
pub fn switches(rng: &mut Rng) -> Vec<twin::Switch> {
    let mut records = Vec::new();
    for mode in 0..=255 {
        for channel in CHANNELS {
            if mode > 3 && channel != 200 && channel != 201 {
                continue;
            }
            for count in [0, 1, 255] {
                records.push(twin::Switch {
                    mode,
                    channel,
                    count,
                });
            }
        }
    }
    for channel in 0..=255 {
        records.push(twin::Switch {
            mode: rng.below(2) as u8,
            channel,
            count: rng.octet(),
        });
    }
    records
}

fn channel_switches(count: &mut Count, rng: &mut Rng) {
    let stage = Stage::usual(100);
    for record in switches(rng) {
        let writers = Writers {
            call: Call::WriteElement,
            library: |out: &mut [u8]| oneiralth::write_channel_switch(pairs::switch(record), out),
            twin: |out: &mut [u8]| twin::write_channel_switch(record, out),
            most: 5,
        };
        if let Some(element) = writers.in_all_lengths(count, record) {
            let expected = beacon(|notice| notice.switch = Some(pairs::switch(record)));
            read_back(count, &stage, &notice(&stage, BEACON, &element), expected);
        }
    }
}

/// Offsets around B for each B, B = 0 among them.
fn quiets(count: &mut Count, rng: &mut Rng) {
    let mut records = Vec::new();
    for interval in [0u16, 1, 2, 99, 100, 255, 256, 32_768, 65_534, 65_535] {
        let (below, above) = (interval.wrapping_sub(1), interval.wrapping_add(1));
        for offset in [0, below, interval, above, 65_535] {
            for count in [0, 1, 255] {
                for duration in [0, 1, 256, 65_535] {
                    let quiet = twin::Quiet {
                        count,
                        period: count ^ 1,
                        duration,
                        offset,
                    };
                    records.push((quiet, interval));
                }
            }
        }
    }
    for _ in 0..AT_RANDOM {
        let quiet = twin::Quiet {
            count: rng.octet(),
            period: rng.octet(),
            duration: rng.u16(),
            offset: rng.u16(),
        };
        records.push((quiet, rng.u16()));
    }
    for (record, interval) in records {
        let writers = Writers {
            call: Call::WriteElement,
            library: |out: &mut [u8]| oneiralth::write_quiet(pairs::quiet(record), interval, out),
            twin: |out: &mut [u8]| twin::write_quiet(record, interval, out),
            most: 8,
        };
        if let Some(element) = writers.in_all_lengths(count, (record, interval)) {
            let stage = Stage::usual(interval);
            let frame = notice(&stage, BEACON, &element);
            read_back(count, &stage, &frame, beacon(|notice| notice.quiets = 1));
            let read = oneiralth::read_quiet(&frame, stage.settings(), 0);
            count.values(Call::ReadElement, &read, &Ok(pairs::quiet(record)), || format!("quiet read back from {}", hex(&frame)));
        }
    }
}

/// Everything that can be asked, against every type: a type that does not
/// have it is a record that no reader gives.
pub fn request_limits() -> Vec<twin::Request> {
    let mut asks = vec![twin::Asks::Uninterpreted];
    for (request, report) in [(false, false), (false, true), (true, false), (true, true)] {
        asks.push(twin::Asks::Enable { request, report });
    }
    for channel in CHANNELS {
        for (start, duration) in [
            (0, 0),
            (1, 65_535),
            (u64::MAX, 1),
            (0x0102_0304_0506_0708, 256),
        ] {
            asks.push(twin::Asks::Measure {
                channel,
                start,
                duration,
            });
        }
    }
    let mut records = Vec::new();
    for token in [0, 1, 255] {
        for kind in KINDS {
            for &asks in &asks {
                records.push(twin::Request { token, kind, asks });
            }
        }
    }
    records
}

/// A request that may be written about two times in three.
pub fn some_request(rng: &mut Rng) -> twin::Request {
    let asks = match rng.below(8) {
        0 => twin::Asks::Uninterpreted,
        1 | 2 => twin::Asks::Enable {
            request: rng.one_in(2),
            report: rng.one_in(2),
        },
        _ => twin::Asks::Measure {
            channel: rng.below(205) as u8,
            start: rng.next(),
            duration: rng.u16(),
        },
    };
    twin::Request {
        token: rng.octet(),
        kind: rng.below(4) as u8,
        asks,
    }
}

fn requests(count: &mut Count, rng: &mut Rng) {
    let mut records = request_limits();
    records.extend((0..AT_RANDOM).map(|_| some_request(rng)));
    let stage = Stage::usual(100);
    for record in records {
        let writers = Writers {
            call: Call::WriteElement,
            library: |out: &mut [u8]| oneiralth::write_request(pairs::request(record), out),
            twin: |out: &mut [u8]| twin::write_measurement_request(record, out),
            most: 16,
        };
        if let Some(element) = writers.in_some_lengths(count, record) {
            let frame = action(&stage, &[&[0, 0, 9][..], &element].concat());
            frames::compare(count, &stage, &frame);
            let library = oneiralth::read_request(&frame, stage.settings(), 0);
            count.read_back(Call::ReadElement, &library, pairs::request(record), || {
                format!("read back from {}", hex(&frame))
            });
        }
    }
    let record = twin::Request {
        token: 1,
        kind: 2,
        asks: twin::Asks::Measure {
            channel: 3,
            start: 4,
            duration: 5,
        },
    };
    Writers {
        call: Call::WriteElement,
        library: |out: &mut [u8]| oneiralth::write_request(pairs::request(record), out),
        twin: |out: &mut [u8]| twin::write_measurement_request(record, out),
        most: 16,
    }
    .in_all_lengths(count, record);
}

/// Everything that can be said, against every type, and every map.
pub fn report_limits() -> Vec<twin::Report> {
    let mut says = vec![
        twin::Says::Late,
        twin::Says::Incapable,
        twin::Says::Refused,
        twin::Says::Uninterpreted,
    ];
    for channel in CHANNELS {
        for (start, duration) in [(0, 0), (u64::MAX, 65_535)] {
            for map in [0, 0b1_0000] {
                says.push(twin::Says::Basic {
                    channel,
                    start,
                    duration,
                    map,
                });
            }
            says.push(twin::Says::Cca {
                channel,
                start,
                duration,
                busy: channel,
            });
            for densities in [[0; 8], [1, 2, 3, 4, 5, 6, 7, 8], [255; 8]] {
                says.push(twin::Says::Rpi {
                    channel,
                    start,
                    duration,
                    densities,
                });
            }
        }
    }
    for value in 0..=255 {
        let (channel, start, duration) = (36, 0x0807_0605_0403_0201, 0x0A09);
        says.push(twin::Says::Basic {
            channel,
            start,
            duration,
            map: value,
        });
        says.push(twin::Says::Cca {
            channel,
            start,
            duration,
            busy: value,
        });
    }
    let mut records = Vec::new();
    for kind in KINDS {
        for &says in &says {
            let token = [0, 1, 255][records.len() % 3];
            records.push(twin::Report { token, kind, says });
        }
    }
    records
}

/// A report that may be written about two times in three.
pub fn some_report(rng: &mut Rng) -> twin::Report {
    let (channel, start, duration) = (rng.below(205) as u8, rng.next(), rng.u16());
    let (kind, says) = match rng.below(7) {
        0 => (0, twin::Says::Late),
        1 => (1, twin::Says::Incapable),
        2 => (2, twin::Says::Refused),
        3 => {
            let map = rng.pick(&[0, 1, 8, 15, 16, 17, 31, 32]);
            let says = twin::Says::Basic {
                channel,
                start,
                duration,
                map,
            };
            (0, says)
        }
        4 => {
            let busy = rng.octet();
            let says = twin::Says::Cca {
                channel,
                start,
                duration,
                busy,
            };
            (1, says)
        }
        5 => {
            let densities = std::array::from_fn(|_| rng.octet());
            let says = twin::Says::Rpi {
                channel,
                start,
                duration,
                densities,
            };
            (2, says)
        }
        _ => (3, twin::Says::Uninterpreted),
    };
    let kind = if rng.one_in(6) { rng.octet() } else { kind };
    twin::Report {
        token: rng.octet(),
        kind,
        says,
    }
}

fn reports(count: &mut Count, rng: &mut Rng) {
    let mut records = report_limits();
    records.extend((0..AT_RANDOM).map(|_| some_report(rng)));
    let stage = Stage::usual(100);
    for record in records {
        let writers = Writers {
            call: Call::WriteElement,
            library: |out: &mut [u8]| oneiralth::write_report(pairs::report(record), out),
            twin: |out: &mut [u8]| twin::write_measurement_report(record, out),
            most: 24,
        };
        if let Some(element) = writers.in_some_lengths(count, record) {
            let frame = action(&stage, &[&[0, 1, 0][..], &element].concat());
            frames::compare(count, &stage, &frame);
            let library = oneiralth::read_report(&frame, stage.settings(), 0);
            count.read_back(Call::ReadElement, &library, pairs::report(record), || {
                format!("read back from {}", hex(&frame))
            });
        }
    }
    for _ in 0..40 {
        let record = some_report(rng);
        Writers {
            call: Call::WriteElement,
            library: |out: &mut [u8]| oneiralth::write_report(pairs::report(record), out),
            twin: |out: &mut [u8]| twin::write_measurement_report(record, out),
            most: 24,
        }
        .in_all_lengths(count, record);
    }
}
