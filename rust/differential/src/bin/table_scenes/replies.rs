//! The replies that a table is asked for.

use crate::builder::{element, measured, mutate, HEADER, VENDOR};
use crate::counts::{Call, Event};
use crate::name::Name;
use crate::scene::Scene;
use crate::scenes::frames::{
    lengthened, other_action, spelt, whole, with_header, Body, Kind, Sent, LONGEST, NUMBERS,
};
use crate::scenes::words::octets;
use twin::Finding;

/// What each octet of a buffer holds before the call.
const FILL: u8 = 170;
/// So many zeros may follow the octets of a frame.
const MOST_ZEROS: usize = 2336;

/// So many numbers stand before the octets of a call.
const TPC_NUMBERS: usize = 4;
const MEASUREMENT_NUMBERS: usize = 14;

/// µs in a TU.
const TU: u64 = 1024;

/// What a call left in its buffer, all of which counts and not just the part
/// that was lent.
struct Lent {
    answer: Result<usize, u8>,
    buffer: Vec<u8>,
}

/// Lends a call so many octets of the buffer.
fn lend(room: usize, call: impl Fn(&mut [u8]) -> Result<usize, u8>) -> Lent {
    let mut buffer = vec![FILL; LONGEST];
    let answer = call(&mut buffer[..room]);
    Lent { answer, buffer }
}

impl Lent {
    fn number(&self) -> u8 {
        self.answer.err().unwrap_or(0)
    }

    /// The reply, which is nothing where there is none.
    fn reply(&self) -> &[u8] {
        &self.buffer[..self.answer.unwrap_or(0)]
    }

    /// In the words of the scenes.
    fn told(&self) -> String {
        let mut words = self.number().to_string();
        let reply = self.reply();
        if self.answer.is_ok() {
            words += &format!(" {} {}", reply.len(), octets(reply));
        }
        let after = &self.buffer[reply.len()..];
        let is_kept = after.iter().all(|&octet| octet == FILL);
        words += if is_kept { " kept" } else { " changed" };
        words
    }
}

/// An element of a request, with what readings must fit.
struct Asked {
    octets: Vec<u8>,
    kind: u8,
    duration: u16,
}

impl Scene<'_> {
    /// Asks for a reply, of either sort.
    pub fn reply(&mut self) {
        if self.rng.one_in(3) {
            self.reply_tpc();
        } else {
            self.reply_measurement();
        }
    }

    fn reply_tpc(&mut self) {
        let (power, margin) = (self.octet_at_ends(), self.octet_at_ends());
        let sent = match self.rng.below(4) {
            0 => self.other_frame(TPC_NUMBERS),
            1 => self.requests(TPC_NUMBERS).0,
            _ => self.tpc_request(),
        };
        let table = self.table.clone();
        let call = |out: &mut [u8]| {
            table.reply_to_tpc_request(&sent.octets, power as i8, margin as i8, out)
        };
        let room = self.room(&call);
        let words = format!(
            "reply-tpc {room}, zeros {}, {power} {margin}{}",
            zeros(&sent),
            spelt(&sent.parts)
        );
        self.replied(Call::ReplyTpc, &words, &lend(room, call));
    }

    fn reply_measurement(&mut self) {
        let (sent, asked) = match self.rng.below(8) {
            0 => (self.other_frame(MEASUREMENT_NUMBERS), Vec::new()),
            1 => (self.tpc_request(), Vec::new()),
            _ => self.requests(MEASUREMENT_NUMBERS),
        };
        let index = match self.rng.below(12) {
            0 => asked.len(),
            1 => self.rng.pick(&[255, 4_294_967_295]),
            _ => self.rng.place(asked.len().max(1)),
        };
        let finding = self.finding(asked.get(index));
        let table = self.table.clone();
        let call =
            |out: &mut [u8]| table.reply_to_measurement_request(&sent.octets, index, finding, out);
        let room = self.room(&call);
        let words = format!(
            "reply-measurement {room}, zeros {}, 0, index {index}, {}{}",
            zeros(&sent),
            finding_told(finding),
            spelt(&sent.parts)
        );
        self.replied(Call::ReplyMeasurement, &words, &lend(room, call));
    }

    fn octet_at_ends(&mut self) -> u8 {
        let some = self.rng.octet();
        self.rng.pick(&[0, 127, 128, 255, some])
    }

    /// Room for the reply, for one octet less, for none, or for any.
    fn room(&mut self, call: &impl Fn(&mut [u8]) -> Result<usize, u8>) -> usize {
        let most = LONGEST as u64;
        match lend(LONGEST, call).answer {
            Err(_) => self.rng.pick(&[0, 40, LONGEST]),
            Ok(length) => match self.rng.below(8) {
                0 => length - 1,
                1 => self.rng.place(length),
                2 => LONGEST,
                3 => self.rng.between(length as u64, most) as usize,
                4 => (length + 1).min(LONGEST),
                _ => length,
            },
        }
    }

    /// A frame with this body, to somebody, so that so many numbers fit before
    /// it; now and then with another header, mutated or followed by zeros.
    fn request(&mut self, parts: Vec<Vec<u8>>, numbers: usize) -> Sent {
        let to = self.replier();
        let body = Body {
            kind: Kind::Action,
            parts,
        };
        let header = self.some_header(body.kind, to);
        let mut sent = if self.rng.one_in(6) {
            with_header(&mut self.rng, &body, header)
        } else {
            body.whole(&header)
        };
        if self.rng.one_in(8) {
            sent.parts = vec![self.mutated(&sent.parts.concat())];
        }
        let sent = whole(sent.parts, NUMBERS - numbers);
        self.followed_by_zeros(sent)
    }

    fn mutated(&mut self, octets: &[u8]) -> Vec<u8> {
        let mut octets = octets.to_vec();
        mutate(&mut self.rng, &mut octets);
        octets
    }

    fn followed_by_zeros(&mut self, mut sent: Sent) -> Sent {
        if self.rng.one_in(8) {
            let spelt = sent.octets.len();
            let length = lengthened(&mut self.rng, spelt);
            sent.resize(length.min(spelt + MOST_ZEROS));
        }
        sent
    }

    /// Mostly somebody who is joined.
    fn replier(&mut self) -> Name {
        if self.rng.one_in(4) {
            return self.receiver();
        }
        self.somebody()
    }

    fn tpc_request(&mut self) -> Sent {
        let token = self.rng.octet();
        let mut parts = vec![vec![0, 2, token], element(34, &[])];
        if self.rng.one_in(6) {
            parts.push(element(VENDOR, &[5]));
        }
        if !self.rng.one_in(10) {
            return self.request(parts, MEASUREMENT_NUMBERS);
        }
        // A vendor's element whose contents are the zeros that follow.
        let contents = self.rng.octet();
        parts.push(vec![VENDOR, contents]);
        let mut sent = self.request(parts, MEASUREMENT_NUMBERS);
        sent.resize(sent.parts.concat().len() + usize::from(contents));
        sent
    }

    /// A frame that is no request, or a broken one.
    fn other_frame(&mut self, numbers: usize) -> Sent {
        if self.rng.one_in(2) {
            let parts = other_action(&mut self.rng).parts;
            return self.request(parts, numbers);
        }
        let to = self.replier();
        let sent = self.built(to, NUMBERS - numbers);
        self.followed_by_zeros(sent)
    }

    /// A Measurement Request of one element or several.
    fn requests(&mut self, numbers: usize) -> (Sent, Vec<Asked>) {
        let first = self.rng.octet();
        let most = (NUMBERS - numbers - HEADER) / 16;
        let asked: Vec<Asked> = (0..self.rng.between(1, most as u64) as u8)
            .map(|number| self.asked(first, number))
            .collect();
        let mut parts = vec![vec![0, 0, self.rng.between(0, 40) as u8]];
        for request in &asked {
            parts.push(request.octets.clone());
            if self.rng.one_in(20) {
                parts.push(element(VENDOR, &[]));
            }
        }
        (self.request(parts, numbers), asked)
    }

    /// An element whose token is mostly its own, and mostly not 0.
    fn asked(&mut self, first: u8, number: u8) -> Asked {
        let token = match self.rng.below(40) {
            0 => first,
            _ => first.wrapping_add(number),
        };
        let some_kind = self.rng.octet();
        let kind = self.rng.pick(&[0, 0, 1, 1, 2, 2, 2, 3, 255, some_kind]);
        let duration = self.rng.pick(&[0, 1, 1, 2, 10, 255, 65_535]);
        let contents = match (self.rng.below(8), kind) {
            (0, _) => vec![token, self.rng.pick(&[2, 6, 14]), kind],
            (_, 0..=2) => self.measured([token, 0, kind], duration),
            _ => [vec![token, 0, kind], vec![7; self.rng.place(4)]].concat(),
        };
        Asked {
            octets: element(38, &contents),
            kind,
            duration,
        }
    }

    /// At once, around this moment, or at any.
    fn measured(&mut self, head: [u8; 3], duration: u16) -> Vec<u8> {
        let now = self.clock() * TU;
        let starts = [0, 0, now, now.saturating_sub(1), now + 1, u64::MAX, 1];
        let start = self.rng.pick(&starts);
        let channel = match self.rng.below(40) {
            0 => 201,
            _ => self.rng.below(201) as u8,
        };
        measured(head, channel, start, duration)
    }

    /// What was found, mostly as the element asks.
    fn finding(&mut self, asked: Option<&Asked>) -> Finding {
        let (kind, duration) = asked.map_or((3, 1), |asked| (asked.kind, asked.duration));
        let longest = TU * u64::from(duration);
        match (self.rng.below(8), kind) {
            (0, _) => Finding::Refused,
            (1..=6, 0) | (7, 3..) => self.map(),
            (1..=6, 1) | (7, 0) => Finding::Busy(self.time(longest)),
            _ => self.times(longest),
        }
    }

    fn map(&mut self) -> Finding {
        let some = self.rng.octet();
        Finding::Map(self.rng.pick(&[0, 1, 8, 15, 16, 17, 32, 255, some]))
    }

    /// A time around the longest that is possible.
    fn time(&mut self, longest: u64) -> u32 {
        let some = self.rng.below(longest + 1);
        let below = longest.saturating_sub(1);
        let times = [0, 1, some, some, below, longest, longest + 1, 4_294_967_295];
        self.rng.pick(&times) as u32
    }

    fn times(&mut self, longest: u64) -> Finding {
        let mut times = [0; 8];
        match self.rng.below(4) {
            0 => times = [129, 129, 129, 129, 129, 129, 125, 125],
            1 => times[self.rng.place(8)] = self.time(longest),
            2 => times = [(longest / 8) as u32; 8],
            _ => times = std::array::from_fn(|_| self.rng.below(longest / 8 + 2) as u32),
        }
        Finding::Times(times)
    }

    fn replied(&mut self, call: Call, words: &str, lent: &Lent) {
        let told = lent.told();
        self.counts.given(call, lent.number());
        self.counts.event_if(told.contains('*'), Event::ReplyWithRun);
        self.say(words, &told);
        if lent.answer.is_ok() {
            self.counts.event(sort_of(lent.reply()));
        }
    }
}

/// How many zeros follow what is spelt.
fn zeros(sent: &Sent) -> usize {
    sent.octets.len() - sent.parts.iter().map(Vec::len).sum::<usize>()
}

/// Sort, value and eight times.
fn finding_told(finding: Finding) -> String {
    let (sort, value, times) = match finding {
        Finding::Refused => (0, 0, [0; 8]),
        Finding::Map(map) => (1, u32::from(map), [0; 8]),
        Finding::Busy(time) => (2, time, [0; 8]),
        Finding::Times(times) => (3, 0, times),
    };
    let times: Vec<String> = times.iter().map(u32::to_string).collect();
    format!("{sort} {value} {}", times.join(" "))
}

/// What a reply is: its category and action, and the mode and type of its
/// element.
fn sort_of(reply: &[u8]) -> Event {
    match reply[HEADER..] {
        [128..=255, ..] => Event::ErrorReturn,
        [_, 3, ..] => Event::TpcReport,
        [_, _, _, _, _, _, 1, ..] => Event::Late,
        [_, _, _, _, _, _, 2, ..] => Event::Incapable,
        [_, _, _, _, _, _, 4, ..] => Event::Refused,
        [_, _, _, _, _, _, _, 0, ..] => Event::Map,
        [_, _, _, _, _, _, _, 1, ..] => Event::Busy,
        _ => Event::Densities,
    }
}
