//! One scene: calls at random, with the twin's answers.

use crate::builder::ALL_ONES;
use crate::counts::{Counts, Event};
use crate::frames::{dfs, member, sent_by, BSSID, OWN};
use crate::rng::Rng;
use crate::scenes::frames::{
    self, announcing_action, fixed_fields, header, other_action, spelt, Body, Kind, Sent,
};
use crate::scenes::moments::{some_interval, Moments, Now, LONGEST_STEP};
use crate::scenes::words::{constraint_told, octets, pending_told, told};
use crate::words::received_told;
use std::collections::HashMap;
use std::fmt::Write;
use twin::{read_ibss_frame, Address, Frame, IbssReceived, IbssStation, Owner, Switch};

/// So many calls has a scene, beside those that look at what is kept.
const STEPS: u64 = 900;

/// Those that send, the station's own address among them.
const SENDERS: [u8; 4] = [3, 4, 5, 1];
/// The interval by which the program reads frames that no station hears.
const READ_INTERVAL: u16 = 100;

/// A scene as it goes on.
pub struct Scene<'a> {
    rng: Rng,
    interval: u16,
    station: IbssStation,
    moments: Moments,
    /// When each address last sent a beacon that was accepted.
    beacons: HashMap<Address, u64>,
    text: String,
    counts: &'a mut Counts,
}

impl<'a> Scene<'a> {
    /// The text of the scene of this seed.
    pub fn play(seed: u64, is_late: bool, counts: &'a mut Counts) -> String {
        let mut rng = Rng::new(seed * 0x9E37_79B9_7F4A_7C15);
        let interval = some_interval(&mut rng);
        let mut scene = Scene {
            interval,
            station: IbssStation::start(OWN, BSSID, READ_INTERVAL, 36).expect("it may start"),
            moments: Moments::new(interval, rng.pick(&[5, 8, 9, 9])),
            beacons: HashMap::new(),
            text: format!("scene ibss of seed {seed}\n"),
            rng,
            counts,
        };
        scene.counts.lines += 1;
        scene.start();
        if is_late {
            scene.go_late();
        }
        for _ in 0..STEPS {
            scene.step();
        }
        scene.text
    }

    fn say(&mut self, call: &str, answer: &str) {
        self.counts.lines += 1;
        writeln!(self.text, "{call} = {answer}").expect("a string takes all");
    }

    /// Starts that are refused, and then the scene's.
    fn start(&mut self) {
        let channel = self.rng.pick(&[0, 36, 200]);
        let refused = [
            (0, 2, 2, channel),
            (self.interval, 3, 2, channel),
            (self.interval, 2, 3, channel),
            (self.interval, 2, 2, 201),
        ];
        let fault = self.rng.pick(&refused);
        for (interval, own, bssid, channel) in [fault, (self.interval, 2, 2, channel)] {
            let own_address = [own, 0, 0, 0, 0, 1];
            let bssid_address = [bssid, 0, 0, 0, 0, 9];
            let started = IbssStation::start(own_address, bssid_address, interval, channel);
            let answer = started.as_ref().err().copied().unwrap_or(0);
            self.counts.starts[usize::from(answer)] += 1;
            self.say(
                &format!("start {interval}, {own}, {bssid}, {channel}"),
                &answer.to_string(),
            );
            if let Ok(station) = started {
                self.station = station;
            }
        }
    }

    /// Brings the clock near its limit, by advances as the program does.
    fn go_late(&mut self) {
        let moment = self.moments.late(&mut self.rng);
        while self.station.clock() < moment {
            let left = moment - self.station.clock();
            self.station.advance(left.min(LONGEST_STEP as u32));
        }
        self.counts.lines += 1;
        writeln!(self.text, "at {moment}").expect("a string takes all");
    }

    fn step(&mut self) {
        match self.rng.below(100) {
            0..=21 => self.advance(),
            22..=43 => self.ask(),
            44..=91 => {
                let sent = self.frame();
                self.take(&sent);
            }
            92..=96 => self.read(),
            _ => self.pair(),
        }
        self.look();
    }

    fn now(&self) -> Now {
        Now {
            clock: u64::from(self.station.clock()),
            pending: self.station.pending_switch().map(|switch| switch.moment),
        }
    }

    /// What the station keeps, of each now and then.
    fn look(&mut self) {
        if self.rng.one_in(2) {
            let owner = match self.station.owner() {
                None => "0".to_string(),
                Some(Owner { address, recovery }) => format!(
                    "{} {recovery} {} {}",
                    octets(&address),
                    self.station.misses(),
                    u8::from(self.station.heard_owner())
                ),
            };
            self.say("owner", &owner);
        }
        if self.rng.one_in(4) {
            let pending = self.station.pending_switch();
            self.say("pending", &pending_told(pending));
        }
        match self.rng.below(6) {
            0 => self.say("channel", &self.station.channel().to_string()),
            1 => self.say("clock", &self.station.clock().to_string()),
            2 => {
                let constraint = self.station.constraint();
                self.say("constraint", &constraint_told(constraint));
            }
            _ => {}
        }
    }

    fn advance(&mut self) {
        let before = self.station.clone();
        let now = self.now();
        let units = self.moments.units_to_advance(&mut self.rng, now);
        let answer = self.station.advance(units);
        self.counts.advances[usize::from(answer)] += 1;
        self.say(&format!("advance {units}"), &answer.to_string());
        if answer == 0 {
            self.advanced(&before, units);
        }
    }

    /// What came of an accepted advance.
    fn advanced(&mut self, before: &IbssStation, units: u32) {
        let is_owned = self.station.owner().is_some();
        let is_pending = self.station.pending_switch().is_some();
        if before.owner().is_some() && !is_owned {
            self.counts.event(Event::GivenUp);
            if is_pending {
                self.counts.event(Event::GivenUpPending);
            }
        }
        if self.station.misses() > before.misses() {
            self.counts.event(Event::Missed);
        }
        if before.pending_switch().is_some() && !is_pending {
            self.counts.event(Event::Switched);
            if is_owned {
                self.counts.event(Event::SwitchedOwned);
            }
        }
        if u64::from(units) == LONGEST_STEP {
            self.counts.event(Event::LongAdvance);
        }
        if self.station.clock() == u32::MAX {
            self.counts.event(Event::AtTheLimit);
        }
    }

    fn ask(&mut self) {
        let now = self.now();
        let units = self.moments.units_to_ask(&mut self.rng, now);
        let answer = self.station.ask(units);
        self.counts.asks[usize::from(answer)] += 1;
        self.say(&format!("ask {units}"), &answer.to_string());
    }

    /// The last octet of the owner's address, where it is one of the members.
    fn known_member(&self) -> Option<u8> {
        let address = self.station.owner()?.address;
        SENDERS.into_iter().find(|&last| address == member(last))
    }

    fn sender(&mut self, announces: bool) -> u8 {
        let often = if announces { 3 } else { 2 };
        match self.known_member() {
            Some(owner) if self.rng.below(5) < often => owner,
            _ => self.rng.pick(&SENDERS),
        }
    }

    /// Whom an element 41 names: its sender, the owner that stands, or another.
    fn named(&mut self, sender: u8) -> Address {
        match (self.rng.below(10), self.station.owner()) {
            (0..=3, _) => member(sender),
            (4..=7, Some(owner)) => owner.address,
            (8, _) => self
                .rng
                .pick(&[[0; 6], [4, 1, 2, 3, 4, 5], [2, 1, 0, 0, 0, 3], BSSID]),
            _ => member(self.rng.pick(&SENDERS)),
        }
    }

    /// The elements of a beacon or a probe response, in any order.
    fn elements(&mut self, sender: u8, announces: bool, interval: u16) -> Vec<Vec<u8>> {
        let mut elements = Vec::new();
        if self.rng.below(10) < 4 {
            let owner = self.named(sender);
            elements.push(dfs(&mut self.rng, owner));
            if self.rng.one_in(12) {
                let owner = self.named(sender);
                elements.push(dfs(&mut self.rng, owner));
            }
        }
        elements.extend(frames::elements(&mut self.rng, announces, interval));
        self.rng.shuffle(&mut elements);
        elements
    }

    /// A beacon or a probe response.
    fn notice(&mut self, kind: Kind, sender: u8, announces: bool, interval: u16) -> Body {
        let fixed_fields = fixed_fields(&mut self.rng, interval);
        let elements = self.elements(sender, announces, interval);
        frames::notice(&mut self.rng, kind, fixed_fields, elements)
    }

    fn body(&mut self, sender: u8, announces: bool, interval: u16) -> Body {
        match self.rng.below(10) {
            0..=5 => self.notice(Kind::Beacon, sender, announces, interval),
            6 | 7 => self.notice(Kind::Probe, sender, announces, interval),
            _ if announces => announcing_action(&mut self.rng),
            _ => other_action(&mut self.rng),
        }
    }

    fn frame(&mut self) -> Sent {
        let announces = self.rng.below(10) < 3;
        let sender = self.sender(announces);
        let body = self.body(sender, announces, self.interval);
        if self.rng.one_in(8) {
            self.with_header(&body, sender)
        } else {
            sent_by(sender, &body)
        }
    }

    /// The frame with a header of its own: to all ones, from an address that
    /// the scenes have no word for, or with a fault.
    fn with_header(&mut self, body: &Body, sender: u8) -> Sent {
        let owner = self.station.owner().map(|owner| owner.address);
        let sa = match self.rng.below(10) {
            0 => [3, 0, 0, 0, 0, 3],
            1 => [0; 6],
            2 => [4, 1, 2, 3, 4, 5],
            3 => [2, 1, 0, 0, 0, 3],
            4 => BSSID,
            5 | 6 => owner.unwrap_or(member(sender)),
            _ => member(sender),
        };
        let da = match self.rng.below(10) {
            0 => member(3),
            1 => [0xFF, 0xFF, 0xFF, 0xFF, 0xFF, 0xFE],
            2..=4 => OWN,
            _ => ALL_ONES,
        };
        let bssid = match self.rng.below(12) {
            0 => member(8),
            1 => sa,
            _ => BSSID,
        };
        let header = header(body.kind, da, sa, bssid);
        frames::with_header(&mut self.rng, body, header)
    }

    fn take(&mut self, sent: &Sent) {
        let before = self.station.owner();
        let answer = self.station.take(&sent.octets);
        let number = answer.err().map_or(0, |refusal| refusal.number);
        self.counts.frames[usize::from(number)] += 1;
        self.say(&sent.words(), &told(answer));
        let heard = read_ibss_frame(&sent.octets, OWN, BSSID, self.interval);
        if let Ok(received) = heard {
            match answer {
                Ok(()) => self.accepted(&received, before),
                Err(_) => self.foreign(&received),
            }
        }
    }

    fn accepted(&mut self, received: &IbssReceived, before: Option<Owner>) {
        let switch = switch_of(&received.frame);
        if let Some(switch) = switch {
            self.counts.event(match received.frame {
                Frame::Beacon(_) => Event::ObeyedInBeacon,
                Frame::ProbeResponse(_) => Event::ObeyedInProbe,
                _ => Event::ObeyedInAction,
            });
            if switch.count == 0 {
                self.counts.event(Event::ObeyedAtOnce);
            }
            if received.dfs.is_some() {
                self.counts.event(Event::NamedAndAnnounced);
            }
        }
        if let Frame::Beacon(_) = received.frame {
            self.beacon_accepted(received, before);
        }
        if let Frame::Beacon(notice) | Frame::ProbeResponse(notice) = &received.frame {
            self.moments.note(self.now().clock, notice);
        }
    }

    /// What an accepted beacon has to do with the owner.
    fn beacon_accepted(&mut self, received: &IbssReceived, before: Option<Owner>) {
        let now = self.now().clock;
        let latest_tbtt = now - now % u64::from(self.interval);
        if let Some(owner) = self.station.owner() {
            if owner.address == received.sender {
                self.counts.event(Event::Heard);
                if now == latest_tbtt {
                    self.counts.event(Event::HeardAtTbtt);
                }
            }
            if received.dfs.is_some() {
                self.named_owner(owner, before, latest_tbtt);
            }
        }
        self.beacons.insert(received.sender, now);
    }

    fn named_owner(&mut self, owner: Owner, before: Option<Owner>, latest_tbtt: u64) {
        let is_same = before.map_or(false, |before| before.address == owner.address);
        self.counts.event(match before {
            None => Event::Named,
            Some(_) if is_same => Event::NamedAgain,
            Some(_) => Event::Replaced,
        });
        if is_same && self.station.misses() >= owner.recovery {
            self.counts.event(Event::Shortened);
        }
        let sent = self.beacons.get(&owner.address);
        if !self.station.heard_owner() && sent.map_or(false, |&moment| moment >= latest_tbtt) {
            self.counts.event(Event::NamedUnheard);
        }
    }

    fn foreign(&mut self, received: &IbssReceived) {
        self.counts.event(match received.frame {
            Frame::Beacon(_) => Event::ForeignBeacon,
            Frame::ProbeResponse(_) => Event::ForeignProbe,
            _ => Event::ForeignAction,
        });
        if received.dfs.is_some() {
            self.counts.event(Event::ForeignNaming);
        }
    }

    fn read(&mut self) {
        let announces = self.rng.one_in(3);
        let sender = self.sender(announces);
        let body = self.body(sender, announces, READ_INTERVAL);
        let sent = if self.rng.one_in(2) {
            self.with_header(&body, sender)
        } else {
            sent_by(sender, &body)
        };
        let read = read_ibss_frame(&sent.octets, OWN, BSSID, READ_INTERVAL);
        let number = read.as_ref().err().map_or(0, |refusal| refusal.number);
        self.counts.reads[usize::from(number)] += 1;
        let answer = match read {
            Ok(received) => received_told(&received),
            Err(refusal) => told(Err(refusal)),
        };
        self.say(&format!("read-{}", sent.words()), &answer);
    }

    fn pair(&mut self) {
        let sender = self.rng.pick(&SENDERS);
        let body = self.notice(Kind::Beacon, sender, false, READ_INTERVAL);
        let index = self.rng.pick(&[0, 0, 1, 1, 2, 3, 4, u64::MAX / 4]);
        let read = read_ibss_frame(&sent_by(sender, &body).octets, OWN, BSSID, READ_INTERVAL);
        let pair = match read {
            Ok(received) => received.pair(index as usize),
            Err(refusal) => Err(refusal.number),
        };
        self.counts.pairs[usize::from(pair.err().unwrap_or(0))] += 1;
        let answer = match pair {
            Ok(pair) => format!("0 {} {}", pair.channel, pair.map),
            Err(number) => number.to_string(),
        };
        let words = format!("pair {index}, {sender}{}", spelt(&body.parts));
        self.say(&words, &answer);
    }
}

fn switch_of(frame: &Frame) -> Option<Switch> {
    match frame {
        Frame::Beacon(notice) | Frame::ProbeResponse(notice) => notice.switch,
        Frame::ChannelSwitch(switch) => Some(*switch),
        _ => None,
    }
}
