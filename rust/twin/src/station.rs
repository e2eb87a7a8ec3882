//! One non-AP station of an infrastructure BSS (section "The station"; for
//! quiet intervals that run to their end 02, Two; 802.11h 11.6.2 and
//! 11.6.7.1).
//!
//! This station keeps no state of switches and schedules. It keeps what it
//! accepted and when, and reads every answer from that history, as the last
//! paragraph of the section says: which announcements came to be a switch,
//! which beacon's schedules count, and which units those make quiet. Of the
//! beacons that others replaced it reads which of their quiet intervals had
//! begun by then, and which units those still make quiet.

use std::collections::VecDeque;

use crate::answer::{
    Refusal, ACCEPTED, ASK_GRANTED, ASK_LENGTH, ASK_QUIET_AHEAD, ASK_QUIET_NOW, ASK_SILENCED,
    ASK_SWITCH_AHEAD, CLOCK, START,
};
use crate::element::{is_channel, Quiet, Switch};
use crate::frame::{read_frame, Frame};
use crate::header::is_group;
use crate::Address;

/// A station: its settings, its clock and its history. Two are equal if they
/// remember the same, which is more than giving the same answers.
#[derive(Clone, Debug, PartialEq, Eq)]
pub struct Station {
    pub(crate) own: Address,
    /// The AP; in an IBSS the BSSID (02, Five).
    pub(crate) ap: Address,
    pub(crate) interval: u16,
    /// The channel at start.
    channel: u8,
    clock: u32,
    /// How many frames went into the history, forgotten ones too.
    frames: u64,
    /// What they said of power and channel, in the order of acceptance.
    history: Vec<Accepted>,
    /// What the latest beacon or probe response set.
    latest: Option<Setting>,
    /// What those before it set that can still matter, in the order of
    /// acceptance.
    replaced: VecDeque<Setting>,
}

/// What an accepted frame said of power and channel that can still matter.
/// Moments are 64 bits wide, since switches and runs can lie past the clock's
/// limit.
#[derive(Clone, Copy, Debug, PartialEq, Eq)]
struct Accepted {
    /// Which frame of the whole history it was, from 0.
    place: u64,
    /// The clock when the frame was accepted.
    moment: u64,
    constraint: Option<u8>,
    switch: Option<Switch>,
}

/// The Quiet elements of a beacon or probe response (maybe none at all), and
/// from when to when it was the latest.
#[derive(Clone, Debug, PartialEq, Eq)]
struct Setting {
    /// Which frame of the whole history it was, from 0.
    place: u64,
    /// The clock when the frame was accepted.
    accepted: u64,
    /// The clock when the next beacon or probe response was accepted; `None`
    /// while this is the latest.
    replaced: Option<u64>,
    quiets: Vec<Quiet>,
}

/// An announcement in the history.
#[derive(Clone, Copy, Debug, PartialEq, Eq)]
struct Announcement {
    /// Which frame of the whole history it was, from 0.
    place: u64,
    /// When it was accepted.
    accepted: u64,
    /// When the switch is to be.
    moment: u64,
    mode: u8,
    channel: u8,
}

/// A switch that lies ahead.
#[derive(Clone, Copy, Debug, PartialEq, Eq)]
pub struct PendingSwitch {
    /// 1 forbids sending until the switch, 0 does not.
    pub mode: u8,
    /// The new channel.
    pub channel: u8,
    /// When it is to be, in TU since the start; it can lie past the clock's
    /// limit.
    pub moment: u64,
}

/// The runs of one Quiet element: from `start`, `duration` units, and again
/// after each `period` units if that is not 0.
#[derive(Clone, Copy, Debug, PartialEq, Eq)]
struct Schedule {
    start: u64,
    period: u64,
    duration: u64,
    /// When its frame was replaced, if it was: runs that start later never
    /// begin.
    replaced: Option<u64>,
}

impl Station {
    /// The highest clock, in TU.
    pub const CLOCK_LIMIT: u32 = 4_294_967_295;
    /// The most Quiet elements in one frame.
    pub const SCHEDULE_LIMIT: usize = 8;
    /// The highest channel.
    pub const CHANNEL_LIMIT: u8 = 200;
    /// The most TU in one advance and in one ask.
    pub const STEP_LIMIT: u32 = 65_535;

    /// Starts a station at clock 0. B of 0, a channel over 200 or a group
    /// address: 15.
    pub fn start(own: Address, ap: Address, interval: u16, channel: u8) -> Result<Station, u8> {
        Station::start_at(0, own, ap, interval, channel)
    }

    /// Starts a station whose clock stands at `clock`, as that of a table does
    /// where a row is joined (02, Six). Refused as `start` is.
    pub(crate) fn start_at(
        clock: u32,
        own: Address,
        ap: Address,
        interval: u16,
        channel: u8,
    ) -> Result<Station, u8> {
        let group = is_group(own) || is_group(ap);
        if interval == 0 || !is_channel(channel) || group {
            return Err(START);
        }
        Ok(Station {
            own,
            ap,
            interval,
            channel,
            clock,
            frames: 0,
            history: Vec::new(),
            latest: None,
            replaced: VecDeque::new(),
        })
    }

    /// Takes a frame: accepted (0), or the refusal of `read_frame`, with its
    /// place, and nothing changed.
    pub fn take(&mut self, frame: &[u8]) -> Result<(), Refusal> {
        let received = read_frame(frame, self.own, self.ap, self.interval)?;
        self.heard(received.frame);
        Ok(())
    }

    /// Does what an accepted frame says.
    pub(crate) fn heard(&mut self, frame: Frame) {
        self.remember(frame);
        self.forget();
    }

    /// Advances the clock by `n` TU. Over 65,535, or past the limit: 14.
    pub fn advance(&mut self, n: u32) -> u8 {
        match clock_after(self.clock, n) {
            Err(refusal) => refusal,
            Ok(clock) => {
                self.clock = clock;
                self.forget();
                ACCEPTED
            }
        }
    }

    /// Asks to send for `n` TU from now: the first that applies of 5, 1, 2, 3,
    /// 4 and 0, as the section "The station" lists them.
    pub fn ask(&self, n: u32) -> u8 {
        if n == 0 || n > Station::STEP_LIMIT {
            return ASK_LENGTH;
        }
        let now = self.now();
        let end = now + u64::from(n);
        let pending = self.pending();
        if pending.map_or(false, |switch| switch.mode == 1) {
            return ASK_SILENCED;
        }
        if self.schedules().any(|schedule| schedule.covers(now)) {
            return ASK_QUIET_NOW;
        }
        let schedules: Vec<Schedule> = self.schedules().collect();
        let before_switch = pending.map_or(end, |switch| switch.moment.min(end));
        if any_quiet(&schedules, now + 1, before_switch) {
            return ASK_QUIET_AHEAD;
        }
        if pending.map_or(false, |switch| switch.moment < end) {
            return ASK_SWITCH_AHEAD;
        }
        ASK_GRANTED
    }

    /// The clock, in TU since the start; in a row of a table since the table's.
    pub fn clock(&self) -> u32 {
        self.clock
    }

    /// The channel: that of the latest switch, or else that of the start.
    pub fn channel(&self) -> u8 {
        self.latest_switch()
            .map_or(self.channel, |switch| switch.channel)
    }

    /// The latest Power Constraint, unless a switch came after it.
    pub fn constraint(&self) -> Option<u8> {
        let latest = self.latest_constraint()?;
        if self.switched_after(latest.place, latest.moment) {
            return None;
        }
        latest.constraint
    }

    /// The pending switch, if any.
    pub fn pending_switch(&self) -> Option<PendingSwitch> {
        self.pending().map(|announcement| PendingSwitch {
            mode: announcement.mode,
            channel: announcement.channel,
            moment: announcement.moment,
        })
    }

    pub(crate) fn now(&self) -> u64 {
        u64::from(self.clock)
    }

    /// The moment of the TBTT that is `count` TBTTs after `moment`; the last
    /// one at or before it is count 0. B is not 0 since the start.
    fn tbtt(&self, moment: u64, count: u8) -> u64 {
        let interval = u64::from(self.interval);
        (moment / interval + u64::from(count)) * interval
    }

    /// Puts an accepted frame into the history. Other action frames change
    /// nothing.
    fn remember(&mut self, frame: Frame) {
        match frame {
            Frame::Beacon(notice) | Frame::ProbeResponse(notice) => {
                self.remember_quiets(notice.quiets);
                self.remember_said(notice.constraint, notice.switch);
            }
            Frame::ChannelSwitch(switch) => self.remember_said(None, Some(switch)),
            Frame::MeasurementRequest { .. }
            | Frame::MeasurementReport { .. }
            | Frame::TpcRequest { .. }
            | Frame::TpcReport { .. } => {}
        }
    }

    /// The Quiet elements of this frame are now the latest, and those of the
    /// beacon or probe response before it are replaced.
    fn remember_quiets(&mut self, quiets: Vec<Quiet>) {
        let now = self.now();
        let setting = Setting {
            place: self.frames,
            accepted: now,
            replaced: None,
            quiets,
        };
        if let Some(mut old) = self.latest.replace(setting) {
            old.replaced = Some(now);
            self.replaced.push_back(old);
        }
    }

    /// The rest of what this frame said, and on to the next frame's place.
    fn remember_said(&mut self, constraint: Option<u8>, switch: Option<Switch>) {
        self.history.push(Accepted {
            place: self.frames,
            moment: self.now(),
            constraint,
            switch,
        });
        self.frames += 1;
    }

    /// Forgets what can no longer matter, so that the history stays short
    /// however long the evening is. It changes no answer.
    fn forget(&mut self) {
        self.forget_said();
        self.forget_replaced();
    }

    /// Forgets what was said of power and channel:
    /// - only the latest Power Constraint counts;
    /// - an announcement whose moment was not reached before the next one
    ///   never is a switch, and the latest switch undoes all that an earlier
    ///   one did.
    fn forget_said(&mut self) {
        let constrained = self.latest_constraint().map(|accepted| accepted.place);
        let announced = self.latest_announcement().map(|switch| switch.place);
        let switched = self.latest_switch().map(|switch| switch.place);
        for accepted in &mut self.history {
            let place = Some(accepted.place);
            if place != constrained {
                accepted.constraint = None;
            }
            if place != announced && place != switched {
                accepted.switch = None;
            }
        }
        self.history
            .retain(|accepted| accepted.constraint.is_some() || accepted.switch.is_some());
    }

    /// Forgets replaced beacons and probe responses that are over, at both ends
    /// of their row: those of which nothing had begun as they were replaced,
    /// and those whose runs have ended by now. One between them waits until
    /// the older ones are over, which no more than 65,535 units can take.
    fn forget_replaced(&mut self) {
        while self.replaced.back().map_or(false, |old| self.is_over(old)) {
            self.replaced.pop_back();
        }
        while self.replaced.front().map_or(false, |old| self.is_over(old)) {
            self.replaced.pop_front();
        }
    }

    /// Whether nothing of a replaced beacon or probe response can matter any
    /// more: a switch came after it, or no run of it covers this unit. A run
    /// that covers a later unit covers this one too, since it has begun.
    fn is_over(&self, old: &Setting) -> bool {
        let now = self.now();
        self.switched_after(old.place, old.accepted)
            || !self.schedules_of(old).any(|schedule| schedule.covers(now))
    }

    /// The latest frame with a Power Constraint.
    fn latest_constraint(&self) -> Option<&Accepted> {
        let mut latest_first = self.history.iter().rev();
        latest_first.find(|accepted| accepted.constraint.is_some())
    }

    /// The announcements of the history, in the order of acceptance.
    fn announcements(&self) -> impl DoubleEndedIterator<Item = Announcement> + '_ {
        self.history.iter().filter_map(move |accepted| {
            let switch = accepted.switch?;
            Some(Announcement {
                place: accepted.place,
                accepted: accepted.moment,
                // Count 0 is at once, not at the last TBTT.
                moment: match switch.count {
                    0 => accepted.moment,
                    count => self.tbtt(accepted.moment, count),
                },
                mode: switch.mode,
                channel: switch.channel,
            })
        })
    }

    /// The announcements that came to be a switch: their moment was reached
    /// with no later announcement accepted first.
    fn switches(&self) -> impl Iterator<Item = Announcement> + '_ {
        let now = self.now();
        let next = self
            .announcements()
            .skip(1)
            .map(Some)
            .chain(std::iter::once(None));
        self.announcements()
            .zip(next)
            .filter_map(move |(announcement, next)| {
                let reached = announcement.moment <= now;
                let in_time = next.map_or(true, |next| announcement.moment <= next.accepted);
                if reached && in_time {
                    Some(announcement)
                } else {
                    None
                }
            })
    }

    /// The latest switch. They happened in the order of their announcements.
    fn latest_switch(&self) -> Option<Announcement> {
        self.switches().last()
    }

    /// The latest announcement, whether it came to be a switch or not.
    fn latest_announcement(&self) -> Option<Announcement> {
        self.announcements().next_back()
    }

    /// The pending switch: the latest announcement, if its moment lies ahead.
    fn pending(&self) -> Option<Announcement> {
        self.latest_announcement()
            .filter(|switch| switch.moment > self.now())
    }

    /// Whether a switch came after the frame at `place`, accepted at
    /// `accepted`. One announced by that very frame or a later one did. One
    /// announced before did if its moment came after the frame; at the frame's
    /// own moment the clock had reached the switch before the frame was
    /// accepted.
    fn switched_after(&self, place: u64, accepted: u64) -> bool {
        self.switches()
            .any(|switch| switch.place >= place || switch.moment > accepted)
    }

    /// The schedules that count: those of the latest accepted beacon or probe
    /// response, and beside them "every quiet interval begun while its frame
    /// was the latest" (02, Two), which is what `Schedule` leaves of the
    /// replaced ones. A switch after a frame ends all that it set: what had
    /// begun by the switch, and what starts at it or later never begins.
    fn schedules(&self) -> impl Iterator<Item = Schedule> + '_ {
        self.replaced
            .iter()
            .chain(&self.latest)
            .filter(move |setting| !self.switched_after(setting.place, setting.accepted))
            .flat_map(move |setting| self.schedules_of(setting))
    }

    /// The schedules of one beacon or probe response. "A Quiet element starts
    /// at S = (k + count) times B + offset", k from the moment of acceptance.
    fn schedules_of<'a>(&'a self, setting: &'a Setting) -> impl Iterator<Item = Schedule> + 'a {
        setting.quiets.iter().map(move |quiet| Schedule {
            start: self.tbtt(setting.accepted, quiet.count) + u64::from(quiet.offset),
            period: u64::from(quiet.period) * u64::from(self.interval),
            duration: u64::from(quiet.duration),
            replaced: setting.replaced,
        })
    }
}

/// What a clock is after `n` TU. 14: "clock would pass its limit, or the advance
/// is over 65,535".
pub(crate) fn clock_after(clock: u32, n: u32) -> Result<u32, u8> {
    if n > Station::STEP_LIMIT || n > Station::CLOCK_LIMIT - clock {
        return Err(CLOCK);
    }
    Ok(clock + n)
}

/// How many units are looked at together.
const STRETCH: usize = 1024;
const OPEN: u8 = 0;
const QUIET: u8 = 1;

/// Whether any unit from `first` and before `end` is quiet.
///
/// Every unit gets its own mark, and the marks are read one by one; but the
/// schedules mark a stretch of units at a time, run by run, which spares a
/// division for each unit and schedule. It stops after the first stretch with
/// a quiet unit.
fn any_quiet(schedules: &[Schedule], first: u64, end: u64) -> bool {
    let mut marks = [OPEN; STRETCH];
    let mut from = first;
    while from < end {
        let length = (end - from).min(STRETCH as u64);
        let units = &mut marks[..length as usize];
        units.fill(OPEN);
        for schedule in schedules {
            schedule.mark(from, units);
        }
        if units.contains(&QUIET) {
            return true;
        }
        from += length;
    }
    false
}

impl Schedule {
    /// Whether a run begins: the clock reaches its first unit while its frame
    /// is the latest (02, Two). At the very moment at which the frame was
    /// replaced, the clock had reached the run before the next frame was
    /// accepted.
    fn begins(&self, run: u64) -> bool {
        self.replaced.map_or(true, |replaced| run <= replaced)
    }

    /// Whether a unit lies in a run that begins. The first run that is not
    /// over by then decides: if it starts after the unit or never begins, the
    /// same holds for every later one.
    fn covers(&self, unit: u64) -> bool {
        self.first_left(unit)
            .map_or(false, |run| run <= unit && self.begins(run))
    }

    /// The start of the first run that is not over by `unit`, whether it
    /// begins or not, or `None` if all are over.
    fn first_left(&self, unit: u64) -> Option<u64> {
        match unit.checked_sub(self.start + self.duration) {
            None => Some(self.start),
            Some(_) if self.period == 0 => None,
            Some(since) => Some(self.start + (since / self.period + 1) * self.period),
        }
    }

    /// Marks the units that lie in a run that begins, of the units from `from`
    /// on. Each such run keeps its whole length, also past the start of a next
    /// one that never begins.
    fn mark(&self, from: u64, units: &mut [u8]) {
        let end = from + units.len() as u64;
        let mut left = self.first_left(from);
        while let Some(run) = left.filter(|&run| run < end && self.begins(run)) {
            let run_end = run + self.duration;
            mark_run(run, run_end, from, units);
            // One that reaches the end leaves later ones nothing to mark.
            if self.period == 0 || run_end >= end {
                return;
            }
            left = Some(run + self.period);
        }
    }
}

/// Marks the units of one run that are among `units`, the first being `from`.
fn mark_run(start: u64, end: u64, from: u64, units: &mut [u8]) {
    let last = from + units.len() as u64;
    let (start, end) = (start.max(from), end.min(last));
    if start < end {
        units[(start - from) as usize..(end - from) as usize].fill(QUIET);
    }
}

#[cfg(test)]
mod tests {
    use super::*;
    use crate::frame::Notice;
    use crate::sample::{action, notice, quiet, vendor, Dice, ALL, AP, OWN};

    fn fresh() -> Station {
        Station::start(OWN, AP, 100, 36).unwrap()
    }

    /// Advances to a moment; it may be far away.
    fn go(station: &mut Station, moment: u32) {
        while station.clock() < moment {
            let step = (moment - station.clock()).min(65_535);
            assert_eq!(station.advance(step), 0);
        }
        assert_eq!(station.clock(), moment);
    }

    fn announcement(mode: u8, channel: u8, count: u8) -> Vec<u8> {
        action(OWN, &[0, 4, 37, 3, mode, channel, count])
    }

    fn beacon(elements: &[u8]) -> Vec<u8> {
        notice(8, ALL, 100, elements)
    }

    /// The document's Quiet, accepted at 50; S is 120.
    fn quieted(period: u8) -> Station {
        let mut station = fresh();
        go(&mut station, 50);
        assert_eq!(station.take(&beacon(&quiet(1, period, 10, 20))), Ok(()));
        station
    }

    #[test]
    fn start_on_both_sides() {
        let mut group = OWN;
        group[0] |= 1;
        assert_eq!(Station::start(OWN, AP, 0, 36), Err(15));
        assert!(Station::start(OWN, AP, 1, 0).is_ok());
        assert!(Station::start(OWN, AP, 65_535, 200).is_ok());
        assert_eq!(Station::start(OWN, AP, 1, 201), Err(15));
        assert_eq!(Station::start(group, AP, 1, 0), Err(15));
        assert_eq!(Station::start(OWN, group, 1, 0), Err(15));
        let station = fresh();
        assert_eq!(
            (station.clock(), station.channel(), station.constraint()),
            (0, 36, None)
        );
    }

    #[test]
    fn advance_on_both_sides() {
        let mut station = fresh();
        assert_eq!(station.advance(0), 0);
        assert_eq!(station.advance(65_535), 0);
        assert_eq!(station.advance(65_536), 14);
        assert_eq!(station.advance(u32::MAX), 14);
        assert_eq!(station.clock(), 65_535);
        station.clock = u32::MAX - 10;
        assert_eq!(station.advance(11), 14);
        assert_eq!(station.clock(), u32::MAX - 10);
        assert_eq!(station.advance(10), 0);
        assert_eq!(station.clock(), Station::CLOCK_LIMIT);
        assert_eq!(station.advance(0), 0);
        assert_eq!(station.advance(1), 14);
    }

    #[test]
    fn ask_lengths() {
        let mut station = fresh();
        assert_eq!(station.ask(0), 5);
        assert_eq!(station.ask(1), 0);
        assert_eq!(station.ask(65_535), 0);
        assert_eq!(station.ask(65_536), 5);
        assert_eq!(station.ask(u32::MAX), 5);
        // 5 comes before 1.
        assert_eq!(station.take(&announcement(1, 44, 1)), Ok(()));
        assert_eq!(station.ask(0), 5);
        assert_eq!(station.ask(1), 1);
        // Units past the clock's limit are covered as well.
        station.clock = u32::MAX;
        assert_eq!(station.take(&announcement(0, 44, 255)), Ok(()));
        assert_eq!(station.ask(1), 0);
        assert_eq!(station.ask(65_535), 4);
    }

    #[test]
    fn single_quiet_on_both_sides() {
        let mut station = quieted(0);
        assert_eq!(station.ask(70), 0);
        assert_eq!(station.ask(71), 3);
        go(&mut station, 119);
        assert_eq!(station.ask(1), 0);
        assert_eq!(station.ask(2), 3);
        go(&mut station, 120);
        assert_eq!(station.ask(1), 2);
        assert_eq!(station.ask(65_535), 2);
        go(&mut station, 129);
        assert_eq!(station.ask(1), 2);
        go(&mut station, 130);
        assert_eq!(station.ask(1), 0);
        assert_eq!(station.ask(65_535), 0);
        go(&mut station, 319);
        assert_eq!(station.ask(2), 0);
    }

    #[test]
    fn periodic_quiet_on_both_sides() {
        let mut station = quieted(2);
        go(&mut station, 119);
        assert_eq!(station.ask(2), 3);
        go(&mut station, 130);
        assert_eq!(station.ask(190), 0);
        assert_eq!(station.ask(191), 3);
        go(&mut station, 319);
        assert_eq!(station.ask(1), 0);
        assert_eq!(station.ask(2), 3);
        go(&mut station, 320);
        assert_eq!(station.ask(1), 2);
        go(&mut station, 329);
        assert_eq!(station.ask(1), 2);
        go(&mut station, 330);
        assert_eq!(station.ask(1), 0);
        go(&mut station, 120 + 200 * 50_000);
        assert_eq!(station.ask(1), 2);
    }

    #[test]
    fn a_beacon_without_quiet_ends_schedules() {
        let mut station = quieted(2);
        go(&mut station, 110);
        assert_eq!(station.take(&beacon(&[])), Ok(()));
        go(&mut station, 120);
        assert_eq!(station.ask(1), 0);
        assert_eq!(station.ask(65_535), 0);
        // Within a running interval too, but that one runs to its end (02,
        // Two): 320 is the start of the next.
        let mut station = quieted(2);
        go(&mut station, 125);
        assert_eq!(station.ask(1), 2);
        assert_eq!(station.take(&beacon(&[])), Ok(()));
        assert_eq!(station.ask(1), 2);
        go(&mut station, 130);
        assert_eq!(station.ask(65_535), 0);
        go(&mut station, 320);
        assert_eq!(station.ask(1), 0);
    }

    /// The moments from `first` to `last` at which a question for one unit is
    /// answered 2; at the others it has to be 0. One unit at a time.
    fn quiet_moments(station: &Station, first: u32, last: u32) -> Vec<u32> {
        let mut then = station.clone();
        go(&mut then, first);
        let mut moments = Vec::new();
        loop {
            match then.ask(1) {
                0 => {}
                2 => moments.push(then.clock()),
                other => panic!("{} at {}", other, then.clock()),
            }
            if then.clock() == last {
                return moments;
            }
            assert_eq!(then.advance(1), 0);
        }
    }

    fn moments(first: u32, end: u32) -> Vec<u32> {
        (first..end).collect()
    }

    /// A station that accepts beacons with these elements at these moments.
    fn after_beacons(beacons: &[(u32, &[u8])]) -> Station {
        let mut station = fresh();
        for &(moment, elements) in beacons {
            go(&mut station, moment);
            assert_eq!(station.take(&beacon(elements)), Ok(()));
        }
        station
    }

    #[test]
    fn a_begun_run_goes_on_to_its_end() {
        // The run is 120 to 129. A beacon before 120 finds it not begun.
        for moment in [51, 99, 100, 110, 119] {
            let mut station = quieted(0);
            go(&mut station, moment);
            assert_eq!(station.ask(71), 3);
            assert_eq!(station.take(&beacon(&[])), Ok(()));
            assert_eq!(station.ask(65_535), 0);
            assert_eq!(quiet_moments(&station, moment, 140), []);
        }
        for moment in [120, 121, 125, 129] {
            let mut station = quieted(0);
            go(&mut station, moment);
            assert_eq!(station.take(&beacon(&[])), Ok(()));
            assert_eq!((station.ask(1), station.ask(65_535)), (2, 2));
            assert_eq!(
                quiet_moments(&station, moment, 140),
                moments(moment, 130),
                "beacon at {}",
                moment
            );
            go(&mut station, 130);
            assert_eq!(station.ask(65_535), 0);
        }
        let mut station = quieted(0);
        go(&mut station, 130);
        assert_eq!(station.take(&beacon(&[])), Ok(()));
        assert_eq!(station.ask(65_535), 0);
        assert_eq!(quiet_moments(&station, 130, 140), []);
    }

    #[test]
    fn the_case_of_the_request() {
        // "With the beacon at 125 the answer at 126 is 2."
        let mut station = quieted(0);
        go(&mut station, 125);
        assert_eq!(station.take(&beacon(&[])), Ok(()));
        for (moment, answer) in [(126, 2), (129, 2), (130, 0)] {
            go(&mut station, moment);
            assert_eq!(station.ask(1), answer);
        }
    }

    #[test]
    fn beacons_and_probe_responses_replace_each_other_alike() {
        for (first, second) in [(8, 8), (8, 5), (5, 8), (5, 5)] {
            for da in [OWN, ALL] {
                let set = notice(first, da, 100, &quiet(1, 0, 10, 20));
                let replace = notice(second, da, 100, &[]);
                for (moment, quiet_from) in [(119, 130), (120, 120), (125, 125), (130, 130)] {
                    let mut station = fresh();
                    go(&mut station, 50);
                    assert_eq!(station.take(&set), Ok(()));
                    go(&mut station, moment);
                    assert_eq!(station.take(&replace), Ok(()));
                    assert_eq!(
                        quiet_moments(&station, moment, 140),
                        moments(quiet_from, 130)
                    );
                }
            }
        }
    }

    #[test]
    fn a_run_goes_on_however_often_its_frame_is_replaced() {
        let mut station = quieted(0);
        for moment in 120..=135 {
            go(&mut station, moment);
            // Several at the same moment: the first of them replaced it.
            for _ in 0..3 {
                assert_eq!(station.take(&beacon(&[])), Ok(()));
                assert_eq!(station.ask(1), if moment < 130 { 2 } else { 0 });
            }
            assert_eq!(station.replaced.len(), usize::from(moment < 130));
        }
        // What replaces it at 119 is replaced itself when 120 comes.
        let mut station = quieted(0);
        go(&mut station, 119);
        assert_eq!(station.take(&beacon(&[])), Ok(()));
        go(&mut station, 120);
        assert_eq!(station.take(&beacon(&[])), Ok(()));
        assert_eq!(quiet_moments(&station, 120, 140), []);
    }

    #[test]
    fn a_frame_that_was_replaced_at_once_sets_nothing() {
        let mut station = quieted(0);
        assert_eq!(station.take(&beacon(&[])), Ok(()));
        assert_eq!(station.ask(65_535), 0);
        // Accepted on a TBTT: its own first TBTT is the next one.
        let station = after_beacons(&[(100, &quiet(1, 0, 10, 0)), (100, &[]), (200, &[])]);
        assert_eq!(quiet_moments(&station, 200, 220), []);
    }

    #[test]
    fn an_advance_over_the_beginning_has_reached_it() {
        // Both come to 125, by one advance and by one unit at a time.
        let mut leap = quieted(0);
        assert_eq!(leap.advance(75), 0);
        let mut steps = quieted(0);
        for _ in 0..75 {
            assert_eq!(steps.advance(1), 0);
        }
        for station in [&mut leap, &mut steps] {
            assert_eq!(station.take(&beacon(&[])), Ok(()));
            assert_eq!(quiet_moments(station, 125, 140), moments(125, 130));
        }
        assert_eq!(leap, steps);
    }

    #[test]
    fn two_runs_the_longer_one_set_first() {
        // 120 to 249, and from the beacon at 130 200 to 219.
        let (first, second) = (quiet(1, 0, 130, 20), quiet(1, 0, 20, 0));
        for (replaced, end) in [(199, 250), (200, 250), (210, 250), (230, 250)] {
            let station = after_beacons(&[(50, &first), (130, &second), (replaced, &[])]);
            assert_eq!(
                quiet_moments(&station, replaced, 300),
                moments(replaced, end)
            );
        }
    }

    #[test]
    fn two_runs_the_longer_one_set_last() {
        // 120 to 209, and from the beacon at 130 200 to 249.
        let (first, second) = (quiet(1, 0, 90, 20), quiet(1, 0, 50, 0));
        for (replaced, end) in [(199, 210), (200, 250), (205, 250), (215, 250)] {
            let station = after_beacons(&[(50, &first), (130, &second), (replaced, &[])]);
            assert_eq!(
                quiet_moments(&station, replaced, 300),
                moments(replaced, end)
            );
        }
    }

    #[test]
    fn runs_of_many_frames() {
        // One run from each of eight beacons, at 120, 220, ... 820, every
        // other one long. All begun ones run on beside each other.
        let mut station = fresh();
        let ends = [320u32, 240, 520, 440, 720, 640, 920, 840];
        for (turn, end) in ends.into_iter().enumerate() {
            go(&mut station, 100 * turn as u32 + 50);
            let duration = end as u16 - (100 * turn as u16 + 120);
            assert_eq!(station.take(&beacon(&quiet(1, 0, duration, 20))), Ok(()));
        }
        go(&mut station, 850);
        assert_eq!(station.take(&beacon(&[])), Ok(()));
        // Of them all, 720 to 919 is not over.
        assert_eq!(quiet_moments(&station, 850, 950), moments(850, 920));
        go(&mut station, 920);
        assert_eq!(station.ask(65_535), 0);
        assert_eq!(station.replaced, []);
    }

    #[test]
    fn a_period_shorter_than_the_duration() {
        // Runs of 250 at 100, 200, 300 and so on. Those that have begun run
        // on, each to its own end; later ones never begin.
        for (replaced, end) in [
            (99, 99),
            (100, 350),
            (199, 350),
            (200, 450),
            (250, 450),
            (299, 450),
            (300, 550),
            (1000, 1250),
        ] {
            let station = after_beacons(&[(0, &quiet(1, 1, 250, 0)), (replaced, &[])]);
            assert_eq!(
                quiet_moments(&station, replaced, 1300),
                moments(replaced, end)
            );
        }
    }

    #[test]
    fn a_period_longer_than_the_duration() {
        // Runs of 10 at 120, 320, 520.
        for (replaced, quiet_from, end) in [
            (130, 130, 130),
            (319, 319, 319),
            (320, 320, 330),
            (329, 329, 330),
            (330, 330, 330),
            (525, 525, 530),
        ] {
            let station = after_beacons(&[(50, &quiet(1, 2, 10, 20)), (replaced, &[])]);
            assert_eq!(
                quiet_moments(&station, replaced, 800),
                moments(quiet_from, end)
            );
        }
        // A period that is the duration: no unit is open until the end.
        let station = after_beacons(&[(0, &quiet(1, 1, 100, 0)), (399, &[])]);
        assert_eq!(quiet_moments(&station, 399, 600), moments(399, 400));
        let station = after_beacons(&[(0, &quiet(1, 1, 100, 0)), (400, &[])]);
        assert_eq!(quiet_moments(&station, 400, 600), moments(400, 500));
    }

    #[test]
    fn each_element_of_a_replaced_frame_by_itself() {
        // 120 to 129, 125 to 134, 126 to 155.
        let elements = [
            quiet(1, 0, 10, 20),
            quiet(1, 0, 10, 25),
            quiet(1, 0, 30, 26),
        ]
        .concat();
        for (replaced, end) in [
            (119, 119),
            (120, 130),
            (124, 130),
            (125, 135),
            (126, 156),
            (140, 156),
        ] {
            let station = after_beacons(&[(50, &elements), (replaced, &[])]);
            assert_eq!(
                quiet_moments(&station, replaced, 200),
                moments(replaced, end)
            );
        }
    }

    #[test]
    fn what_runs_on_stands_beside_the_latest_schedules() {
        // 120 to 129 runs on; the beacon at 125 sets 200 to 209.
        let mut station = after_beacons(&[(50, &quiet(1, 2, 10, 20)), (125, &quiet(1, 0, 10, 0))]);
        let both = [moments(125, 130), moments(200, 210)].concat();
        assert_eq!(quiet_moments(&station, 125, 400), both);
        go(&mut station, 129);
        assert_eq!(station.ask(65_535), 2);
        go(&mut station, 130);
        assert_eq!((station.ask(70), station.ask(71)), (0, 3));
        // The latest one overlaps what runs on, and outlasts it.
        let station = after_beacons(&[(50, &quiet(1, 0, 90, 20)), (130, &quiet(1, 0, 20, 0))]);
        assert_eq!(quiet_moments(&station, 130, 300), moments(130, 220));
    }

    #[test]
    fn a_run_that_has_not_begun_lies_ahead_of_nobody() {
        // At 119 the run at 120 lies ahead of a question for two units, until
        // the beacon that replaces it; so does its later run at 320.
        let mut station = quieted(2);
        go(&mut station, 119);
        assert_eq!((station.ask(1), station.ask(2)), (0, 3));
        assert_eq!(station.take(&beacon(&[])), Ok(()));
        assert_eq!((station.ask(2), station.ask(65_535)), (0, 0));
        let mut station = after_beacons(&[(50, &quiet(1, 2, 10, 20)), (125, &[])]);
        go(&mut station, 319);
        assert_eq!((station.ask(2), station.ask(65_535)), (0, 0));
        // The same Quiet said again at 119 starts at 220 for the first time.
        let mut station = quieted(2);
        go(&mut station, 119);
        assert_eq!(station.take(&beacon(&quiet(1, 2, 10, 20))), Ok(()));
        assert_eq!((station.ask(101), station.ask(102)), (0, 3));
    }

    #[test]
    fn a_switch_that_is_reached_ends_what_runs_on() {
        // 120 to 419; the switch at 200 is announced before the frame, by the
        // frame itself, before the beacon that replaces it at 150, by that
        // beacon, and after it.
        let long = quiet(1, 0, 300, 20);
        let switch = |count| [37, 3, 0, 44, count];
        for announced in 0..5 {
            let mut station = fresh();
            if announced == 0 {
                assert_eq!(station.take(&announcement(0, 44, 2)), Ok(()));
            }
            go(&mut station, 50);
            let said = if announced == 1 { &switch(2)[..] } else { &[] };
            assert_eq!(station.take(&beacon(&[&long, said].concat())), Ok(()));
            go(&mut station, 140);
            if announced == 2 {
                assert_eq!(station.take(&announcement(0, 44, 1)), Ok(()));
            }
            go(&mut station, 150);
            let said = if announced == 3 { &switch(1)[..] } else { &[] };
            assert_eq!(station.take(&beacon(said)), Ok(()));
            if announced == 4 {
                assert_eq!(station.take(&announcement(0, 44, 1)), Ok(()));
            }
            assert_eq!(quiet_moments(&station, 150, 450), moments(150, 200));
            go(&mut station, 199);
            // 2 comes before 4.
            assert_eq!((station.ask(1), station.ask(2)), (2, 2));
            go(&mut station, 200);
            assert_eq!((station.ask(65_535), station.channel()), (0, 44));
            assert_eq!(station.replaced, []);
        }
    }

    #[test]
    fn answers_1_2_and_4_while_a_run_goes_on() {
        let mut station = quieted(0);
        go(&mut station, 125);
        assert_eq!(station.take(&beacon(&[])), Ok(()));
        // Mode 1 comes first, mode 0 after what is quiet.
        assert_eq!(station.take(&announcement(1, 44, 2)), Ok(()));
        assert_eq!((station.ask(1), station.ask(0)), (1, 5));
        assert_eq!(station.take(&announcement(0, 44, 1)), Ok(()));
        assert_eq!(station.ask(65_535), 2);
        go(&mut station, 130);
        assert_eq!((station.ask(70), station.ask(71)), (0, 4));
    }

    #[test]
    fn a_count_of_0_ends_what_runs_on() {
        // In the frame that replaces: it comes after the frame's own Quiet.
        let at_once = [&[37, 3, 0, 44, 0][..], &quiet(1, 0, 10, 0)].concat();
        for moment in [119, 120, 125, 129] {
            let mut station = quieted(0);
            go(&mut station, moment);
            assert_eq!(station.take(&beacon(&at_once)), Ok(()));
            assert_eq!((station.ask(65_535), station.channel()), (0, 44));
            // A beacon after it finds nothing that had begun.
            assert_eq!(station.take(&beacon(&[])), Ok(()));
            assert_eq!(station.ask(65_535), 0);
        }
        // In an action frame, before and after the beacon that replaces.
        let mut station = quieted(0);
        go(&mut station, 125);
        assert_eq!(station.take(&announcement(0, 44, 0)), Ok(()));
        assert_eq!(station.take(&beacon(&[])), Ok(()));
        assert_eq!(station.ask(65_535), 0);
        let mut station = quieted(0);
        go(&mut station, 125);
        assert_eq!(station.take(&beacon(&[])), Ok(()));
        go(&mut station, 126);
        assert_eq!(station.ask(1), 2);
        assert_eq!(station.take(&announcement(0, 44, 0)), Ok(()));
        assert_eq!((station.ask(65_535), station.replaced.len()), (0, 0));
        // In the frame that set it: nothing of it ever begins.
        let elements = [&quiet(1, 0, 10, 20)[..], &[37, 3, 0, 44, 0]].concat();
        let station = after_beacons(&[(50, &elements), (125, &[])]);
        assert_eq!(quiet_moments(&station, 125, 140), []);
        // Before that frame, at the same moment: it ends nothing of it.
        let mut station = fresh();
        go(&mut station, 50);
        assert_eq!(station.take(&announcement(0, 44, 0)), Ok(()));
        assert_eq!(station.take(&beacon(&quiet(1, 0, 10, 20))), Ok(()));
        go(&mut station, 125);
        assert_eq!(station.take(&beacon(&[])), Ok(()));
        assert_eq!(quiet_moments(&station, 125, 140), moments(125, 130));
    }

    #[test]
    fn a_switch_at_the_first_unit_comes_first() {
        // The run would be 100 to 149, and the switch is at 100.
        for announced_by_the_frame in [true, false] {
            let mut station = fresh();
            go(&mut station, 50);
            let mut elements = quiet(1, 0, 50, 0);
            if announced_by_the_frame {
                elements.extend_from_slice(&[37, 3, 0, 44, 1]);
            } else {
                assert_eq!(station.take(&announcement(0, 44, 1)), Ok(()));
            }
            assert_eq!(station.take(&beacon(&elements)), Ok(()));
            go(&mut station, 99);
            assert_eq!((station.ask(1), station.ask(2)), (0, 4));
            go(&mut station, 100);
            assert_eq!(station.ask(65_535), 0);
            assert_eq!(station.take(&beacon(&[])), Ok(()));
            assert_eq!(quiet_moments(&station, 100, 160), []);
        }
        // A run from 101 finds the switch done and never begins either.
        let elements = [&quiet(1, 0, 50, 1)[..], &[37, 3, 0, 44, 1]].concat();
        let station = after_beacons(&[(50, &elements), (110, &[])]);
        assert_eq!(quiet_moments(&station, 110, 160), []);
        // A run from 199 has begun, and the switch at 200 ends it.
        let elements = [&quiet(1, 0, 50, 99)[..], &[37, 3, 0, 44, 2]].concat();
        let mut station = after_beacons(&[(50, &elements), (199, &[])]);
        assert_eq!(quiet_moments(&station, 199, 260), [199]);
        go(&mut station, 200);
        assert_eq!((station.ask(65_535), station.channel()), (0, 44));
    }

    #[test]
    fn a_switch_between_the_frame_and_the_run() {
        let mut station = quieted(2);
        assert_eq!(station.take(&announcement(0, 44, 1)), Ok(()));
        go(&mut station, 125);
        assert_eq!(station.take(&beacon(&[])), Ok(()));
        assert_eq!(quiet_moments(&station, 125, 400), []);
        // By a count of 0, and with the beacon at the run's first unit.
        let mut station = quieted(0);
        go(&mut station, 119);
        assert_eq!(station.take(&announcement(0, 44, 0)), Ok(()));
        go(&mut station, 120);
        assert_eq!(station.take(&beacon(&[])), Ok(()));
        assert_eq!(quiet_moments(&station, 120, 140), []);
        // An announcement that another one replaces is no switch.
        let mut station = quieted(0);
        assert_eq!(station.take(&announcement(0, 44, 1)), Ok(()));
        assert_eq!(station.take(&announcement(0, 48, 3)), Ok(()));
        go(&mut station, 125);
        assert_eq!(station.take(&beacon(&[])), Ok(()));
        assert_eq!(quiet_moments(&station, 125, 340), moments(125, 130));
    }

    #[test]
    fn a_run_begun_after_a_switch_goes_on() {
        // The first frame's run is 120 to 419, until the switch at 200. The
        // second is accepted there, and its run is 300 to 309.
        let first = [&quiet(1, 0, 300, 20)[..], &[37, 3, 0, 44, 2]].concat();
        let second = quiet(1, 0, 10, 0);
        let station = after_beacons(&[(50, &first), (200, &second), (305, &[])]);
        assert_eq!(quiet_moments(&station, 305, 450), moments(305, 310));
        // The first one replaced before the switch does not come back.
        let station = after_beacons(&[(50, &first), (150, &[]), (200, &second), (305, &[])]);
        assert_eq!(quiet_moments(&station, 305, 450), moments(305, 310));
    }

    #[test]
    fn only_an_accepted_beacon_or_probe_response_replaces() {
        for moment in [110, 120, 125] {
            let mut station = quieted(2);
            go(&mut station, moment);
            let before = station.clone();
            for refused in [
                beacon(&quiet(0, 0, 1, 0)),
                beacon(&quiet(1, 0, 1, 100)),
                beacon(&[40]),
                beacon(&[37, 3, 0, 201, 0]),
                beacon(&quiet(1, 0, 1, 0).repeat(9)),
                notice(5, OWN, 99, &[]),
                notice(8, AP, 100, &[]),
            ] {
                assert!(station.take(&refused).is_err());
                assert_eq!(station, before);
            }
            // An announcement in its own frame is none, nor is a TPC Request.
            assert_eq!(station.take(&announcement(0, 44, 9)), Ok(()));
            assert_eq!(station.take(&action(OWN, &[0, 2, 7, 34, 0])), Ok(()));
            let whole = [moments(moment.max(120), 130), moments(320, 330)].concat();
            assert_eq!(quiet_moments(&station, moment, 400), whole);
        }
        // Nor does a refused one replace what replaced it: 120 to 129 is all.
        let mut station = after_beacons(&[(50, &quiet(1, 2, 10, 20)), (125, &[])]);
        assert!(station.take(&beacon(&quiet(0, 0, 1, 0))).is_err());
        assert_eq!(station.advance(65_536), 14);
        assert_eq!(quiet_moments(&station, 125, 400), moments(125, 130));
    }

    #[test]
    fn a_begun_run_of_duration_0_covers_nothing() {
        for period in [0, 1, 255] {
            for moment in [119, 120, 121, 220] {
                let elements = quiet(1, period, 0, 20);
                let mut station = after_beacons(&[(50, &elements), (moment, &[])]);
                assert_eq!(station.ask(65_535), 0);
                assert_eq!(station.replaced, []);
                go(&mut station, 320);
                assert_eq!(station.ask(65_535), 0);
            }
        }
        // Beside it, one of duration 1 covers its one unit.
        let elements = [quiet(1, 0, 0, 20), quiet(1, 0, 1, 20)].concat();
        let station = after_beacons(&[(50, &elements), (120, &[])]);
        assert_eq!(quiet_moments(&station, 120, 130), [120]);
    }

    #[test]
    fn the_longest_run_goes_on() {
        // From 120, 65,535 units: to 65,654.
        let mut station = after_beacons(&[(50, &quiet(1, 0, 65_535, 20)), (120, &[])]);
        assert_eq!(station.advance(65_534), 0);
        assert_eq!((station.clock(), station.ask(65_535)), (65_654, 2));
        assert_eq!(station.advance(1), 0);
        assert_eq!(station.ask(65_535), 0);
    }

    #[test]
    fn a_run_goes_on_at_the_clocks_limit() {
        let mut station = Station::start(OWN, AP, 1, 0).unwrap();
        station.clock = u32::MAX - 2;
        assert_eq!(
            station.take(&notice(8, OWN, 1, &quiet(1, 0, 65_535, 0))),
            Ok(())
        );
        assert_eq!((station.ask(1), station.ask(2)), (0, 3));
        assert_eq!(station.advance(1), 0);
        assert_eq!(station.take(&notice(8, OWN, 1, &[])), Ok(()));
        assert_eq!(station.ask(1), 2);
        assert_eq!(station.advance(1), 0);
        assert_eq!((station.clock(), station.ask(1)), (u32::MAX, 2));
        // A run past the limit is never reached, so it never begins.
        assert_eq!(station.take(&notice(8, OWN, 1, &quiet(1, 1, 9, 0))), Ok(()));
        assert_eq!(station.take(&announcement(0, 44, 0)), Ok(()));
        assert_eq!(station.take(&notice(8, OWN, 1, &quiet(1, 1, 9, 0))), Ok(()));
        assert_eq!((station.ask(1), station.ask(2)), (0, 3));
        assert_eq!(station.take(&notice(8, OWN, 1, &[])), Ok(()));
        assert_eq!(station.ask(65_535), 0);
    }

    #[test]
    fn what_runs_on_stays_within_bounds() {
        // B of 1, a beacon at each unit, and every run of the greatest length:
        // each has begun when the next beacon comes.
        let mut station = Station::start(OWN, AP, 1, 36).unwrap();
        let longest = notice(8, OWN, 1, &quiet(1, 1, 65_535, 0));
        for _ in 0..200_000 {
            assert_eq!(station.take(&longest), Ok(()));
            assert_eq!(station.advance(1), 0);
            assert_eq!(station.ask(65_535), 2);
        }
        assert!(station.replaced.len() <= 65_535);
        // The last run begins at 200,000 and ends before 265,535.
        assert_eq!(station.take(&notice(8, OWN, 1, &[])), Ok(()));
        assert_eq!(station.advance(65_534), 0);
        assert_eq!(station.ask(1), 2);
        assert_eq!(station.advance(1), 0);
        assert_eq!(station.ask(65_535), 0);
        assert_eq!(station.replaced, []);
    }

    #[test]
    fn a_switch_before_the_quiet_run() {
        let mut station = quieted(0);
        assert_eq!(station.take(&announcement(0, 44, 1)), Ok(()));
        go(&mut station, 90);
        assert_eq!(station.ask(50), 4);
        assert_eq!(station.ask(10), 0);
        assert_eq!(station.ask(11), 4);
        // After the switch the schedules are gone.
        go(&mut station, 120);
        assert_eq!(station.ask(1), 0);
        assert_eq!(station.channel(), 44);
    }

    #[test]
    fn a_quiet_run_before_the_switch() {
        let mut station = quieted(0);
        assert_eq!(station.take(&announcement(0, 44, 2)), Ok(()));
        go(&mut station, 119);
        assert_eq!(station.ask(1), 0);
        assert_eq!(station.ask(2), 3);
        assert_eq!(station.ask(500), 3);
        go(&mut station, 130);
        assert_eq!(station.ask(70), 0);
        assert_eq!(station.ask(71), 4);
    }

    #[test]
    fn mode_0_switch_on_both_sides() {
        let mut station = fresh();
        go(&mut station, 50);
        assert_eq!(station.take(&announcement(0, 44, 1)), Ok(()));
        go(&mut station, 99);
        assert_eq!(station.ask(1), 0);
        assert_eq!(station.ask(2), 4);
        assert_eq!(station.channel(), 36);
        go(&mut station, 100);
        assert_eq!(station.channel(), 44);
        assert_eq!(station.ask(65_535), 0);
    }

    #[test]
    fn counts_run_from_tbtts() {
        // Accepted on a TBTT, count 1 is the next one.
        let mut station = fresh();
        go(&mut station, 100);
        assert_eq!(station.take(&announcement(1, 44, 1)), Ok(()));
        go(&mut station, 199);
        assert_eq!((station.ask(1), station.channel()), (1, 36));
        go(&mut station, 200);
        assert_eq!((station.ask(1), station.channel()), (0, 44));
        // One unit before a TBTT, that TBTT is count 1.
        go(&mut station, 299);
        assert_eq!(station.take(&announcement(1, 48, 1)), Ok(()));
        assert_eq!(station.ask(1), 1);
        go(&mut station, 300);
        assert_eq!((station.ask(1), station.channel()), (0, 48));
    }

    #[test]
    fn announcements_replace_each_other() {
        let mut station = fresh();
        assert_eq!(station.take(&announcement(1, 44, 1)), Ok(()));
        assert_eq!(station.ask(1), 1);
        assert_eq!(station.take(&announcement(0, 48, 3)), Ok(()));
        assert_eq!(station.ask(1), 0);
        go(&mut station, 100);
        assert_eq!(station.channel(), 36);
        go(&mut station, 300);
        assert_eq!(station.channel(), 48);
        // At the moment itself the switch was first.
        assert_eq!(station.take(&announcement(0, 52, 1)), Ok(()));
        assert_eq!(station.channel(), 48);
        go(&mut station, 400);
        assert_eq!(station.take(&announcement(0, 56, 0)), Ok(()));
        assert_eq!(station.channel(), 56);
        assert_eq!(station.ask(65_535), 0);
    }

    #[test]
    fn an_announcement_with_vendors_after_it() {
        let longest = vendor(&[7; 255]);
        for vendors in [&[221, 0][..], &[221, 5, 37, 3, 0, 48, 0], &longest] {
            for times in 1..=3 {
                let after = vendors.repeat(times);
                let announced = |mode, channel, count| {
                    [announcement(mode, channel, count), after.clone()].concat()
                };
                let mut plain = fresh();
                let mut station = fresh();
                // Mode 1, and mode 0 in its place, and at once.
                for (moment, mode, channel, count) in
                    [(50, 1, 44, 2), (120, 0, 48, 1), (230, 1, 52, 0)]
                {
                    go(&mut plain, moment);
                    go(&mut station, moment);
                    let heard = plain.take(&announcement(mode, channel, count));
                    assert_eq!(heard, Ok(()));
                    assert_eq!(station.take(&announced(mode, channel, count)), Ok(()));
                    assert_eq!(station, plain);
                }
                assert_eq!((station.ask(65_535), station.channel()), (0, 52));
            }
        }
        let mut station = fresh();
        let frame = action(ALL, &[0, 4, 37, 3, 1, 44, 1, 221, 1, 7]);
        assert_eq!(station.take(&frame), Ok(()));
        go(&mut station, 99);
        assert_eq!((station.ask(1), station.channel()), (1, 36));
        go(&mut station, 100);
        assert_eq!((station.ask(1), station.channel()), (0, 44));
    }

    #[test]
    fn count_0_is_at_once() {
        let mut station = quieted(0);
        go(&mut station, 120);
        assert_eq!(station.ask(1), 2);
        assert_eq!(station.take(&announcement(1, 44, 0)), Ok(()));
        assert_eq!((station.ask(65_535), station.channel()), (0, 44));
        // It replaces a pending switch, and a beacon comes after it.
        assert_eq!(station.take(&announcement(1, 48, 3)), Ok(()));
        assert_eq!(station.take(&announcement(0, 52, 0)), Ok(()));
        assert_eq!(
            station.take(&beacon(&[&quiet(1, 0, 1, 0)[..], &[32, 1, 3]].concat())),
            Ok(())
        );
        assert_eq!((station.channel(), station.constraint()), (52, Some(3)));
        assert_eq!((station.ask(80), station.ask(81)), (0, 3));
        // In one frame it comes after Quiet and constraint.
        let elements = [&[37, 3, 0, 56, 0, 32, 1, 9][..], &quiet(1, 0, 1, 0)].concat();
        assert_eq!(station.take(&beacon(&elements)), Ok(()));
        assert_eq!((station.channel(), station.constraint()), (56, None));
        assert_eq!(station.ask(65_535), 0);
    }

    #[test]
    fn constraints() {
        let mut station = fresh();
        assert_eq!(station.take(&beacon(&[32, 1, 3])), Ok(()));
        assert_eq!(station.constraint(), Some(3));
        // A beacon without one leaves it.
        assert_eq!(station.take(&beacon(&[])), Ok(()));
        assert_eq!(station.constraint(), Some(3));
        assert_eq!(station.take(&beacon(&[32, 1, 0, 37, 3, 0, 44, 1])), Ok(()));
        assert_eq!(station.constraint(), Some(0));
        go(&mut station, 99);
        assert_eq!(station.constraint(), Some(0));
        go(&mut station, 100);
        assert_eq!(station.constraint(), None);
        assert_eq!(station.take(&beacon(&[32, 1, 7])), Ok(()));
        assert_eq!(station.constraint(), Some(7));
        go(&mut station, 200);
        assert_eq!(station.constraint(), Some(7));
    }

    #[test]
    fn the_pending_switch() {
        let pending = |mode, channel, moment| {
            Some(PendingSwitch {
                mode,
                channel,
                moment,
            })
        };
        let mut station = fresh();
        assert_eq!(station.pending_switch(), None);
        go(&mut station, 50);
        assert_eq!(station.take(&announcement(1, 44, 2)), Ok(()));
        assert_eq!(station.pending_switch(), pending(1, 44, 200));
        assert_eq!(station.take(&beacon(&[37, 3, 0, 48, 1])), Ok(()));
        assert_eq!(station.pending_switch(), pending(0, 48, 100));
        go(&mut station, 99);
        assert_eq!(station.pending_switch(), pending(0, 48, 100));
        go(&mut station, 100);
        assert_eq!(station.pending_switch(), None);
        assert_eq!(station.take(&announcement(1, 52, 1)), Ok(()));
        assert_eq!(station.take(&announcement(1, 56, 0)), Ok(()));
        assert_eq!((station.pending_switch(), station.channel()), (None, 56));
    }

    #[test]
    fn a_beacon_leaves_a_pending_switch() {
        let mut station = fresh();
        assert_eq!(station.take(&announcement(1, 44, 1)), Ok(()));
        assert_eq!(station.take(&beacon(&quiet(1, 0, 10, 0))), Ok(()));
        assert_eq!(station.ask(1), 1);
        go(&mut station, 100);
        assert_eq!((station.ask(65_535), station.channel()), (0, 44));
    }

    #[test]
    fn all_quiet_elements_count() {
        let mut elements = Vec::new();
        for place in 0..8u8 {
            elements.extend_from_slice(&quiet(1, 0, 1, 10 * u16::from(place)));
        }
        let mut station = fresh();
        assert_eq!(station.take(&beacon(&elements)), Ok(()));
        for moment in 0..=200u32 {
            let mut then = station.clone();
            go(&mut then, moment);
            let in_run = (100..180).contains(&moment) && moment % 10 == 0;
            assert_eq!(then.ask(1), if in_run { 2 } else { 0 });
        }
        // A ninth is refused and the eight stay.
        elements.extend_from_slice(&quiet(1, 0, 1, 99));
        let before = station.clone();
        // It stands after the fixed fields and eight elements of 8 octets.
        let ninth = Refusal {
            number: 11,
            offset: Some(36 + 64),
        };
        assert_eq!(station.take(&beacon(&elements)), Err(ninth));
        assert_eq!(station, before);
    }

    #[test]
    fn refusals_and_other_action_frames_change_nothing() {
        let mut station = quieted(2);
        assert_eq!(station.take(&announcement(0, 44, 2)), Ok(()));
        let before = station.clone();
        for (frame, number, offset) in [
            (announcement(0, 48, 0)[..23].to_vec(), 1, None),
            (vec![0; 2337], 2, None),
            (vec![0; 24], 3, None),
            (action(AP, &[0, 4, 37, 3, 0, 48, 0]), 4, None),
            (announcement(0, 48, 0)[..25].to_vec(), 1, None),
            (action(OWN, &[1]), 5, Some(24)),
            (action(OWN, &[0, 5]), 5, Some(25)),
            (announcement(0, 48, 0)[..30].to_vec(), 6, Some(26)),
            (announcement(0, 48, 0)[..26].to_vec(), 7, Some(26)),
            (action(OWN, &[0, 4, 37, 2, 0, 48]), 8, Some(26)),
            (announcement(2, 48, 0), 9, Some(26)),
            (announcement(0, 201, 0), 9, Some(26)),
            (beacon(&[32, 1, 3, 32, 1, 3]), 10, Some(39)),
            (notice(8, OWN, 99, &[]), 12, Some(32)),
            (action(OWN, &[0, 4, 38, 3, 0, 48, 0]), 21, Some(26)),
            (action(OWN, &[0, 4, 37, 3, 0, 48, 0, 0]), 22, Some(31)),
            // Cut vendors' elements, one in front, and what is after them.
            (action(OWN, &[0, 4, 37, 3, 0, 48, 0, 221]), 6, Some(31)),
            (action(OWN, &[0, 4, 37, 3, 0, 48, 0, 221, 1]), 6, Some(31)),
            (
                action(OWN, &[0, 4, 37, 3, 0, 48, 0, 221, 0, 221]),
                6,
                Some(33),
            ),
            (action(OWN, &[0, 4, 221, 0, 37, 3, 0, 48, 0]), 21, Some(26)),
            (
                action(OWN, &[0, 4, 37, 3, 0, 48, 0, 221, 0, 222, 0]),
                22,
                Some(33),
            ),
        ] {
            let refusal = Refusal { number, offset };
            assert_eq!(station.take(&frame), Err(refusal));
            assert_eq!(station, before);
        }
        for frame in [
            action(OWN, &[0, 2, 7, 34, 0]),
            action(OWN, &[0, 3, 7, 35, 2, 0, 0]),
            action(OWN, &[0, 0, 7, 38, 3, 1, 2, 0]),
            action(OWN, &[0, 1, 7, 39, 3, 1, 1, 0]),
        ] {
            assert_eq!(station.take(&frame), Ok(()));
            assert_eq!(station, before);
            // Nor does a vendor's element, whatever its contents.
            let more = [frame, vendor(&[37, 3, 0, 48, 0])].concat();
            assert_eq!(station.take(&more), Ok(()));
            assert_eq!(station, before);
        }
    }

    #[test]
    fn duration_0_covers_nothing() {
        for period in [0, 1, 255] {
            let mut station = fresh();
            assert_eq!(station.take(&beacon(&quiet(1, period, 0, 0))), Ok(()));
            assert_eq!(station.ask(65_535), 0);
            go(&mut station, 100);
            assert_eq!(station.ask(65_535), 0);
        }
    }

    #[test]
    fn near_the_limit() {
        // B of 1: the switch count reaches past the limit and stays pending.
        let mut station = Station::start(OWN, AP, 1, 0).unwrap();
        station.clock = u32::MAX - 1;
        assert_eq!(station.take(&announcement(1, 44, 2)), Ok(()));
        assert_eq!(station.advance(1), 0);
        assert_eq!((station.ask(1), station.channel()), (1, 0));
        assert_eq!(station.advance(1), 14);
        // Quiet past the limit is seen by an ask.
        let frame = notice(
            8,
            OWN,
            1,
            &[&quiet(255, 255, 65_535, 0)[..], &[37, 3, 0, 9, 255]].concat(),
        );
        assert_eq!(station.take(&frame), Ok(()));
        assert_eq!((station.ask(255), station.ask(256)), (0, 4));
        // One that started at 1 still runs with its period at the limit.
        let mut station = Station::start(OWN, AP, 1, 0).unwrap();
        assert_eq!(station.take(&notice(8, OWN, 1, &quiet(1, 5, 2, 0))), Ok(()));
        station.clock = u32::MAX; // 4,294,967,295 is 0 modulo 5
        assert_eq!((station.ask(1), station.ask(2)), (0, 3));
        station.clock = u32::MAX - 4;
        assert_eq!(station.ask(1), 2);
        station.clock = u32::MAX - 2;
        assert_eq!((station.ask(3), station.ask(4)), (0, 3));
    }

    /// Whether a unit lies in a run, run by run as the document says it; of a
    /// replaced frame in one that had begun.
    fn in_a_run(schedule: &Schedule, unit: u64) -> bool {
        let mut run = schedule.start;
        loop {
            if unit < run || schedule.replaced.map_or(false, |replaced| replaced < run) {
                return false;
            }
            if unit < run + schedule.duration {
                return true;
            }
            if schedule.period == 0 {
                return false;
            }
            run += schedule.period;
        }
    }

    #[test]
    fn marks_and_units_agree_with_the_runs() {
        let mut dice = Dice(7);
        for _ in 0..3000 {
            let schedule = Schedule {
                start: dice.roll(60),
                period: dice.roll(30),
                duration: dice.roll(40),
                replaced: Some(dice.roll(120)).filter(|&replaced| replaced < 100),
            };
            for unit in 0..200 {
                assert_eq!(schedule.covers(unit), in_a_run(&schedule, unit));
            }
            let from = dice.roll(100);
            let mut units = vec![OPEN; dice.roll(100) as usize];
            schedule.mark(from, &mut units);
            for (place, &mark) in units.iter().enumerate() {
                assert_eq!(mark == QUIET, in_a_run(&schedule, from + place as u64));
            }
        }
    }

    #[test]
    fn stretches_leave_no_gap() {
        for quiet_unit in [1, 2, 1023, 1024, 1025, 2047, 2048, 2049, 65_534, 65_535] {
            let schedule = Schedule {
                start: quiet_unit,
                period: 0,
                duration: 1,
                replaced: None,
            };
            let begun = Schedule {
                replaced: Some(quiet_unit),
                ..schedule
            };
            let never_begun = Schedule {
                replaced: Some(quiet_unit - 1),
                ..schedule
            };
            for first in [0, 1, 1024] {
                for end in [first, quiet_unit, quiet_unit + 1, 70_000] {
                    let inside = first <= quiet_unit && quiet_unit < end;
                    assert_eq!(any_quiet(&[schedule], first, end), inside);
                    assert_eq!(any_quiet(&[never_begun, begun], first, end), inside);
                    assert!(!any_quiet(&[never_begun], first, end));
                }
            }
        }
    }

    /// Whether a run starts at this very unit.
    fn starts_a_run(schedule: &Schedule, unit: u64) -> bool {
        match unit.checked_sub(schedule.start) {
            None => false,
            Some(since) if schedule.period == 0 => since == 0,
            Some(since) => since % schedule.period == 0,
        }
    }

    /// The station as the document's bullets describe it, step by step, with
    /// nothing of the history: a check on the history's reading. Runs begin
    /// here one by one, as the clock reaches them (02, Two).
    struct Bullets {
        interval: u64,
        clock: u64,
        channel: u8,
        constraint: Option<u8>,
        pending: Option<(u64, Switch)>,
        schedules: Vec<Schedule>,
        /// The ends of the runs that have begun since the last switch.
        running: Vec<u64>,
    }

    impl Bullets {
        fn switch_to(&mut self, channel: u8) {
            self.channel = channel;
            self.schedules.clear();
            self.running.clear();
            self.constraint = None;
            self.pending = None;
        }

        fn announced(&mut self, switch: Switch) {
            let k = self.clock / self.interval;
            if switch.count == 0 {
                self.switch_to(switch.channel);
            } else {
                self.pending = Some(((k + u64::from(switch.count)) * self.interval, switch));
            }
        }

        fn noticed(&mut self, notice: &Notice) {
            let k = self.clock / self.interval;
            self.schedules = notice
                .quiets
                .iter()
                .map(|quiet| Schedule {
                    start: (k + u64::from(quiet.count)) * self.interval + u64::from(quiet.offset),
                    period: u64::from(quiet.period) * self.interval,
                    duration: u64::from(quiet.duration),
                    replaced: None,
                })
                .collect();
            if notice.constraint.is_some() {
                self.constraint = notice.constraint;
            }
            if let Some(switch) = notice.switch {
                self.announced(switch);
            }
        }

        /// One unit at a time: a switch comes first, then runs begin.
        fn advance(&mut self, n: u64) {
            for _ in 0..n {
                self.clock += 1;
                if let Some((moment, switch)) = self.pending {
                    if moment == self.clock {
                        self.switch_to(switch.channel);
                    }
                }
                for schedule in &self.schedules {
                    if starts_a_run(schedule, self.clock) {
                        self.running.push(self.clock + schedule.duration);
                    }
                }
            }
        }

        /// Whether the latest schedules make a unit quiet.
        fn is_set(&self, unit: u64) -> bool {
            let mut schedules = self.schedules.iter();
            schedules.any(|schedule| in_a_run(schedule, unit))
        }

        /// Whether a run that has begun makes a unit from now on quiet.
        fn runs_on(&self, unit: u64) -> bool {
            self.running.iter().any(|&end| unit < end)
        }

        fn ask(&self, n: u64) -> u8 {
            let quiet = |unit| self.is_set(unit) || self.runs_on(unit);
            if let Some((_, switch)) = self.pending {
                if switch.mode == 1 {
                    return 1;
                }
            }
            if quiet(self.clock) {
                return 2;
            }
            for unit in self.clock + 1..self.clock + n {
                if let Some((moment, _)) = self.pending {
                    if unit >= moment {
                        return 4;
                    }
                }
                if quiet(unit) {
                    return 3;
                }
            }
            0
        }
    }

    /// Some frame that is mostly accepted. Quiet runs are under `longest`
    /// units, and one in `calm` frames announces a switch, or a bit more.
    fn some_frame(dice: &mut Dice, interval: u16, longest: u64, calm: u64) -> Vec<u8> {
        let switch = [dice.roll(2) as u8, dice.roll(201) as u8, dice.roll(4) as u8];
        if dice.roll(calm) == 0 {
            return announcement(switch[0], switch[1], switch[2]);
        }
        let mut elements = Vec::new();
        for _ in 0..dice.roll(4) {
            let offset = dice.roll(u64::from(interval)) as u16;
            elements.extend_from_slice(&quiet(
                dice.roll(4) as u8 + u8::from(dice.roll(20) != 0),
                dice.roll(4) as u8,
                dice.roll(longest) as u16 / (1 + dice.roll(4)) as u16,
                offset,
            ));
        }
        if dice.roll(2) == 0 {
            elements.extend_from_slice(&[32, 1, dice.roll(256) as u8]);
        }
        if dice.roll(calm) == 0 {
            elements.extend_from_slice(&[37, 3, switch[0], switch[1], switch[2]]);
        }
        notice(
            if dice.roll(2) == 0 { 8 } else { 5 },
            OWN,
            interval,
            &elements,
        )
    }

    #[test]
    fn history_and_bullets_agree() {
        let mut dice = Dice(2003);
        // How often replaced frames alone make a moment quiet, and several.
        let (mut alone, mut several) = (0, 0);
        // Unoptimised code gets fewer walks.
        let walks = if cfg!(debug_assertions) { 60 } else { 400 };
        for walk in 0..walks {
            let interval = [1u16, 2, 5, 7, 10, 33][walk % 6];
            // Short runs and many switches, or long runs and few.
            let (longest, calm) = match walk / 6 % 2 {
                0 => (2 * u64::from(interval), 3),
                _ => (20 * u64::from(interval), 30),
            };
            let mut station = Station::start(OWN, AP, interval, 36).unwrap();
            // The same station that forgets nothing.
            let mut whole = station.clone();
            let mut bullets = Bullets {
                interval: u64::from(interval),
                clock: 0,
                channel: 36,
                constraint: None,
                pending: None,
                schedules: Vec::new(),
                running: Vec::new(),
            };
            for _ in 0..120 {
                match dice.roll(3) {
                    0 => {
                        let frame = some_frame(&mut dice, interval, longest, calm);
                        if station.take(&frame).is_ok() {
                            let read = read_frame(&frame, OWN, AP, interval).unwrap().frame;
                            match &read {
                                Frame::ChannelSwitch(switch) => bullets.announced(*switch),
                                Frame::Beacon(notice) | Frame::ProbeResponse(notice) => {
                                    bullets.noticed(notice)
                                }
                                _ => {}
                            }
                            whole.remember(read);
                        }
                    }
                    _ => {
                        let n = dice.roll(3 * u64::from(interval)) as u32;
                        assert_eq!(station.advance(n), 0);
                        whole.clock += n;
                        bullets.advance(u64::from(n));
                    }
                }
                if bullets.runs_on(bullets.clock) && !bullets.is_set(bullets.clock) {
                    alone += 1;
                    several += u32::from(station.replaced.len() > 1);
                }
                assert!(station.history.len() <= 3);
                assert_eq!(u64::from(station.clock()), bullets.clock);
                assert_eq!(station.channel(), bullets.channel);
                assert_eq!(station.constraint(), bullets.constraint);
                assert_eq!(whole.channel(), bullets.channel);
                assert_eq!(whole.constraint(), bullets.constraint);
                let far = 1 + dice.roll(200);
                for n in (1..=12).chain(std::iter::once(far)) {
                    let expected = bullets.ask(n);
                    assert_eq!(station.ask(n as u32), expected);
                    assert_eq!(whole.ask(n as u32), expected);
                }
            }
        }
        assert!(alone > 1000 && several > 100, "{} {}", alone, several);
    }
}
