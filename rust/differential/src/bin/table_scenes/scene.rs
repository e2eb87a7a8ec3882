//! One scene: calls at random, with the twin's answers.

use crate::counts::{Call, Counts, Event};
use crate::name::Name;
use crate::rng::Rng;
use crate::scenes::moments::{some_interval, Moments, Now, LONGEST_STEP};
use crate::scenes::words::{constraint_told, pending_told};
use std::collections::{HashMap, HashSet};
use std::fmt::Write;
use twin::{PendingSwitch, Station, Table};

/// So many calls has a scene, and a few more where its last step has several.
const CALLS: u64 = 1000;
/// So many of them come before a scene goes near the clock's limit.
const EARLY_CALLS: u64 = 100;

/// The AP and the beacon interval of the table that a scene begins with.
pub const USUAL_AP: Name = Name::ap(2);
const USUAL_INTERVAL: u16 = 100;

/// A scene as it goes on.
pub struct Scene<'a> {
    pub rng: Rng,
    pub ap: Name,
    pub interval: u16,
    pub table: Table,
    pub moments: Moments,
    pub counts: &'a mut Counts,
    /// Who may join.
    people: Vec<Name>,
    /// When each joined last, since the table was started.
    joinings: HashMap<Name, u64>,
    /// How many rows were joined since the table was started.
    joins: usize,
    /// Who has left since the table was started, and may have joined again.
    left: HashSet<Name>,
    /// How often, of ten times, somebody joins and nobody leaves.
    coming: u64,
    /// How often, of a hundred times, a frame announces a switch.
    pub announcing: u64,
    /// How often, of ten times, the clock stays within one beacon interval.
    near: u64,
    is_late: bool,
    /// How many calls there were.
    calls: u64,
    text: String,
}

/// What one row keeps, in the words of the scenes.
fn kept_told(row: &Station) -> String {
    let constraint = constraint_told(row.constraint());
    let pending = pending_told(row.pending_switch());
    format!("0 {} {} {constraint} {pending}", row.clock(), row.channel())
}

/// Whether two of these are not the same.
fn differ<T: PartialEq>(things: &[T]) -> bool {
    things.windows(2).any(|pair| pair[0] != pair[1])
}

impl<'a> Scene<'a> {
    /// The text of the scene of this seed.
    pub fn play(seed: u64, is_late: bool, counts: &'a mut Counts) -> String {
        let mut rng = Rng::new(seed * 0x9E37_79B9_7F4A_7C15);
        let near = rng.pick(&[5, 8, 9, 9]);
        let mut scene = Scene {
            ap: USUAL_AP,
            interval: USUAL_INTERVAL,
            table: Table::start(USUAL_AP.address(), USUAL_INTERVAL).expect("it may start"),
            moments: Moments::new(USUAL_INTERVAL, near),
            counts,
            people: some_people(&mut rng),
            joinings: HashMap::new(),
            joins: 0,
            left: HashSet::new(),
            coming: rng.pick(&[3, 6, 8, 9]),
            announcing: rng.pick(&[5, 20, 50]),
            near,
            is_late,
            calls: 0,
            text: format!("scene table of seed {seed}\n"),
            rng,
        };
        scene.counts.lines += 1;
        scene.open();
        if is_late {
            scene.go_on_until(EARLY_CALLS);
            scene.go_late();
        }
        scene.go_on_until(CALLS);
        scene.text
    }

    fn go_on_until(&mut self, calls: u64) {
        while self.calls < calls {
            self.step();
        }
    }

    pub fn say(&mut self, call: &str, answer: &str) {
        self.say_line(&format!("{call} = {answer}"));
    }

    fn say_line(&mut self, line: &str) {
        self.calls += 1;
        self.counts.lines += 1;
        writeln!(self.text, "{line}").expect("a string takes all");
    }

    /// Says a call that answers a number, and counts it.
    fn say_number(&mut self, call: Call, words: &str, number: u8) {
        self.counts.given(call, number);
        self.say(words, &number.to_string());
    }

    /// Mostly another table than a scene begins with, and some who join it.
    fn open(&mut self) {
        if !self.rng.one_in(3) {
            self.start_well();
        }
        for _ in 0..self.rng.pick(&[0, 2, 10, 20, 30]) {
            self.join();
        }
    }

    fn step(&mut self) {
        match self.rng.below(100) {
            0..=17 => self.tick(),
            18..=35 => self.ask(),
            36..=70 => self.send(),
            71..=80 => self.reply(),
            81..=93 => self.come_or_go(),
            94 => self.go_ahead(),
            95..=97 => self.ask_all(),
            98 => self.look_at_all(),
            _ => self.start_again(),
        }
        self.look();
    }

    pub fn clock(&self) -> u64 {
        u64::from(self.table.clock())
    }

    /// Those who are joined.
    pub fn joined(&self) -> Vec<Name> {
        let people = self.people.iter().copied();
        people.filter(|&name| self.is_joined(name)).collect()
    }

    pub fn is_joined(&self, name: Name) -> bool {
        self.table.row(name.address()).is_ok()
    }

    pub fn has_left(&self, name: Name) -> bool {
        self.left.contains(&name) && !self.is_joined(name)
    }

    /// Whether it joined since the latest TBTT, and not at it.
    pub fn joined_within(&self, name: Name) -> bool {
        let b = u64::from(self.interval);
        let latest_tbtt = self.clock() / b * b;
        self.is_joined(name) && self.joinings[&name] > latest_tbtt
    }

    /// Somebody who is joined, if anybody is, or else anybody.
    pub fn somebody(&mut self) -> Name {
        let joined = self.joined();
        if joined.is_empty() {
            return self.rng.pick(&self.people);
        }
        self.rng.pick(&joined)
    }

    /// One who may join and is not joined, if there is any, or else anybody.
    fn outsider(&mut self) -> Name {
        let people = self.people.iter().copied();
        let outside: Vec<Name> = people.filter(|&name| !self.is_joined(name)).collect();
        if outside.is_empty() {
            return self.rng.pick(&self.people);
        }
        self.rng.pick(&outside)
    }

    /// Mostly somebody who is joined; else anybody, or one who never joins.
    pub fn anybody(&mut self) -> Name {
        match self.rng.below(20) {
            0..=14 => self.somebody(),
            15..=17 => self.outsider(),
            18 => self.ap,
            _ => self.stranger(),
        }
    }

    /// One who never joins: a group address, or one that differs from another's
    /// in its first or last octet.
    fn stranger(&mut self) -> Name {
        let name = self.rng.pick(&self.people);
        match self.rng.below(5) {
            0 => Name::new(name.first ^ 128, name.last),
            1 => Name::new(name.first, name.last ^ 128),
            2 => Name::new(0, 0),
            _ => self.group(),
        }
    }

    /// A group address.
    fn group(&mut self) -> Name {
        let name = self.rng.pick(&self.people);
        let first = self.rng.pick(&[name.first | 1, Name::ALL]);
        Name::new(first, name.last)
    }

    fn now(&mut self) -> Now {
        let somebody = self.somebody();
        let pending = self.pending(somebody);
        Now {
            clock: self.clock(),
            pending: pending.map(|switch| switch.moment),
        }
    }

    fn pending(&self, name: Name) -> Option<PendingSwitch> {
        let row = self.table.row(name.address()).ok()?;
        row.pending_switch()
    }

    /// A start that is refused, which leaves the table, or one that is not.
    fn start_again(&mut self) {
        match self.rng.below(10) {
            0 | 1 => self.start(0, 2),
            2 | 3 => self.start(self.interval, 3),
            4 => self.start(0, Name::ALL),
            5 if !self.is_late => self.start_well(),
            _ => {}
        }
    }

    fn start_well(&mut self) {
        let interval = some_interval(&mut self.rng);
        let ap = self.rng.pick(&[2, 2, 2, 2, 2, 0, 4, 254]);
        self.start(interval, ap);
    }

    fn start(&mut self, interval: u16, ap: u8) {
        let started = Table::start(Name::ap(ap).address(), interval);
        let number = started.as_ref().err().copied().unwrap_or(0);
        self.say_number(Call::Start, &format!("start {interval}, ap {ap}"), number);
        if let Ok(table) = started {
            self.table = table;
            self.ap = Name::ap(ap);
            self.interval = interval;
            self.moments = Moments::new(interval, self.near);
            self.joinings.clear();
            self.joins = 0;
            self.left.clear();
        }
    }

    fn come_or_go(&mut self) {
        if self.rng.below(10) < self.coming {
            self.join();
        } else {
            self.leave();
        }
    }

    fn join(&mut self) {
        let name = match self.rng.below(20) {
            0 => self.group(),
            1 | 2 => self.somebody(),
            _ => self.outsider(),
        };
        let channel = self.rng.pick(&[
            0, 1, 36, 36, 36, 40, 40, 44, 44, 48, 149, 165, 199, 200, 201, 255,
        ]);
        let (was_joined, was_full) = (self.is_joined(name), self.is_full());
        let number = self.table.join(name.address(), channel);
        let words = format!("join {name}, channel {channel}");
        self.say_number(Call::Join, &words, number);
        match number {
            0 => self.came(name),
            15 => {
                self.counts.event_if(was_joined, Event::WrongBeforeTwice);
                self.counts.event_if(was_full, Event::WrongInFull);
            }
            25 => self.counts.event_if(was_full, Event::JoinedTwiceInFull),
            _ => {}
        }
    }

    fn is_full(&self) -> bool {
        self.joined().len() == Table::ROWS
    }

    /// What came of a join that was accepted.
    fn came(&mut self, name: Name) {
        let now = self.clock();
        let is_within = now % u64::from(self.interval) != 0;
        let is_full = self.is_full();
        self.joins += 1;
        self.joinings.insert(name, now);
        self.counts.event_if(is_full, Event::Full);
        self.counts
            .event_if(self.joins > Table::ROWS, Event::UsedAgain);
        self.counts
            .event_if(self.left.contains(&name), Event::JoinedAgain);
        self.counts.event_if(is_within, Event::JoinedWithin);
        self.counts
            .event_if(self.table.clock() == u32::MAX, Event::JoinedAtLimit);
        self.counts.event_if(name == self.ap, Event::ApJoined);
    }

    fn leave(&mut self) {
        let name = self.anybody();
        let was_pending = self.pending(name).is_some();
        let number = self.table.leave(name.address());
        self.say_number(Call::Leave, &format!("leave {name}"), number);
        if number == 0 {
            self.left.insert(name);
            let is_empty = self.joined().is_empty();
            self.counts.event_if(was_pending, Event::LeftPending);
            self.counts.event_if(is_empty, Event::LeftEmpty);
        }
    }

    fn tick(&mut self) {
        let now = self.now();
        let units = self.moments.units_to_advance(&mut self.rng, now);
        let before = self.pendings();
        let number = self.table.tick(units);
        self.say_number(Call::Tick, &format!("tick {units}"), number);
        if number == 0 {
            self.ticked(&before, units);
        } else {
            let is_short = u64::from(units) <= LONGEST_STEP;
            self.counts.event_if(is_short, Event::RefusedAtLimit);
            self.counts
                .event_if(before.is_empty(), Event::RefusedWithNobody);
        }
    }

    /// The pending switches of those who are joined.
    fn pendings(&self) -> Vec<Option<PendingSwitch>> {
        let joined = self.joined();
        joined.into_iter().map(|name| self.pending(name)).collect()
    }

    /// What came of a tick that was accepted.
    fn ticked(&mut self, before: &[Option<PendingSwitch>], units: u32) {
        let after = self.pendings();
        let mut rows = before.iter().zip(&after);
        let has_switched = rows.any(|(before, after)| before.is_some() && after.is_none());
        let is_pending = after.iter().any(Option::is_some);
        self.counts.event_if(has_switched, Event::Switched);
        self.counts
            .event_if(has_switched && is_pending, Event::SwitchedAlone);
        self.counts
            .event_if(u64::from(units) == LONGEST_STEP, Event::LongTick);
        self.counts
            .event_if(self.table.clock() == u32::MAX, Event::AtTheLimit);
    }

    /// On by more than one tick, or by none.
    fn go_ahead(&mut self) {
        let ahead = self.rng.pick(&[0, 1, 65_535, 65_536, 200_000]);
        let moment = self.table.clock().saturating_add(ahead);
        self.go_to(moment);
    }

    fn go_late(&mut self) {
        let moment = self.moments.late(&mut self.rng);
        self.go_to(moment);
    }

    /// Brings the clock to a moment, by ticks as the program does.
    fn go_to(&mut self, moment: u32) {
        while self.table.clock() < moment {
            let left = moment - self.table.clock();
            self.table.tick(left.min(LONGEST_STEP as u32));
        }
        self.say_line(&format!("at {moment}"));
    }

    fn ask(&mut self) {
        let now = self.now();
        let units = self.moments.units_to_ask(&mut self.rng, now);
        let name = self.anybody();
        self.ask_for(units, name);
    }

    fn ask_for(&mut self, units: u32, name: Name) -> u8 {
        let number = self.table.ask(units, name.address());
        self.say_number(Call::Ask, &format!("ask {units}, {name}"), number);
        let is_wrong = units == 0 || u64::from(units) > LONGEST_STEP;
        self.counts
            .event_if(number == 26 && is_wrong, Event::StrangerBeforeLength);
        number
    }

    /// One question for everybody who is joined.
    fn ask_all(&mut self) {
        let now = self.now();
        let units = self.moments.units_to_ask(&mut self.rng, now);
        let joined = self.joined();
        let numbers: Vec<u8> = joined
            .into_iter()
            .map(|name| self.ask_for(units, name))
            .collect();
        self.counts.event_if(differ(&numbers), Event::Differently);
    }

    /// What is kept, now and then.
    fn look(&mut self) {
        if self.rng.one_in(3) {
            let name = self.anybody();
            self.look_at(name);
        }
        if self.rng.one_in(10) {
            self.say("clock", &self.table.clock().to_string());
        }
    }

    fn look_at(&mut self, name: Name) {
        let row = self.table.row(name.address());
        let number = row.err().unwrap_or(0);
        let told = row.map_or(number.to_string(), kept_told);
        self.counts.given(Call::Row, number);
        self.say(&format!("row {name}"), &told);
    }

    /// What is kept of everybody.
    fn look_at_all(&mut self) {
        for name in self.people.clone() {
            self.look_at(name);
        }
        let pendings: Vec<PendingSwitch> = self.pendings().into_iter().flatten().collect();
        self.counts
            .event_if(differ(&pendings), Event::PendingDifferently);
    }
}

/// Few, about as many as there are rows, or more; several have the same first
/// octet and several the same last one.
fn some_people(rng: &mut Rng) -> Vec<Name> {
    let firsts = [2, 4, 6, 0, 254];
    let mut people: Vec<Name> = (0..60)
        .map(|number| Name::new(firsts[number % 5], (number / 5) as u8 + 1))
        .collect();
    rng.shuffle(&mut people);
    people.truncate(rng.pick(&[1, 3, 8, 16, 18, 20, 24, 30]));
    people
}
