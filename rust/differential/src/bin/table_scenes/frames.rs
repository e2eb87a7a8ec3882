//! The frames that a table takes.

use crate::builder::{mutate, Builder, Stage, ALL_ONES};
use crate::counts::{Call, Event};
use crate::name::Name;
use crate::scene::{Scene, USUAL_AP};
use crate::scenes::frames::{
    announcing_action, elements, fixed_fields, header, notice, other_action, whole, with_header,
    Body, Kind, Sent, NUMBERS,
};
use crate::scenes::words::told;
use twin::{read_frame, Address, Frame, Notice, Refusal, Switch};

/// Where a frame has its DA.
const DA: std::ops::Range<usize> = 4..10;

impl Scene<'_> {
    /// Sends the table a frame, of any sort.
    pub fn send(&mut self) {
        let to = self.receiver();
        let is_usual = self.ap == USUAL_AP;
        let sent = match self.rng.below(10) {
            0 | 1 => self.built(to, NUMBERS - 1),
            2 => self.headed(to),
            // The verbs have the usual AP for sender.
            3..=8 if !is_usual => self.headed(to),
            _ => self.by_verb(to),
        };
        self.take(&sent);
    }

    /// All ones, or an address.
    pub fn receiver(&mut self) -> Name {
        match self.rng.below(3) {
            0 => Name::new(Name::ALL, self.rng.pick(&[0, 1, Name::ALL])),
            _ => self.anybody(),
        }
    }

    fn by_verb(&mut self, to: Name) -> Sent {
        let body = self.body();
        let ap = USUAL_AP.address();
        body.sent(&to.to_string(), header(body.kind, to.receiver(), ap, ap))
    }

    /// With a header of its own, of this AP.
    fn headed(&mut self, to: Name) -> Sent {
        let body = self.body();
        let header = self.some_header(body.kind, to);
        let mut sent = with_header(&mut self.rng, &body, header);
        if self.rng.one_in(16) {
            let length = self.rng.place(sent.octets.len() + 1);
            sent.resize(length);
        }
        sent
    }

    /// The header of a frame to it, now and then with another address.
    pub fn some_header(&mut self, kind: Kind, to: Name) -> Vec<u8> {
        let ap = self.ap.address();
        let mut header = header(kind, to.receiver(), ap, ap);
        if self.rng.one_in(5) {
            let at = self.rng.pick(&[4, 10, 16]);
            match self.rng.below(4) {
                0 => header[at + self.rng.place(6)] ^= 1 << self.rng.below(8),
                1 => header[at..at + 6].copy_from_slice(&self.somebody().address()),
                2 => header[at..at + 6].copy_from_slice(&ALL_ONES),
                _ => header[at..at + 6].copy_from_slice(&self.ap.address()),
            }
        }
        header
    }

    fn body(&mut self) -> Body {
        let announces = self.rng.below(100) < self.announcing;
        match self.rng.below(10) {
            0..=4 => self.notice(Kind::Beacon, announces),
            5 | 6 => self.notice(Kind::Probe, announces),
            _ if announces => announcing_action(&mut self.rng),
            _ => other_action(&mut self.rng),
        }
    }

    fn notice(&mut self, kind: Kind, announces: bool) -> Body {
        let fixed_fields = fixed_fields(&mut self.rng, self.interval);
        let mut elements = elements(&mut self.rng, announces, self.interval);
        self.rng.shuffle(&mut elements);
        notice(&mut self.rng, kind, fixed_fields, elements)
    }

    /// As the comparison of readers builds frames, with any number of faults,
    /// and cut where there is no room for more octets.
    pub fn built(&mut self, to: Name, room: usize) -> Sent {
        let stage = Stage {
            own: to.receiver(),
            ap: self.ap.address(),
            interval: self.interval,
        };
        let faults = self.rng.pick(&[0, 10, 40]);
        let mut builder = Builder {
            rng: &mut self.rng,
            stage,
            faults,
        };
        let mut octets = builder.frame();
        // Most of those that would have to be cut are not worth their room.
        while octets.len() > room && !builder.rng.one_in(8) {
            octets = builder.frame();
        }
        if self.rng.one_in(4) {
            mutate(&mut self.rng, &mut octets);
        }
        whole(vec![octets], room)
    }

    fn take(&mut self, sent: &Sent) {
        let da = receiver_of(&sent.octets);
        let quiet = self.quiet();
        let answer = self.table.take(&sent.octets);
        let number = answer.err().map_or(0, |refusal| refusal.number);
        let call = if da == Some(ALL_ONES) {
            Call::FrameToAll
        } else {
            Call::FrameToOne
        };
        self.counts.given(call, number);
        self.say(&sent.words(), &told(answer));
        if let Some(da) = da {
            match answer {
                Ok(()) => self.accepted(da, &sent.octets, &quiet),
                Err(refusal) => self.refused(da, refusal),
            }
        }
    }

    fn refused(&mut self, da: Address, refusal: Refusal) {
        let is_to_all = da == ALL_ONES;
        let name = Name::of(da);
        if refusal.number != 4 {
            let is_broken = refusal.offset.is_some();
            let is_to_nobody = is_to_all && self.joined().is_empty();
            self.counts
                .event_if(is_broken && is_to_nobody, Event::BrokenToNobody);
            return;
        }
        let is_joined = name.map_or(false, |name| self.is_joined(name));
        let has_left = name.map_or(false, |name| self.has_left(name));
        let is_to_ap = da == self.ap.address() && !is_joined;
        let is_to_group = da[0] & 1 == 1 && !is_to_all;
        self.counts
            .event_if(is_joined || is_to_all, Event::OfOtherAp);
        self.counts.event_if(has_left, Event::ToLeft);
        self.counts.event_if(is_to_ap, Event::ToAp);
        self.counts.event_if(is_to_group, Event::ToGroup);
    }

    /// Those who are joined and must be quiet at this moment.
    fn quiet(&self) -> Vec<Name> {
        let is_quiet = |name: &Name| self.table.ask(1, name.address()) == 2;
        self.joined().into_iter().filter(is_quiet).collect()
    }

    /// What came of a frame that was accepted while these were quiet.
    fn accepted(&mut self, da: Address, octets: &[u8], quiet: &[Name]) {
        let joined = self.joined();
        let is_to_all = da == ALL_ONES;
        self.counts
            .event_if(is_to_all && joined.len() > 1, Event::HeardByAll);
        self.counts
            .event_if(is_to_all && joined.is_empty(), Event::HeardByNobody);
        self.counts
            .event_if(da == self.ap.address(), Event::HeardByAp);
        let read = read_frame(octets, da, self.ap.address(), self.interval);
        let heard: Vec<Name> = joined
            .into_iter()
            .filter(|name| is_to_all || name.address() == da)
            .collect();
        match read.map(|received| received.frame) {
            Ok(Frame::Beacon(notice)) | Ok(Frame::ProbeResponse(notice)) => {
                self.noticed(&heard, &notice);
                self.replaced(&heard, &notice, quiet);
            }
            Ok(Frame::ChannelSwitch(switch)) => self.announced(&heard, &switch),
            _ => {}
        }
    }

    fn noticed(&mut self, heard: &[Name], notice: &Notice) {
        let clock = self.clock();
        self.moments.note(clock, notice);
        if heard.is_empty() {
            return;
        }
        self.counts
            .event_if(notice.quiets.len() == 8, Event::ManyQuiet);
        if let Some(switch) = &notice.switch {
            self.announced(heard, switch);
        }
    }

    /// Quiet intervals that go on past a frame that sets none (02, Two).
    fn replaced(&mut self, heard: &[Name], notice: &Notice, quiet: &[Name]) {
        let is_quiet_still = self.quiet();
        let runs_on = |name: &Name| quiet.contains(name) && is_quiet_still.contains(name);
        let any_runs_on = heard.iter().any(runs_on);
        self.counts
            .event_if(notice.quiets.is_empty() && any_runs_on, Event::RunsOn);
    }

    fn announced(&mut self, heard: &[Name], switch: &Switch) {
        if heard.is_empty() {
            return;
        }
        let is_soon = heard.iter().any(|&name| self.joined_within(name));
        self.counts.event_if(switch.mode == 1, Event::Silencing);
        self.counts
            .event_if(switch.count == 1 && is_soon, Event::NextSoonAfterJoining);
        for (count, event) in [
            (0, Event::AtOnce),
            (1, Event::Next),
            (2, Event::AfterNext),
            (255, Event::Last),
        ] {
            self.counts.event_if(switch.count == count, event);
        }
    }
}

/// DA, where there is one.
fn receiver_of(octets: &[u8]) -> Option<Address> {
    octets.get(DA)?.try_into().ok()
}
