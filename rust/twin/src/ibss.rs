//! One station of an IBSS (02, Five; 802.11h 11.6.7.2).
//!
//! It asks a station of document 01 for everything that document 01 says, the
//! BSSID standing where that has the AP. What is its own is the DFS owner, and
//! of that it keeps no record: no owner, no count, no flag. It keeps the
//! beacons that it accepted and when, and reads from them, TBTT by TBTT, who
//! is the owner and how many TBTTs were missed.

use crate::answer::{Refusal, ACCEPTED, NOT_THE_OWNER};
use crate::element::Switch;
use crate::frame::{read_ibss_frame, Frame, IbssReceived};
use crate::station::{PendingSwitch, Station};
use crate::Address;

/// A station of an IBSS. Two are equal if they remember the same.
#[derive(Clone, Debug, PartialEq, Eq)]
pub struct IbssStation {
    /// Settings, clock, and what frames say of power, channel and quiet.
    station: Station,
    /// The accepted beacons that can still matter to who is the owner, in the
    /// order of acceptance.
    beacons: Vec<Beacon>,
}

/// The DFS owner: what an element 41 says of it, and what is known of it.
#[derive(Clone, Copy, Debug, PartialEq, Eq)]
pub struct Owner {
    /// Its address.
    pub address: Address,
    /// The recovery interval, in beacon intervals.
    pub recovery: u8,
}

/// An accepted beacon.
#[derive(Clone, Copy, Debug, PartialEq, Eq)]
struct Beacon {
    /// The clock when it was accepted.
    moment: u64,
    /// SA.
    sender: Address,
    /// Whom its element 41 names, if it has one.
    names: Option<Owner>,
}

/// A time in which one owner is known. It begins with the beacon that names
/// it while another, or none, is the owner, and ends with one that names
/// another or with the TBTT at which the owner is given up.
///
/// Which beacons are "from the owner" is judged within it: what its address
/// sent before was not the owner's when it was accepted.
#[derive(Clone, Copy)]
struct Tenure<'a> {
    address: Address,
    /// The beacons accepted in it. The first named the owner, and those later
    /// that have an element 41 name it too.
    beacons: &'a [Beacon],
    /// B.
    interval: u64,
}

impl IbssStation {
    /// Starts a station at clock 0, with the owner unknown. B of 0, a channel
    /// over 200 or a group address: 15.
    pub fn start(
        own: Address,
        bssid: Address,
        interval: u16,
        channel: u8,
    ) -> Result<IbssStation, u8> {
        Ok(IbssStation {
            station: Station::start(own, bssid, interval, channel)?,
            beacons: Vec::new(),
        })
    }

    /// Takes a frame: accepted (0), or a refusal and nothing changed. After
    /// the refusals of `read_ibss_frame`, with their place, comes "23
    /// announcement by any but a known owner, checked last", which has none.
    pub fn take(&mut self, frame: &[u8]) -> Result<(), Refusal> {
        let Station {
            own, ap, interval, ..
        } = self.station;
        let received = read_ibss_frame(frame, own, ap, interval)?;
        if announces(&received.frame) && !self.may_announce(&received) {
            return Err(Refusal::nowhere(NOT_THE_OWNER));
        }
        self.remember(&received);
        self.station.heard(received.frame);
        self.forget();
        Ok(())
    }

    /// Advances the clock by `n` TU. Over 65,535, or past the limit: 14.
    pub fn advance(&mut self, n: u32) -> u8 {
        let answer = self.station.advance(n);
        if answer == ACCEPTED {
            self.forget();
        }
        answer
    }

    /// Asks to send for `n` TU from now, as a station of document 01 does: 0
    /// to 5.
    pub fn ask(&self, n: u32) -> u8 {
        self.station.ask(n)
    }

    /// The clock, in TU since the start.
    pub fn clock(&self) -> u32 {
        self.station.clock()
    }

    /// The channel: that of the latest switch, or else that of the start.
    pub fn channel(&self) -> u8 {
        self.station.channel()
    }

    /// The latest Power Constraint, unless a switch came after it.
    pub fn constraint(&self) -> Option<u8> {
        self.station.constraint()
    }

    /// The pending switch, if any.
    pub fn pending_switch(&self) -> Option<PendingSwitch> {
        self.station.pending_switch()
    }

    /// The DFS owner, if it is known.
    pub fn owner(&self) -> Option<Owner> {
        self.tenure().map(|tenure| tenure.owner())
    }

    /// The miss count; "while the owner is unknown it is 0".
    pub fn misses(&self) -> u8 {
        let now = self.station.now();
        self.tenure().map_or(0, |tenure| tenure.misses(now))
    }

    /// Whether a beacon from the owner was accepted since the latest TBTT; not
    /// while the owner is unknown.
    pub fn heard_owner(&self) -> bool {
        let now = self.station.now();
        self.tenure()
            .map_or(false, |tenure| tenure.heard_since_tbtt(now))
    }

    /// Whether a frame that announces comes from a known owner: "the latest
    /// accepted beacon with element 41 decides owner and interval, before its
    /// own announcement is judged".
    fn may_announce(&self, received: &IbssReceived) -> bool {
        let owner = named_by(received).or_else(|| self.owner());
        owner.map_or(false, |owner| owner.address == received.sender)
    }

    /// Puts an accepted beacon into the history. No other frame has anything
    /// to do with the owner.
    fn remember(&mut self, received: &IbssReceived) {
        if let Frame::Beacon(_) = received.frame {
            self.beacons.push(Beacon {
                moment: self.station.now(),
                sender: received.sender,
                names: named_by(received),
            });
        }
    }

    /// Forgets beacons that can no longer matter, so that the history stays
    /// short however long the evening is. It changes no answer.
    fn forget(&mut self) {
        self.beacons = match self.tenure() {
            // The owner is unknown until another beacon names one.
            None => Vec::new(),
            Some(tenure) => tenure.what_matters(),
        };
    }

    /// The time in which the present owner is known, if it is: the history
    /// read from one tenure to the next.
    fn tenure(&self) -> Option<Tenure<'_>> {
        let now = self.station.now();
        let mut rest = &self.beacons[..];
        loop {
            // "Unknown until a beacon names one."
            let first = rest.iter().position(|beacon| beacon.names.is_some())?;
            rest = &rest[first..];
            let (tenure, later) = self.first_tenure(rest)?;
            let end = later.first().map_or(now, |another| another.moment);
            rest = match tenure.given_up(end) {
                // A beacon at the very moment of a TBTT comes after it.
                Some(tbtt) => from_moment(rest, tbtt),
                None if later.is_empty() => return Some(tenure),
                None => later,
            };
        }
    }

    /// The tenure that begins with the first of these beacons, as if it were
    /// not given up, and the beacons from the one that names another owner on.
    fn first_tenure<'a>(&self, beacons: &'a [Beacon]) -> Option<(Tenure<'a>, &'a [Beacon])> {
        let address = beacons.first()?.names?.address;
        let names_another =
            |beacon: &Beacon| beacon.names.map_or(false, |named| named.address != address);
        let end = beacons.iter().position(names_another);
        let (beacons, later) = beacons.split_at(end.unwrap_or(beacons.len()));
        let tenure = Tenure {
            address,
            beacons,
            interval: u64::from(self.station.interval),
        };
        Some((tenure, later))
    }
}

/// Whether a frame announces a switch, of any mode and count.
fn announces(frame: &Frame) -> bool {
    let switch: Option<Switch> = match frame {
        Frame::Beacon(notice) | Frame::ProbeResponse(notice) => notice.switch,
        Frame::ChannelSwitch(switch) => Some(*switch),
        Frame::MeasurementRequest { .. }
        | Frame::MeasurementReport { .. }
        | Frame::TpcRequest { .. }
        | Frame::TpcReport { .. } => None,
    };
    switch.is_some()
}

/// Whom the element 41 of a frame names, if it has one; only beacons do.
fn named_by(received: &IbssReceived) -> Option<Owner> {
    received.dfs.as_ref().map(|dfs| Owner {
        address: dfs.owner,
        recovery: dfs.recovery,
    })
}

/// The beacons that were accepted at this moment or later.
fn from_moment(beacons: &[Beacon], moment: u64) -> &[Beacon] {
    let earlier = beacons.partition_point(|beacon| beacon.moment < moment);
    &beacons[earlier..]
}

/// The beacons that were accepted before this moment.
fn before_moment(beacons: &[Beacon], moment: u64) -> &[Beacon] {
    let earlier = beacons.partition_point(|beacon| beacon.moment < moment);
    &beacons[..earlier]
}

impl<'a> Tenure<'a> {
    /// The owner by the latest beacon with element 41.
    fn owner(&self) -> Owner {
        Owner {
            address: self.address,
            recovery: recovery_of(self.beacons),
        }
    }

    /// Whether a beacon is from the owner.
    fn is_from_owner(&self, beacon: &Beacon) -> bool {
        beacon.sender == self.address
    }

    /// Whether any of these beacons is from the owner.
    fn any_from_owner(&self, beacons: &[Beacon]) -> bool {
        beacons.iter().any(|beacon| self.is_from_owner(beacon))
    }

    /// The miss count right after each TBTT from the tenure's first up to
    /// `last`: "at each TBTT with no accepted beacon from the owner since the
    /// one before, a miss count rises", and a beacon from the owner has set it
    /// to 0.
    fn counts(&self, last: u64) -> impl Iterator<Item = (u64, u64)> + '_ {
        let began = self.beacons.first().map_or(last, |first| first.moment);
        let first = (began / self.interval + 1) * self.interval;
        let tbtts = (first..=last).step_by(self.interval as usize);
        tbtts.scan(0, move |count, tbtt| {
            let one_before = tbtt - self.interval;
            let between = before_moment(from_moment(self.beacons, one_before), tbtt);
            *count = if self.any_from_owner(between) {
                0
            } else {
                *count + 1
            };
            Some((tbtt, *count))
        })
    }

    /// The TBTT up to `last` at which the owner is given up, if there is one:
    /// "there, at or past the recovery interval, the owner is unknown". The
    /// interval is that of the latest element 41 before the TBTT. It is never
    /// 0, so the count has risen there.
    fn given_up(&self, last: u64) -> Option<u64> {
        self.counts(last)
            .find(|&(tbtt, count)| {
                let recovery = recovery_of(before_moment(self.beacons, tbtt));
                count >= u64::from(recovery)
            })
            .map(|(tbtt, _)| tbtt)
    }

    /// Whether a beacon from the owner was accepted since the latest TBTT.
    fn heard_since_tbtt(&self, now: u64) -> bool {
        let latest_tbtt = now / self.interval * self.interval;
        self.any_from_owner(from_moment(self.beacons, latest_tbtt))
    }

    /// The miss count at present: "a beacon from the owner, or naming another,
    /// sets the count to 0", the other one with a tenure of its own. It fits
    /// one octet, since at 255 every interval is reached.
    fn misses(&self, now: u64) -> u8 {
        if self.heard_since_tbtt(now) {
            return 0;
        }
        self.counts(now).last().map_or(0, |(_, count)| count as u8)
    }

    /// The beacons of this tenure, which is the present one, that can still
    /// matter. The latest from the owner leaves nothing of what was before it
    /// but the interval: it is kept as if it had said that interval itself.
    /// Of those after it, and of all where there is none, only element 41
    /// counts.
    fn what_matters(&self) -> Vec<Beacon> {
        let is_from_owner = |beacon: &Beacon| self.is_from_owner(beacon);
        let latest = self.beacons.iter().rposition(is_from_owner).unwrap_or(0);
        let mut kept = self.beacons[latest..].to_vec();
        kept[0].names = Some(Owner {
            address: self.address,
            recovery: recovery_of(&self.beacons[..=latest]),
        });
        kept.retain(|beacon| beacon.names.is_some());
        kept
    }
}

/// The recovery interval that the latest of these beacons with element 41
/// says. In a tenure the first has one.
fn recovery_of(beacons: &[Beacon]) -> u8 {
    let mut latest_first = beacons.iter().rev();
    latest_first
        .find_map(|beacon| beacon.names)
        .map_or(0, |named| named.recovery)
}

#[cfg(test)]
mod tests {
    use super::*;
    use crate::sample::{
        action, dfs, header, notice, quiet, sent_by, vendor, Dice, ALL, CELL, OTHER, OWN, PEER,
    };

    const UNKNOWN: (Option<(Address, u8)>, u8, bool) = (None, 0, false);

    fn fresh() -> IbssStation {
        IbssStation::start(OWN, CELL, 100, 36).unwrap()
    }

    /// Advances to a moment; it may be far away.
    fn go(station: &mut IbssStation, moment: u32) {
        while station.clock() < moment {
            let step = (moment - station.clock()).min(65_535);
            assert_eq!(station.advance(step), 0);
        }
        assert_eq!(station.clock(), moment);
    }

    fn beacon(sender: Address, elements: &[u8]) -> Vec<u8> {
        sent_by(sender, &notice(8, ALL, 100, elements))
    }

    fn response(sender: Address, elements: &[u8]) -> Vec<u8> {
        sent_by(sender, &notice(5, OWN, 100, elements))
    }

    fn announcement(sender: Address, mode: u8, channel: u8, count: u8) -> Vec<u8> {
        let body = [0, 4, 37, 3, mode, channel, count];
        sent_by(sender, &action(ALL, &body))
    }

    /// A beacon that names an owner and says nothing else.
    fn naming(sender: Address, owner: Address, recovery: u8) -> Vec<u8> {
        beacon(sender, &dfs(owner, recovery, &[36, 0]))
    }

    fn accept(station: &mut IbssStation, frame: &[u8]) {
        assert_eq!(station.take(frame), Ok(()));
    }

    /// The frame is refused with this number and place, and nothing changes.
    fn refuse(station: &mut IbssStation, frame: &[u8], number: u8, offset: Option<usize>) {
        let before = station.clone();
        assert_eq!(station.take(frame), Err(Refusal { number, offset }));
        assert_eq!(*station, before);
    }

    /// What is known of the owner: address and interval, misses, heard.
    fn known(station: &IbssStation) -> (Option<(Address, u8)>, u8, bool) {
        let owner = station.owner();
        (
            owner.map(|owner| (owner.address, owner.recovery)),
            station.misses(),
            station.heard_owner(),
        )
    }

    /// A station that heard PEER name itself at 50, and nothing since.
    fn owned(recovery: u8) -> IbssStation {
        let mut station = fresh();
        go(&mut station, 50);
        accept(&mut station, &naming(PEER, PEER, recovery));
        station
    }

    #[test]
    fn start_on_both_sides() {
        let mut group = OWN;
        group[0] |= 1;
        assert_eq!(IbssStation::start(OWN, CELL, 0, 36), Err(15));
        assert_eq!(IbssStation::start(OWN, CELL, 1, 201), Err(15));
        assert_eq!(IbssStation::start(group, CELL, 1, 0), Err(15));
        assert_eq!(IbssStation::start(OWN, group, 1, 0), Err(15));
        assert!(IbssStation::start(OWN, CELL, 1, 0).is_ok());
        assert!(IbssStation::start(OWN, CELL, 65_535, 200).is_ok());
        let station = fresh();
        assert_eq!((station.clock(), station.channel()), (0, 36));
        assert_eq!(
            (station.constraint(), station.pending_switch()),
            (None, None)
        );
        assert_eq!(known(&station), UNKNOWN);
        assert_eq!([0, 1, 65_535, 65_536].map(|n| station.ask(n)), [5, 0, 0, 5]);
    }

    #[test]
    fn advance_on_both_sides() {
        let mut station = owned(255);
        let before = station.clone();
        assert_eq!(station.advance(65_536), 14);
        assert_eq!(station.advance(u32::MAX), 14);
        // A refused advance passes no TBTT, and one of 0 reaches none.
        assert_eq!(station, before);
        assert_eq!(station.advance(0), 0);
        assert_eq!(station, before);
        go(&mut station, 100);
        assert_eq!(known(&station), (Some((PEER, 255)), 0, false));
        assert_eq!(station.advance(0), 0);
        assert_eq!(known(&station), (Some((PEER, 255)), 0, false));
    }

    #[test]
    fn up_to_the_limit() {
        // B of 65,535: the limit is a TBTT, the 65,537th.
        let mut station = IbssStation::start(OWN, CELL, 65_535, 36).unwrap();
        let names = sent_by(PEER, &notice(8, OWN, 65_535, &dfs(PEER, 3, &[])));
        for _ in 0..65_535 {
            assert_eq!(station.advance(65_535), 0);
        }
        accept(&mut station, &names);
        for (misses, heard) in [(0, true), (0, false), (1, false)] {
            assert_eq!(known(&station), (Some((PEER, 3)), misses, heard));
            let answer = station.advance(65_535);
            assert_eq!(answer, if misses == 1 { 14 } else { 0 });
        }
        assert_eq!(station.clock(), Station::CLOCK_LIMIT);
        assert_eq!(station.advance(1), 14);
        assert_eq!(known(&station), (Some((PEER, 3)), 1, false));
        // B of 1, owner known up to the limit: 254 misses of 255.
        let mut station = IbssStation::start(OWN, CELL, 1, 36).unwrap();
        go(&mut station, u32::MAX - 255);
        let names = sent_by(PEER, &notice(8, OWN, 1, &dfs(PEER, 255, &[])));
        accept(&mut station, &names);
        assert_eq!(station.advance(256), 14);
        assert_eq!(station.advance(255), 0);
        assert_eq!(known(&station), (Some((PEER, 255)), 254, false));
        // A switch past the limit stays pending, whoever announced it.
        let announces = sent_by(PEER, &action(OWN, &[0, 4, 37, 3, 1, 44, 2]));
        accept(&mut station, &announces);
        assert_eq!(
            station.pending_switch(),
            Some(PendingSwitch {
                mode: 1,
                channel: 44,
                moment: u64::from(u32::MAX) + 2
            })
        );
        assert_eq!(station.ask(1), 1);
    }

    #[test]
    fn frames_of_the_bssid_from_any_individual_address() {
        let mut station = fresh();
        for sender in [PEER, OTHER, OWN, CELL, [0; 6]] {
            for frame in [
                beacon(sender, &[]),
                response(sender, &[]),
                sent_by(sender, &action(OWN, &[0, 2, 7, 34, 0])),
            ] {
                accept(&mut station, &frame);
            }
        }
        let group = [0x05, 0, 0, 0, 0, 0];
        refuse(&mut station, &beacon(group, &[]), 4, None);
        refuse(&mut station, &beacon(ALL, &[]), 4, None);
        refuse(&mut station, &notice(8, OWN, 100, &[]), 4, None);
        let to_other = sent_by(PEER, &notice(8, OTHER, 100, &[]));
        refuse(&mut station, &to_other, 4, None);
        // Naming nobody, they change nothing about the owner.
        assert_eq!(known(&station), UNKNOWN);
    }

    #[test]
    fn each_refusal_changes_nothing() {
        let mut station = owned(3);
        go(&mut station, 250);
        let elements = [quiet(1, 2, 10, 20), vec![32, 1, 3, 37, 3, 0, 44, 2]].concat();
        accept(&mut station, &beacon(PEER, &elements));
        go(&mut station, 310);
        let good = dfs(OTHER, 9, &[]);
        let short = announcement(PEER, 0, 48, 0);
        let one = |more: &[u8]| [&good[..], more].concat();
        refuse(&mut station, &short[..23], 1, None);
        refuse(&mut station, &short[..25], 1, None);
        refuse(&mut station, &beacon(PEER, &good)[..35], 1, None);
        refuse(&mut station, &[0; 2337], 2, None);
        refuse(&mut station, &sent_by(PEER, &header(0, OWN)), 3, None);
        refuse(&mut station, &beacon(ALL, &good), 4, None);
        refuse(
            &mut station,
            &sent_by(PEER, &action(OWN, &[1])),
            5,
            Some(24),
        );
        refuse(&mut station, &beacon(PEER, &one(&[41])), 6, Some(45));
        refuse(&mut station, &short[..26], 7, Some(26));
        refuse(
            &mut station,
            &beacon(PEER, &[41, 6, 2, 0, 0, 0, 0, 0]),
            8,
            Some(36),
        );
        refuse(&mut station, &naming(PEER, ALL, 9), 9, Some(36));
        refuse(&mut station, &naming(PEER, OTHER, 0), 9, Some(36));
        refuse(&mut station, &beacon(PEER, &one(&good)), 10, Some(45));
        refuse(
            &mut station,
            &beacon(PEER, &one(&quiet(1, 0, 1, 0).repeat(9))),
            11,
            Some(109),
        );
        let interval = sent_by(PEER, &notice(8, OWN, 99, &good));
        refuse(&mut station, &interval, 12, Some(32));
        let another = sent_by(PEER, &action(OWN, &[0, 4, 41, 3, 0, 48, 0]));
        refuse(&mut station, &another, 21, Some(26));
        let left = sent_by(PEER, &action(OWN, &[0, 4, 37, 3, 0, 48, 0, 0]));
        refuse(&mut station, &left, 22, Some(31));
        refuse(&mut station, &announcement(OTHER, 0, 48, 0), 23, None);
        assert_eq!(known(&station), (Some((PEER, 3)), 0, false));
        assert_eq!((station.channel(), station.constraint()), (36, Some(3)));
        go(&mut station, 320);
        assert_eq!(station.ask(1), 2);
    }

    #[test]
    fn no_announcement_while_no_owner_is_known() {
        let mut station = fresh();
        // An address of zeros is no known owner either.
        for sender in [PEER, OWN, CELL, [0; 6]] {
            for (mode, count) in [(0, 0), (0, 1), (1, 0), (1, 255)] {
                let element = [37, 3, mode, 44, count];
                for frame in [
                    announcement(sender, mode, 44, count),
                    sent_by(sender, &action(OWN, &[&[0, 4], &element[..]].concat())),
                    beacon(sender, &element),
                    response(sender, &element),
                    // 41 in a probe response names nobody.
                    response(sender, &[&dfs(sender, 3, &[])[..], &element].concat()),
                    // In front of it, behind it, and beside a vendor's.
                    beacon(sender, &[&element[..], &quiet(1, 0, 5, 5)].concat()),
                    [announcement(sender, mode, 44, count), vendor(&[1])].concat(),
                ] {
                    refuse(&mut station, &frame, 23, None);
                }
            }
        }
        assert_eq!((station.channel(), station.ask(65_535)), (36, 0));
    }

    #[test]
    fn the_owner_announces() {
        for count in [0, 1, 2] {
            let element = [37, 3, 1, 44, count];
            for frame in [
                announcement(PEER, 1, 44, count),
                beacon(PEER, &element),
                response(PEER, &element),
            ] {
                let mut station = owned(3);
                accept(&mut station, &frame);
                let moment = u64::from(count) * 100;
                let pending = PendingSwitch {
                    mode: 1,
                    channel: 44,
                    moment,
                };
                let expected = Some(pending).filter(|_| count != 0);
                assert_eq!(station.pending_switch(), expected);
                assert_eq!(station.ask(1), u8::from(count != 0));
                go(&mut station, 200);
                assert_eq!((station.channel(), station.ask(65_535)), (44, 0));
            }
        }
    }

    #[test]
    fn an_announcement_by_another_is_refused_whole() {
        let mut station = owned(3);
        accept(&mut station, &beacon(PEER, &quiet(1, 0, 10, 20)));
        // Element 41, Quiet elements and constraint of it count for nothing.
        let mut elements = dfs(PEER, 1, &[]);
        elements.extend_from_slice(&quiet(1, 0, 90, 0));
        elements.extend_from_slice(&[32, 1, 9, 37, 3, 1, 44, 0]);
        refuse(&mut station, &beacon(OTHER, &elements), 23, None);
        refuse(&mut station, &response(OTHER, &elements), 23, None);
        refuse(&mut station, &announcement(OTHER, 0, 44, 1), 23, None);
        // It names another than its sender: that one may announce, not it.
        let names_other = [&dfs(OTHER, 5, &[])[..], &[37, 3, 1, 44, 1]].concat();
        refuse(&mut station, &beacon(PEER, &names_other), 23, None);
        refuse(&mut station, &beacon(OWN, &names_other), 23, None);
        assert_eq!(known(&station), (Some((PEER, 3)), 0, true));
        assert_eq!((station.channel(), station.constraint()), (36, None));
        go(&mut station, 119);
        assert_eq!((station.ask(1), station.ask(2)), (0, 3));
        go(&mut station, 130);
        assert_eq!(station.ask(65_535), 0);
        // A refused frame of the old owner is no beacon from the owner.
        go(&mut station, 250);
        assert_eq!(known(&station), (Some((PEER, 3)), 1, false));
        refuse(&mut station, &beacon(PEER, &names_other), 23, None);
        go(&mut station, 300);
        assert_eq!(known(&station), (Some((PEER, 3)), 2, false));
    }

    #[test]
    fn what_is_23_is_23_last() {
        let mut station = owned(3);
        let switch = [37, 3, 0, 44, 1];
        let after = |more: &[u8]| beacon(OTHER, &[&switch[..], more].concat());
        refuse(&mut station, &after(&[]), 23, None);
        refuse(&mut station, &after(&[0]), 6, Some(41));
        refuse(&mut station, &after(&[32, 0]), 8, Some(41));
        refuse(&mut station, &after(&quiet(0, 0, 1, 0)), 9, Some(41));
        refuse(&mut station, &after(&dfs(PEER, 0, &[])), 9, Some(41));
        refuse(&mut station, &after(&switch), 10, Some(41));
        let twice = [dfs(PEER, 3, &[]), dfs(PEER, 3, &[])].concat();
        refuse(&mut station, &after(&twice), 10, Some(50));
        refuse(
            &mut station,
            &after(&quiet(1, 0, 1, 0).repeat(9)),
            11,
            Some(105),
        );
        let other_interval = sent_by(OTHER, &notice(8, OWN, 101, &switch));
        refuse(&mut station, &other_interval, 12, Some(32));
        let left = [announcement(OTHER, 0, 44, 1), vec![0]].concat();
        refuse(&mut station, &left, 22, Some(31));
        let cut = [announcement(OTHER, 0, 44, 1), vec![221]].concat();
        refuse(&mut station, &cut, 6, Some(31));
        refuse(&mut station, &announcement(OTHER, 2, 44, 1), 9, Some(26));
    }

    #[test]
    fn a_beacon_that_names_its_sender_and_announces() {
        let (named, switch) = (dfs(OTHER, 7, &[]), [37, 3, 0, 44, 1]);
        // Whatever the order of the two elements, with and without an owner.
        for elements in [
            [&named[..], &switch].concat(),
            [&switch[..], &named].concat(),
        ] {
            for mut station in [fresh(), owned(3)] {
                accept(&mut station, &beacon(OTHER, &elements));
                assert_eq!(known(&station), (Some((OTHER, 7)), 0, true));
                assert_eq!(station.pending_switch().map(|p| p.moment), Some(100));
                // From now on PEER may not.
                refuse(&mut station, &announcement(PEER, 0, 48, 1), 23, None);
                accept(&mut station, &announcement(OTHER, 0, 48, 1));
                go(&mut station, 100);
                assert_eq!(station.channel(), 48);
            }
        }
    }

    #[test]
    fn who_is_named_may_announce_without_a_beacon_of_its_own() {
        let mut station = fresh();
        accept(&mut station, &naming(PEER, OTHER, 2));
        assert_eq!(known(&station), (Some((OTHER, 2)), 0, false));
        accept(&mut station, &announcement(OTHER, 0, 44, 1));
        // An action frame is no beacon, nor is a probe response.
        accept(&mut station, &response(OTHER, &[]));
        assert_eq!(known(&station), (Some((OTHER, 2)), 0, false));
        go(&mut station, 100);
        assert_eq!(known(&station), (Some((OTHER, 2)), 1, false));
        accept(&mut station, &response(OTHER, &[37, 3, 0, 48, 1]));
        assert_eq!(known(&station), (Some((OTHER, 2)), 1, false));
        go(&mut station, 200);
        assert_eq!(known(&station), UNKNOWN);
        // Given up, it may no more; its switch was announced in time.
        assert_eq!(station.channel(), 48);
        refuse(&mut station, &announcement(OTHER, 0, 52, 1), 23, None);
    }

    #[test]
    fn the_station_itself_may_be_the_owner() {
        let mut station = fresh();
        accept(&mut station, &naming(PEER, OWN, 2));
        accept(&mut station, &beacon(OWN, &[]));
        assert_eq!(known(&station), (Some((OWN, 2)), 0, true));
        accept(&mut station, &announcement(OWN, 0, 44, 0));
        assert_eq!(station.channel(), 44);
    }

    #[test]
    fn given_up_at_the_interval_exactly() {
        // Heard at 50, so the TBTT at 100 is no miss; 200 is the first.
        for recovery in [1u8, 2, 3, 254, 255] {
            let mut station = owned(recovery);
            let last = 100 + 100 * u32::from(recovery);
            for moment in [99, 100, 199, last - 1] {
                let mut then = station.clone();
                go(&mut then, moment);
                let misses = (moment / 100).saturating_sub(1) as u8;
                let expected = (Some((PEER, recovery)), misses, moment < 100);
                assert_eq!(known(&then), expected, "{} {}", recovery, moment);
            }
            go(&mut station, last - 1);
            assert_eq!(
                known(&station),
                (Some((PEER, recovery)), recovery - 1, false)
            );
            accept(&mut station.clone(), &announcement(PEER, 0, 44, 9));
            go(&mut station, last);
            assert_eq!(known(&station), UNKNOWN);
            refuse(&mut station, &announcement(PEER, 0, 44, 9), 23, None);
            // A beacon that names nobody does not bring it back.
            accept(&mut station, &beacon(PEER, &[]));
            assert_eq!(known(&station), UNKNOWN);
            accept(&mut station, &naming(OTHER, PEER, recovery));
            assert_eq!(known(&station), (Some((PEER, recovery)), 0, false));
        }
    }

    #[test]
    fn given_up_without_any_beacon_of_the_owner() {
        // Named by another at 50, so the TBTT at 100 is a miss.
        for recovery in [1u8, 2, 255] {
            let mut station = fresh();
            go(&mut station, 50);
            accept(&mut station, &naming(OTHER, PEER, recovery));
            go(&mut station, 100 * u32::from(recovery) - 1);
            assert_eq!(
                known(&station),
                (Some((PEER, recovery)), recovery - 1, false)
            );
            go(&mut station, 100 * u32::from(recovery));
            assert_eq!(known(&station), UNKNOWN);
        }
    }

    #[test]
    fn many_tbtts_in_one_advance() {
        for recovery in [1u8, 5, 40, 255] {
            for far in [
                0u32, 1, 49, 50, 51, 150, 449, 450, 550, 3950, 4050, 25_550, 60_000,
            ] {
                let mut leap = owned(recovery);
                assert_eq!(leap.advance(far), 0);
                let mut steps = owned(recovery);
                for _ in 0..far {
                    assert_eq!(steps.advance(1), 0);
                }
                assert_eq!(leap, steps);
                // By hand: TBTTs passed after 50, the first no miss.
                let passed = (50 + far) / 100;
                let misses = passed.saturating_sub(1);
                let expected = if misses >= u32::from(recovery) {
                    UNKNOWN
                } else {
                    (Some((PEER, recovery)), misses as u8, passed == 0)
                };
                assert_eq!(known(&leap), expected, "{} {}", recovery, far);
            }
        }
        // The first TBTT of an advance sees the beacon, the others do not.
        let mut station = owned(5);
        assert_eq!(station.advance(400), 0);
        assert_eq!(known(&station), (Some((PEER, 5)), 3, false));
        accept(&mut station, &beacon(PEER, &[]));
        assert_eq!(known(&station), (Some((PEER, 5)), 0, true));
        assert_eq!(station.advance(500), 0);
        assert_eq!(known(&station), (Some((PEER, 5)), 4, false));
        assert_eq!(station.advance(50), 0);
        assert_eq!(known(&station), UNKNOWN);
    }

    #[test]
    fn a_beacon_interval_of_one_unit() {
        let names = sent_by(PEER, &notice(8, OWN, 1, &dfs(PEER, 3, &[])));
        let mut station = IbssStation::start(OWN, CELL, 1, 36).unwrap();
        for moment in 0..50 {
            go(&mut station, moment);
            accept(&mut station, &names);
            assert_eq!(known(&station), (Some((PEER, 3)), 0, true));
        }
        for (advance, expected) in [
            (1, (Some((PEER, 3)), 0, false)),
            (2, (Some((PEER, 3)), 1, false)),
            (3, (Some((PEER, 3)), 2, false)),
            (4, UNKNOWN),
            (65_535, UNKNOWN),
        ] {
            let mut then = station.clone();
            assert_eq!(then.advance(advance), 0);
            assert_eq!(known(&then), expected);
        }
    }

    #[test]
    fn a_beacon_at_the_very_moment_of_a_tbtt() {
        // It belongs to the time after that TBTT.
        let mut station = owned(3);
        go(&mut station, 200);
        assert_eq!(known(&station), (Some((PEER, 3)), 1, false));
        accept(&mut station, &beacon(PEER, &[]));
        assert_eq!(known(&station), (Some((PEER, 3)), 0, true));
        go(&mut station, 299);
        assert_eq!(known(&station), (Some((PEER, 3)), 0, true));
        go(&mut station, 300);
        assert_eq!(known(&station), (Some((PEER, 3)), 0, false));
        go(&mut station, 400);
        assert_eq!(known(&station), (Some((PEER, 3)), 1, false));
        // One unit before a TBTT it belongs to the time before.
        go(&mut station, 499);
        accept(&mut station, &beacon(PEER, &[]));
        go(&mut station, 500);
        assert_eq!(known(&station), (Some((PEER, 3)), 0, false));
        go(&mut station, 600);
        assert_eq!(known(&station), (Some((PEER, 3)), 1, false));
        // At the TBTT that gives the owner up it is too late.
        go(&mut station, 800);
        accept(&mut station, &beacon(PEER, &[]));
        assert_eq!(known(&station), UNKNOWN);
        accept(&mut station, &naming(PEER, PEER, 1));
        go(&mut station, 900);
        assert_eq!(known(&station), (Some((PEER, 1)), 0, false));
        // Moment 0 is no TBTT that an advance reaches.
        let mut station = fresh();
        accept(&mut station, &naming(PEER, PEER, 1));
        assert_eq!(known(&station), (Some((PEER, 1)), 0, true));
        go(&mut station, 199);
        assert_eq!(known(&station), (Some((PEER, 1)), 0, false));
        go(&mut station, 200);
        assert_eq!(known(&station), UNKNOWN);
    }

    #[test]
    fn a_shorter_interval_takes_effect_where_the_count_rises() {
        // Three misses at 400, of nine; then another says two.
        let mut station = owned(9);
        go(&mut station, 450);
        assert_eq!(known(&station), (Some((PEER, 9)), 3, false));
        accept(&mut station, &naming(OTHER, PEER, 2));
        assert_eq!(known(&station), (Some((PEER, 2)), 3, false));
        accept(&mut station.clone(), &announcement(PEER, 0, 44, 1));
        go(&mut station, 499);
        assert_eq!(known(&station), (Some((PEER, 2)), 3, false));
        let mut heard = station.clone();
        go(&mut station, 500);
        assert_eq!(known(&station), UNKNOWN);
        // With a beacon from the owner the count does not rise there.
        accept(&mut heard, &beacon(PEER, &[]));
        go(&mut heard, 600);
        assert_eq!(known(&heard), (Some((PEER, 2)), 1, false));
        go(&mut heard, 700);
        assert_eq!(known(&heard), UNKNOWN);
    }

    #[test]
    fn the_interval_at_a_tbtt_is_the_one_that_then_stands() {
        // A longer one in time keeps the owner: misses at 200, 300 and 400.
        let mut station = owned(3);
        go(&mut station, 399);
        accept(&mut station, &naming(OTHER, PEER, 4));
        go(&mut station, 400);
        assert_eq!(known(&station), (Some((PEER, 4)), 3, false));
        // Shortened and lengthened again between two TBTTs: no harm.
        accept(&mut station, &naming(OTHER, PEER, 1));
        accept(&mut station, &naming(OTHER, PEER, 5));
        go(&mut station, 500);
        assert_eq!(known(&station), (Some((PEER, 5)), 4, false));
        // A longer one at the very TBTT comes too late: it names anew.
        let mut station = owned(3);
        go(&mut station, 400);
        assert_eq!(known(&station), UNKNOWN);
        accept(&mut station, &naming(OTHER, PEER, 4));
        assert_eq!(known(&station), (Some((PEER, 4)), 0, false));
    }

    #[test]
    fn another_that_names_the_same_owner() {
        // It leaves the count, and that the owner was heard.
        let mut station = owned(9);
        accept(&mut station, &naming(OTHER, PEER, 8));
        assert_eq!(known(&station), (Some((PEER, 8)), 0, true));
        go(&mut station, 300);
        accept(&mut station, &naming(OTHER, PEER, 7));
        assert_eq!(known(&station), (Some((PEER, 7)), 2, false));
        // So does one that names nobody.
        accept(&mut station, &beacon(OTHER, &[]));
        assert_eq!(known(&station), (Some((PEER, 7)), 2, false));
        // The owner's own sets the count to 0 and says the interval too.
        accept(&mut station, &naming(PEER, PEER, 6));
        assert_eq!(known(&station), (Some((PEER, 6)), 0, true));
        accept(&mut station, &beacon(PEER, &[]));
        assert_eq!(known(&station), (Some((PEER, 6)), 0, true));
    }

    #[test]
    fn naming_another_owner() {
        // By a third: the count is 0, and the next TBTT is a miss.
        let mut station = owned(9);
        go(&mut station, 350);
        assert_eq!(known(&station), (Some((PEER, 9)), 2, false));
        accept(&mut station, &naming(OWN, OTHER, 5));
        assert_eq!(known(&station), (Some((OTHER, 5)), 0, false));
        go(&mut station, 400);
        assert_eq!(known(&station), (Some((OTHER, 5)), 1, false));
        // By the owner itself, who is then the owner no more.
        accept(&mut station, &beacon(OTHER, &[]));
        accept(&mut station, &naming(OTHER, PEER, 4));
        assert_eq!(known(&station), (Some((PEER, 4)), 0, false));
        go(&mut station, 500);
        assert_eq!(known(&station), (Some((PEER, 4)), 1, false));
        // By the one that is named.
        accept(&mut station, &naming(OTHER, OTHER, 3));
        assert_eq!(known(&station), (Some((OTHER, 3)), 0, true));
        go(&mut station, 600);
        assert_eq!(known(&station), (Some((OTHER, 3)), 0, false));
        // A beacon of the old owner is another's now.
        accept(&mut station, &beacon(PEER, &[]));
        go(&mut station, 700);
        assert_eq!(known(&station), (Some((OTHER, 3)), 1, false));
    }

    #[test]
    fn a_beacon_before_its_sender_was_named_is_not_the_owners() {
        let mut station = owned(9);
        accept(&mut station, &beacon(OTHER, &[]));
        accept(&mut station, &naming(PEER, OTHER, 5));
        assert_eq!(known(&station), (Some((OTHER, 5)), 0, false));
        go(&mut station, 100);
        assert_eq!(known(&station), (Some((OTHER, 5)), 1, false));
        // Nor where its sender was the owner, then another, and is again.
        let mut station = owned(9);
        accept(&mut station, &naming(OWN, OTHER, 5));
        accept(&mut station, &naming(OWN, PEER, 4));
        assert_eq!(known(&station), (Some((PEER, 4)), 0, false));
        go(&mut station, 100);
        assert_eq!(known(&station), (Some((PEER, 4)), 1, false));
        // While no owner is known, nobody's is.
        let mut station = fresh();
        accept(&mut station, &beacon(PEER, &[]));
        accept(&mut station, &naming(OTHER, PEER, 2));
        assert_eq!(known(&station), (Some((PEER, 2)), 0, false));
        go(&mut station, 100);
        assert_eq!(known(&station), (Some((PEER, 2)), 1, false));
    }

    #[test]
    fn element_41_in_a_probe_response_is_skipped() {
        let mut station = owned(3);
        let before = known(&station);
        for element in [
            dfs(OTHER, 9, &[]),
            dfs(PEER, 1, &[]),
            dfs(ALL, 0, &[]),
            vec![41, 0],
            dfs(OTHER, 9, &[]).repeat(2),
        ] {
            accept(&mut station, &response(OTHER, &element));
            accept(&mut station, &response(PEER, &element));
            assert_eq!(known(&station), before);
        }
        refuse(&mut station, &response(PEER, &[41, 7]), 6, Some(36));
    }

    #[test]
    fn a_switch_leaves_the_owner() {
        // Announced at 150 and done at 300, with a miss there.
        let mut station = owned(3);
        go(&mut station, 150);
        let elements = [&[32, 1, 5, 37, 3, 0, 44, 2][..], &quiet(1, 1, 10, 0)].concat();
        accept(&mut station, &beacon(PEER, &elements));
        go(&mut station, 299);
        assert_eq!(known(&station), (Some((PEER, 3)), 0, false));
        assert_eq!((station.channel(), station.constraint()), (36, Some(5)));
        go(&mut station, 300);
        assert_eq!(known(&station), (Some((PEER, 3)), 1, false));
        assert_eq!((station.channel(), station.constraint()), (44, None));
        assert_eq!(station.ask(65_535), 0);
        // At once: count and flag stay as well.
        accept(&mut station, &announcement(PEER, 0, 48, 0));
        assert_eq!(known(&station), (Some((PEER, 3)), 1, false));
        accept(&mut station, &beacon(PEER, &[37, 3, 0, 52, 0]));
        assert_eq!(known(&station), (Some((PEER, 3)), 0, true));
        assert_eq!(station.channel(), 52);
        go(&mut station, 400);
        assert_eq!(known(&station), (Some((PEER, 3)), 0, false));
        // A switch whose owner was given up or replaced before it still comes.
        accept(&mut station, &announcement(PEER, 1, 56, 9));
        go(&mut station, 700);
        assert_eq!(known(&station), UNKNOWN);
        assert_eq!(station.ask(1), 1);
        accept(&mut station, &naming(OTHER, OTHER, 1));
        assert_eq!(station.ask(1), 1);
        go(&mut station, 1300);
        assert_eq!((station.channel(), station.ask(1)), (56, 0));
    }

    #[test]
    fn never_hearing_element_41() {
        let mut station = fresh();
        for turn in 0..300u32 {
            go(&mut station, 70 * turn);
            accept(&mut station, &beacon(PEER, &quiet(1, 0, 10, 20)));
            refuse(&mut station, &beacon(PEER, &[37, 3, 1, 44, 1]), 23, None);
            assert_eq!(known(&station), UNKNOWN);
            // It remembers no beacon for the owner's sake.
            assert_eq!(station.beacons, []);
        }
        for _ in 0..300 {
            assert_eq!(station.advance(65_535), 0);
            assert_eq!(known(&station), UNKNOWN);
        }
        assert_eq!((station.channel(), station.ask(1)), (36, 0));
    }

    #[test]
    fn quiet_and_constraint_of_any_sender_are_obeyed() {
        let mut station = owned(3);
        accept(
            &mut station,
            &beacon(OTHER, &[&quiet(1, 0, 10, 20)[..], &[32, 1, 4]].concat()),
        );
        assert_eq!(station.constraint(), Some(4));
        go(&mut station, 119);
        assert_eq!((station.ask(1), station.ask(2)), (0, 3));
        // Replaced by whoever sends next, but for what has begun.
        let mut replaced = station.clone();
        accept(&mut replaced, &response(OWN, &[]));
        assert_eq!(replaced.ask(65_535), 0);
        go(&mut station, 125);
        accept(&mut station, &response(OWN, &[]));
        assert_eq!(station.ask(1), 2);
        go(&mut station, 130);
        assert_eq!((station.ask(65_535), station.constraint()), (0, Some(4)));
    }

    /// The owner as the request's sentences describe it, step by step, with
    /// nothing of the history: a check on the history's reading.
    #[derive(Default)]
    struct Sentences {
        interval: u64,
        clock: u64,
        owner: Option<(Address, u8)>,
        count: u8,
        heard: bool,
    }

    impl Sentences {
        fn unit(&mut self) {
            self.clock += 1;
            if self.clock % self.interval != 0 {
                return;
            }
            if let Some((_, recovery)) = self.owner {
                if !self.heard {
                    self.count += 1;
                    if self.count >= recovery {
                        self.owner = None;
                        self.count = 0;
                    }
                }
            }
            self.heard = false;
        }

        fn beacon(&mut self, sender: Address, names: Option<(Address, u8)>) {
            if let Some((address, _)) = names {
                if self.owner.map(|owner| owner.0) != Some(address) {
                    self.count = 0;
                    self.heard = false;
                }
                self.owner = names;
            }
            if self.owner.map(|owner| owner.0) == Some(sender) {
                self.count = 0;
                self.heard = true;
            }
        }
    }

    /// Who sent a frame, of what subtype, whom it names, and its elements.
    struct Sent {
        sender: Address,
        subtype: u8,
        names: Option<(Address, u8)>,
        announces: bool,
        elements: Vec<u8>,
    }

    fn some_frame(dice: &mut Dice, interval: u16, longest: u64) -> Sent {
        let who = |dice: &mut Dice| [PEER, PEER, OTHER, OWN][dice.roll(4) as usize];
        let sender = who(dice);
        let subtype = [8, 8, 8, 5, 13][dice.roll(5) as usize];
        let switch = [
            37,
            3,
            dice.roll(2) as u8,
            dice.roll(201) as u8,
            dice.roll(4) as u8,
        ];
        let mut elements = Vec::new();
        let (mut names, mut announces) = (None, subtype == 13);
        if subtype == 13 {
            elements.extend_from_slice(&switch);
        } else {
            if dice.roll(3) == 0 {
                let (owner, recovery) = (who(dice), 1 + dice.roll(longest) as u8);
                elements.extend_from_slice(&dfs(owner, recovery, &[201, 255]));
                names = Some((owner, recovery)).filter(|_| subtype == 8);
            }
            if dice.roll(3) == 0 {
                let offset = dice.roll(u64::from(interval)) as u16;
                let duration = dice.roll(3 * u64::from(interval)) as u16;
                let quiet = quiet(1 + dice.roll(3) as u8, dice.roll(4) as u8, duration, offset);
                elements.extend_from_slice(&quiet);
            }
            if dice.roll(5) == 0 {
                announces = true;
                elements.extend_from_slice(&switch);
            }
            if dice.roll(3) == 0 {
                elements.extend_from_slice(&[32, 1, dice.roll(256) as u8]);
            }
        }
        Sent {
            sender,
            subtype,
            names,
            announces,
            elements,
        }
    }

    fn octets_of(sent: &Sent, interval: u16) -> Vec<u8> {
        match sent.subtype {
            13 => action(OWN, &[&[0, 4], &sent.elements[..]].concat()),
            subtype => notice(subtype, OWN, interval, &sent.elements),
        }
    }

    #[test]
    fn history_and_sentences_agree() {
        let mut dice = Dice(1941);
        let (mut given_up, mut refused, mut missed) = (0, 0, 0);
        // Unoptimised code gets fewer walks.
        let walks = if cfg!(debug_assertions) { 60 } else { 600 };
        for walk in 0..walks {
            let interval = [1u16, 2, 5, 7, 10, 33][walk % 6];
            let longest = [3, 9, 255][walk / 6 % 3];
            // How long advances are, in beacon intervals.
            let stride = [1, 3, 40][walk / 18 % 3];
            let mut station = IbssStation::start(OWN, CELL, interval, 36).unwrap();
            // The same station that forgets no beacon.
            let mut whole = station.clone();
            // Document 01's station, who hears from an AP what is accepted.
            let mut base = Station::start(OWN, CELL, interval, 36).unwrap();
            let mut sentences = Sentences {
                interval: u64::from(interval),
                ..Sentences::default()
            };
            for _ in 0..150 {
                if dice.roll(2) == 0 {
                    let sent = some_frame(&mut dice, interval, longest);
                    let frame = sent_by(sent.sender, &octets_of(&sent, interval));
                    let owner = sent.names.or(sentences.owner).map(|owner| owner.0);
                    if sent.announces && owner != Some(sent.sender) {
                        refuse(&mut station, &frame, 23, None);
                        refused += 1;
                    } else {
                        accept(&mut station, &frame);
                        let received = read_ibss_frame(&frame, OWN, CELL, interval).unwrap();
                        whole.remember(&received);
                        let from_ap = sent_by(CELL, &frame);
                        assert_eq!(base.take(&from_ap), Ok(()));
                        if sent.subtype == 8 {
                            sentences.beacon(sent.sender, sent.names);
                        }
                    }
                } else {
                    let n = dice.roll(stride * u64::from(interval) + 2) as u32;
                    let was_known = sentences.owner.is_some();
                    for _ in 0..n {
                        sentences.unit();
                    }
                    given_up += u32::from(was_known && sentences.owner.is_none());
                    assert_eq!(station.advance(n), 0);
                    assert_eq!(whole.station.advance(n), 0);
                    assert_eq!(base.advance(n), 0);
                }
                missed += u32::from(sentences.count > 1);
                let expected = (sentences.owner, sentences.count, sentences.heard);
                assert_eq!(known(&station), expected);
                assert_eq!(known(&whole), expected);
                assert_eq!(station.station, base);
                assert_eq!(station.pending_switch(), base.pending_switch());
                assert_eq!(station.ask(20), base.ask(20));
            }
        }
        assert!(given_up > 300 && refused > 1000 && missed > 1000);
    }

    #[test]
    fn the_history_stays_short() {
        // Owner's beacons, and those by others that say nothing of it.
        let mut station = owned(255);
        for turn in 0..2000u32 {
            go(&mut station, 50 + 10 * turn);
            let sender = if turn % 20 == 0 { PEER } else { OTHER };
            accept(&mut station, &beacon(sender, &[]));
            assert_eq!(station.beacons.len(), 1);
            assert_eq!(station.owner().map(|owner| owner.recovery), Some(255));
        }
    }
}
