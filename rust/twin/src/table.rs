//! Sixteen stations on one clock (02, Six).
//!
//! Each row that is joined is a station of document 01 of its own, which
//! remembers what it accepted since its joining. The table adds who is joined,
//! to which rows a frame goes, and the clock, which goes on while no row is
//! joined.

use crate::answer::{Refusal, ACCEPTED, ALREADY_JOINED, NOT_JOINED, NO_FREE_ROW, START};
use crate::frame::read_frame;
use crate::header::{is_group, receiver, ALL_ONES};
use crate::reply::{self, Finding};
use crate::station::{clock_after, Station};
use crate::Address;

/// "A table has 16 rows, one AP, one interval and one clock". Two are equal if
/// they remember the same in the same rows.
#[derive(Clone, Debug, PartialEq, Eq)]
pub struct Table {
    ap: Address,
    interval: u16,
    clock: u32,
    /// `None` where a row is free.
    rows: [Option<Station>; Table::ROWS],
}

impl Table {
    /// How many rows a table has.
    pub const ROWS: usize = 16;

    /// Starts a table at clock 0 with no row joined. B of 0 or a group address
    /// as the AP's: 15.
    pub fn start(ap: Address, interval: u16) -> Result<Table, u8> {
        if interval == 0 || is_group(ap) {
            return Err(START);
        }
        Ok(Table {
            ap,
            interval,
            clock: 0,
            rows: std::array::from_fn(|_| None),
        })
    }

    /// Joins a row: "a new row starts as a fresh station, at the present clock,
    /// on the channel named at joining". A group address or a channel over 200:
    /// 15; an address that is joined: 25; no free row: 24; in this order.
    pub fn join(&mut self, address: Address, channel: u8) -> u8 {
        let fresh = Station::start_at(self.clock, address, self.ap, self.interval, channel);
        let station = match fresh {
            Ok(station) => station,
            Err(refusal) => return refusal,
        };
        if self.is_joined(address) {
            return ALREADY_JOINED;
        }
        match self.rows.iter_mut().find(|row| row.is_none()) {
            None => NO_FREE_ROW,
            Some(row) => {
                *row = Some(station);
                ACCEPTED
            }
        }
    }

    /// Leaves a row, of which nothing is kept. An address that is not joined:
    /// 26.
    pub fn leave(&mut self, address: Address) -> u8 {
        match self.place(address) {
            None => NOT_JOINED,
            Some(place) => {
                self.rows[place] = None;
                ACCEPTED
            }
        }
    }

    /// Takes a frame: accepted (0), or its refusal, with its place, and nothing
    /// changed. "A frame to all ones goes to every row, with one answer even if
    /// none is joined, a frame to one address to that row only, and is 4 where
    /// that address is not joined".
    pub fn take(&mut self, frame: &[u8]) -> Result<(), Refusal> {
        let reader = self.reader(frame);
        let received = read_frame(frame, reader, self.ap, self.interval)?;
        for station in self.rows.iter_mut().flatten() {
            if received.broadcast || station.own == reader {
                station.heard(received.frame.clone());
            }
        }
        Ok(())
    }

    /// Advances the clock by `n` TU: "the whole row of stations is stepped by
    /// one tick call". Over 65,535, or past the limit: 14.
    pub fn tick(&mut self, n: u32) -> u8 {
        match clock_after(self.clock, n) {
            Err(refusal) => refusal,
            Ok(clock) => {
                self.clock = clock;
                for station in self.rows.iter_mut().flatten() {
                    station.advance(n);
                }
                ACCEPTED
            }
        }
    }

    /// Asks to send for `n` TU from now: 26 where the address is not joined,
    /// else the answer of its station, 0 to 5.
    pub fn ask(&self, n: u32, address: Address) -> u8 {
        match self.row(address) {
            Err(refusal) => refusal,
            Ok(station) => station.ask(n),
        }
    }

    /// Writes the reply of the station that the frame was sent to, as
    /// [`reply::reply_to_tpc_request`] does. 4 where that is not joined.
    pub fn reply_to_tpc_request(
        &self,
        frame: &[u8],
        power: i8,
        margin: i8,
        out: &mut [u8],
    ) -> Result<usize, u8> {
        let reader = self.reader(frame);
        reply::reply_to_tpc_request(frame, reader, self.ap, power, margin, out)
    }

    /// Writes the reply of the station that the frame was sent to, as
    /// [`reply::reply_to_measurement_request`] does, at the table's clock. 4
    /// where that is not joined.
    pub fn reply_to_measurement_request(
        &self,
        frame: &[u8],
        index: usize,
        finding: Finding,
        out: &mut [u8],
    ) -> Result<usize, u8> {
        let reader = self.reader(frame);
        let (ap, clock) = (self.ap, self.clock);
        reply::reply_to_measurement_request(frame, reader, ap, clock, index, finding, out)
    }

    /// The clock, in TU since the table's start.
    pub fn clock(&self) -> u32 {
        self.clock
    }

    /// What the row of an address keeps; 26 where it is not joined.
    pub fn row(&self, address: Address) -> Result<&Station, u8> {
        let joined = self
            .place(address)
            .and_then(|place| self.rows[place].as_ref());
        joined.ok_or(NOT_JOINED)
    }

    /// Which row an address has joined, from 0.
    fn place(&self, address: Address) -> Option<usize> {
        let is_its_own =
            |row: &Option<Station>| row.as_ref().map_or(false, |station| station.own == address);
        self.rows.iter().position(is_its_own)
    }

    fn is_joined(&self, address: Address) -> bool {
        self.place(address).is_some()
    }

    /// As whom a frame is read: the station that it is sent to, where that is
    /// joined, and else one that only frames to all ones reach. A frame that is
    /// too short for a DA is refused whoever reads it.
    fn reader(&self, frame: &[u8]) -> Address {
        receiver(frame)
            .filter(|&da| self.is_joined(da))
            .unwrap_or(ALL_ONES)
    }
}

#[cfg(test)]
mod tests {
    use super::*;
    use crate::sample::{action, measure, notice, quiet, sent_by, Dice, ALL, AP, OTHER, OWN, PEER};

    const TPC: [u8; 5] = [0, 2, 7, 34, 0];

    fn fresh() -> Table {
        Table::start(AP, 100).unwrap()
    }

    /// A fresh table that these have joined, on channel 36.
    fn joined(addresses: &[Address]) -> Table {
        let mut table = fresh();
        for &address in addresses {
            assert_eq!(table.join(address, 36), 0);
        }
        table
    }

    fn address(last: u8) -> Address {
        [2, 0, 0, 0, 0, last]
    }

    /// A table whose rows `address(0)` to `address(15)` have joined.
    fn full() -> Table {
        let addresses: Vec<Address> = (0..16).map(address).collect();
        joined(&addresses)
    }

    /// Ticks to a moment; it may be far away.
    fn go(table: &mut Table, moment: u32) {
        while table.clock() < moment {
            let step = (moment - table.clock()).min(65_535);
            assert_eq!(table.tick(step), 0);
        }
        assert_eq!(table.clock(), moment);
    }

    fn accept(table: &mut Table, frame: &[u8]) {
        assert_eq!(table.take(frame), Ok(()));
    }

    /// It is refused so, and nothing changes.
    fn refuse(table: &mut Table, frame: &[u8], number: u8, offset: Option<usize>) {
        let before = table.clone();
        assert_eq!(table.take(frame), Err(Refusal { number, offset }));
        assert_eq!(*table, before);
    }

    fn announcement(da: Address, mode: u8, channel: u8, count: u8) -> Vec<u8> {
        action(da, &[0, 4, 37, 3, mode, channel, count])
    }

    /// Channel, constraint and pending switch of a row.
    fn kept(table: &Table, address: Address) -> (u8, Option<u8>, Option<(u64, u8, u8)>) {
        let row = table.row(address).unwrap();
        assert_eq!(row.clock(), table.clock());
        let pending = row.pending_switch();
        (
            row.channel(),
            row.constraint(),
            pending.map(|switch| (switch.moment, switch.mode, switch.channel)),
        )
    }

    #[test]
    fn start_on_both_sides() {
        let mut group = AP;
        group[0] |= 1;
        assert_eq!(Table::start(AP, 0), Err(15));
        assert_eq!(Table::start(group, 100), Err(15));
        assert_eq!(Table::start(ALL, 0), Err(15));
        assert!(Table::start(AP, 1).is_ok());
        assert!(Table::start(AP, 65_535).is_ok());
        assert!(Table::start([0; 6], 1).is_ok());
        assert_eq!(fresh().clock(), 0);
        assert_eq!(fresh().row(OWN), Err(26));
    }

    #[test]
    fn seventeen_joins() {
        let mut table = full();
        let before = table.clone();
        assert_eq!(table.join(address(16), 36), 24);
        // "25 before 24".
        assert_eq!(table.join(address(0), 36), 25);
        assert_eq!(table.join(address(15), 200), 25);
        // "15 comes first": before 25, and before 24.
        assert_eq!(table.join(address(15), 201), 15);
        assert_eq!(table.join(address(16), 255), 15);
        assert_eq!(table.join([3, 0, 0, 0, 0, 16], 36), 15);
        assert_eq!(table, before);
        // "A row that was left is used again", one in the middle too.
        assert_eq!(table.leave(address(7)), 0);
        assert_eq!(table.join(address(16), 40), 0);
        assert_eq!(table.join(address(7), 40), 24);
        assert_eq!(kept(&table, address(16)), (40, None, None));
        assert_eq!(table.row(address(7)), Err(26));
    }

    #[test]
    fn joins_on_both_sides() {
        let mut table = fresh();
        assert_eq!(table.join(OWN, 201), 15);
        assert_eq!(table.join(ALL, 36), 15);
        assert_eq!(table.join([1, 0, 0, 0, 0, 0], 36), 15);
        assert_eq!(table, fresh());
        assert_eq!(table.join(OWN, 200), 0);
        assert_eq!(table.join(OWN, 200), 25);
        assert_eq!(table.join(OWN, 201), 15);
        assert_eq!(table.join(PEER, 0), 0);
        assert_eq!(kept(&table, OWN), (200, None, None));
        assert_eq!(kept(&table, PEER), (0, None, None));
        // No bar is named for the AP's own address.
        assert_eq!(table.join(AP, 36), 0);
        accept(&mut table, &announcement(AP, 0, 40, 0));
        assert_eq!(kept(&table, AP), (40, None, None));
    }

    #[test]
    fn leaving() {
        let mut table = joined(&[OWN, PEER]);
        for stranger in [OTHER, AP, ALL, [0; 6], [3, 0x11, 0x22, 0x33, 0x44, 0x55]] {
            assert_eq!(table.leave(stranger), 26);
        }
        assert_eq!(table, joined(&[OWN, PEER]));
        assert_eq!(table.leave(PEER), 0);
        assert_eq!(table.leave(PEER), 26);
        // Nothing is kept of a station that has left.
        assert_eq!(table, joined(&[OWN]));
    }

    #[test]
    fn leaving_and_joining_again_is_a_fresh_station() {
        let mut table = joined(&[PEER, OWN, OTHER]);
        let elements = [&[32, 1, 5][..], &quiet(1, 1, 100, 0), &[37, 3, 1, 44, 9]].concat();
        accept(&mut table, &notice(8, ALL, 100, &elements));
        go(&mut table, 150);
        let pending = Some((900, 1, 44));
        assert_eq!(kept(&table, OWN), (36, Some(5), pending));
        assert_eq!(table.leave(OWN), 0);
        assert_eq!(table.ask(1, OWN), 26);
        refuse(&mut table, &announcement(OWN, 0, 48, 0), 4, None);
        assert_eq!(table.join(OWN, 60), 0);
        assert_eq!(kept(&table, OWN), (60, None, None));
        assert_eq!((table.ask(65_535, OWN), table.ask(1, PEER)), (0, 1));
        // The switch of the others is none of its own.
        go(&mut table, 900);
        assert_eq!(kept(&table, OWN), (60, None, None));
        assert_eq!(kept(&table, OTHER), (44, None, None));
    }

    #[test]
    fn a_frame_to_one_address_goes_to_that_row_only() {
        let mut table = joined(&[OWN, PEER]);
        let before = table.row(PEER).cloned();
        accept(&mut table, &notice(8, OWN, 100, &quiet(1, 0, 10, 20)));
        accept(&mut table, &announcement(OWN, 1, 44, 3));
        assert_eq!(kept(&table, OWN), (36, None, Some((300, 1, 44))));
        assert_eq!(table.row(PEER).cloned(), before);
        assert_eq!((table.ask(1, OWN), table.ask(65_535, PEER)), (1, 0));
        // "And is 4 where that address is not joined", the AP's among them.
        let almost = [0xFE, 0xFF, 0xFF, 0xFF, 0xFF, 0xFF];
        for stranger in [OTHER, AP, almost, [0; 6], [0x01, 0x80, 0xC2, 0, 0, 0]] {
            refuse(&mut table, &announcement(stranger, 0, 44, 0), 4, None);
            refuse(&mut table, &notice(8, stranger, 99, &[]), 4, None);
        }
    }

    #[test]
    fn a_frame_to_all_ones_goes_to_every_row() {
        let mut table = full();
        assert_eq!(table.leave(address(3)), 0);
        let elements = [&quiet(1, 0, 10, 20)[..], &[32, 1, 4]].concat();
        accept(&mut table, &notice(5, ALL, 100, &elements));
        go(&mut table, 119);
        for last in (0..16).filter(|&last| last != 3) {
            let answers = (
                table.ask(1, address(last)),
                table.ask(2, address(last)),
                table.ask(0, address(last)),
            );
            assert_eq!(answers, (0, 3, 5));
            assert_eq!(kept(&table, address(last)), (36, Some(4), None));
        }
        // What came before a joining counts for nothing.
        assert_eq!(table.join(address(3), 36), 0);
        assert_eq!(kept(&table, address(3)), (36, None, None));
        assert_eq!(table.ask(2, address(3)), 0);
    }

    #[test]
    fn a_frame_to_all_ones_with_no_row_joined_has_one_answer() {
        let mut table = fresh();
        accept(&mut table, &announcement(ALL, 1, 44, 0));
        accept(&mut table, &notice(8, ALL, 100, &quiet(1, 1, 100, 0)));
        assert_eq!(table, fresh());
        refuse(&mut table, &notice(8, ALL, 99, &[]), 12, Some(32));
        refuse(&mut table, &action(ALL, &[0, 4]), 7, Some(26));
        refuse(&mut table, &announcement(ALL, 2, 44, 0), 9, Some(26));
        refuse(&mut table, &announcement(OWN, 0, 44, 0), 4, None);
        // It went to nobody, so one who joins later has not heard it.
        assert_eq!(table.join(OWN, 36), 0);
        assert_eq!(kept(&table, OWN), (36, None, None));
        assert_eq!(table.ask(65_535, OWN), 0);
    }

    #[test]
    fn a_frame_is_judged_in_the_order_of_document_01() {
        let mut table = joined(&[OWN]);
        let whole = announcement(OTHER, 0, 44, 0);
        for length in 0..24 {
            refuse(&mut table, &whole[..length], 1, None);
            refuse(&mut table, &announcement(OWN, 0, 44, 0)[..length], 1, None);
        }
        let mut long = whole.clone();
        long.resize(2337, 0);
        refuse(&mut table, &long, 2, None);
        let mut flagged = whole.clone();
        flagged[1] = 1;
        refuse(&mut table, &flagged, 3, None);
        refuse(&mut table, &whole, 4, None);
        // SA and BSSID are the AP, whoever is joined.
        refuse(
            &mut table,
            &sent_by(AP, &announcement(OWN, 0, 44, 0)),
            4,
            None,
        );
        refuse(
            &mut table,
            &sent_by(OWN, &announcement(ALL, 0, 44, 0)),
            4,
            None,
        );
        refuse(&mut table, &notice(8, OWN, 100, &[32, 1]), 6, Some(36));
        refuse(&mut table, &notice(5, ALL, 100, &[32, 1]), 6, Some(36));
    }

    #[test]
    fn ticks_on_both_sides() {
        let mut table = joined(&[OWN]);
        let before = table.clone();
        assert_eq!(table.tick(0), 0);
        assert_eq!(table.tick(65_536), 14);
        assert_eq!(table.tick(u32::MAX), 14);
        assert_eq!(table, before);
        assert_eq!(table.tick(65_535), 0);
        assert_eq!(table.join(PEER, 36), 0);
        for address in [OWN, PEER] {
            assert_eq!(table.row(address).map(Station::clock), Ok(65_535));
        }
    }

    #[test]
    fn ticks_at_the_clocks_limit() {
        // With a row joined or none.
        for addresses in [&[OWN][..], &[]] {
            let mut table = joined(addresses);
            go(&mut table, u32::MAX - 10);
            let before = table.clone();
            assert_eq!(table.tick(11), 14);
            assert_eq!(table, before);
            assert_eq!(table.tick(10), 0);
            assert_eq!(table.tick(0), 0);
            assert_eq!(table.tick(1), 14);
            assert_eq!(table.clock(), 4_294_967_295);
            // A row may still be joined there; its switch stays pending.
            assert_eq!(table.join(PEER, 36), 0);
            accept(&mut table, &announcement(PEER, 0, 44, 1));
            let moment = u64::from(u32::MAX / 100 + 1) * 100;
            assert_eq!(kept(&table, PEER), (36, None, Some((moment, 0, 44))));
            assert_eq!((table.ask(1, PEER), table.ask(65_535, PEER)), (0, 4));
        }
    }

    #[test]
    fn a_count_of_1_leads_to_the_next_tbtt_of_the_tables_clock() {
        let mut table = fresh();
        go(&mut table, 150);
        assert_eq!(table.join(OWN, 36), 0);
        accept(&mut table, &announcement(OWN, 0, 40, 1));
        assert_eq!(kept(&table, OWN), (36, None, Some((200, 0, 40))));
        go(&mut table, 199);
        assert_eq!((table.ask(1, OWN), table.ask(2, OWN)), (0, 4));
        assert_eq!(kept(&table, OWN).0, 36);
        go(&mut table, 200);
        assert_eq!(kept(&table, OWN), (40, None, None));
        // A Quiet element's count too.
        go(&mut table, 250);
        assert_eq!(table.join(PEER, 36), 0);
        accept(&mut table, &notice(8, PEER, 100, &quiet(1, 0, 10, 20)));
        go(&mut table, 319);
        assert_eq!((table.ask(1, PEER), table.ask(2, PEER)), (0, 3));
        assert_eq!(table.ask(2, OWN), 0);
        // A count of 0 is at once.
        accept(&mut table, &announcement(ALL, 1, 48, 0));
        assert_eq!(kept(&table, OWN), (48, None, None));
        assert_eq!(kept(&table, PEER), (48, None, None));
        assert_eq!(table.ask(65_535, PEER), 0);
    }

    #[test]
    fn a_question_is_26_before_5() {
        let table = joined(&[OWN]);
        for n in [0, 1, 65_535, 65_536, u32::MAX] {
            for stranger in [PEER, AP, ALL] {
                assert_eq!(table.ask(n, stranger), 26);
            }
        }
        assert_eq!((table.ask(0, OWN), table.ask(65_536, OWN)), (5, 5));
        assert_eq!((table.ask(1, OWN), table.ask(65_535, OWN)), (0, 0));
    }

    #[test]
    fn replies_go_by_the_frames_da() {
        let table = joined(&[PEER, OWN]);
        for da in [OWN, PEER] {
            let mut out = [0xEE; 33];
            let reply = table.reply_to_tpc_request(&action(da, &TPC), -3, 20, &mut out);
            assert_eq!(reply, Ok(31));
            assert_eq!((&out[4..10], &out[10..16]), (&AP[..], &da[..]));
            assert_eq!(out[24..], [0, 3, 7, 35, 2, 0xFD, 20, 0xEE, 0xEE]);
        }
        // The numbers of the header, 18, 16 and 13.
        let refused = |frame: &[u8]| {
            let mut out = [0xEE; 30];
            let reply = table.reply_to_tpc_request(frame, 0, 0, &mut out);
            assert_eq!(out, [0xEE; 30]);
            reply.err()
        };
        assert_eq!(refused(&action(OTHER, &TPC)[..23]), Some(1));
        assert_eq!(refused(&action(OWN, &[0; 2313])), Some(2));
        let mut flagged = action(OTHER, &TPC);
        flagged[1] = 1;
        assert_eq!(refused(&flagged), Some(3));
        for stranger in [OTHER, AP, [3, 0, 0, 0, 0, 1]] {
            assert_eq!(refused(&action(stranger, &TPC)), Some(4));
        }
        assert_eq!(refused(&action(ALL, &TPC)), Some(18));
        assert_eq!(refused(&action(ALL, &[0, 9])), Some(18));
        assert_eq!(refused(&action(OWN, &[0, 4, 37, 3, 0, 44, 1])), Some(18));
        assert_eq!(refused(&notice(8, OWN, 100, &[])), Some(18));
        let request = [&[0, 0, 7][..], &measure(1, 0, 36, 0, 10)].concat();
        assert_eq!(refused(&action(OWN, &request)), Some(16));
        assert_eq!(refused(&action(OWN, &TPC)), Some(13));
    }

    #[test]
    fn no_reply_is_due_where_none_is_joined() {
        let mut table = joined(&[OWN]);
        assert_eq!(table.leave(OWN), 0);
        let mut out = [0xEE; 60];
        for (da, number) in [(OWN, 4), (AP, 4), (ALL, 18)] {
            let frame = action(da, &TPC);
            let reply = table.reply_to_tpc_request(&frame, 0, 0, &mut out);
            assert_eq!(reply, Err(number));
            let finding = Finding::Refused;
            let reply = table.reply_to_measurement_request(&frame, 0, finding, &mut out);
            assert_eq!(reply, Err(number));
        }
        assert_eq!(out, [0xEE; 60]);
    }

    #[test]
    fn a_measurement_reply_goes_by_the_tables_clock() {
        let mut table = fresh();
        go(&mut table, 150);
        assert_eq!(table.join(OWN, 36), 0);
        go(&mut table, 160);
        let reply = |start: u64| {
            let body = [&[0, 0, 7][..], &measure(1, 0, 36, start, 10)].concat();
            let frame = action(OWN, &body);
            let mut out = [0xEE; 60];
            let length =
                table.reply_to_measurement_request(&frame, 0, Finding::Map(1), &mut out)?;
            Ok::<Vec<u8>, u8>(out[24..length].to_vec())
        };
        // Late before 160 TU on the table's clock, not before 10 on the row's.
        assert_eq!(reply(160 * 1024 - 1), Ok(vec![0, 1, 7, 39, 3, 1, 1, 0]));
        let on_time = reply(160 * 1024).unwrap();
        assert_eq!(on_time[..7], [0, 1, 7, 39, 15, 1, 0]);
        assert_eq!(reply(0), Ok(on_time));
    }

    #[test]
    fn an_error_return_comes_from_the_row() {
        let table = joined(&[PEER, OWN]);
        let mut out = [0xEE; 60];
        let frame = action(OWN, &[0, 2, 7, 35, 0]);
        let finding = Finding::Map(0xFF);
        let reply = table.reply_to_measurement_request(&frame, 9, finding, &mut out);
        assert_eq!(reply, Ok(29));
        assert_eq!(out[10..16], OWN);
        assert_eq!(out[24..29], [0x80, 2, 7, 35, 0]);
    }

    /// A frame that is mostly accepted.
    fn some_frame(dice: &mut Dice, da: Address) -> Vec<u8> {
        let switch = [
            37,
            3,
            dice.roll(2) as u8,
            dice.roll(202) as u8,
            dice.roll(4) as u8,
        ];
        if dice.roll(4) == 0 {
            return action(da, &[&[0, 4][..], &switch].concat());
        }
        let mut elements = Vec::new();
        for _ in 0..dice.roll(3) {
            let (count, period) = (dice.roll(4) as u8, dice.roll(3) as u8);
            let (duration, offset) = (dice.roll(30) as u16, dice.roll(11) as u16);
            elements.extend_from_slice(&quiet(count, period, duration, offset));
        }
        if dice.roll(2) == 0 {
            elements.extend_from_slice(&[32, 1, dice.roll(256) as u8]);
        }
        if dice.roll(4) == 0 {
            elements.extend_from_slice(&switch);
        }
        notice(if dice.roll(2) == 0 { 8 } else { 5 }, da, 10, &elements)
    }

    /// Tables and the stations that their rows must be: each started with the
    /// table, and taking frames from its joining to its leaving.
    struct Sentences {
        table: Table,
        alone: Vec<Station>,
    }

    impl Sentences {
        fn join(&mut self, address: Address, channel: u8) -> u8 {
            let is_joined = self.alone.iter().any(|station| station.own == address);
            let expected = match (is_joined, self.alone.len()) {
                _ if channel > 200 => 15,
                (true, _) => 25,
                (false, 16) => 24,
                _ => 0,
            };
            assert_eq!(self.table.join(address, channel), expected);
            if expected == 0 {
                let mut station = Station::start(address, AP, 10, channel).unwrap();
                assert_eq!(station.advance(self.table.clock()), 0);
                self.alone.push(station);
            }
            expected
        }

        fn leave(&mut self, address: Address) {
            let before = self.alone.len();
            self.alone.retain(|station| station.own != address);
            let expected = if self.alone.len() < before { 0 } else { 26 };
            assert_eq!(self.table.leave(address), expected);
        }

        fn take(&mut self, da: Address, frame: &[u8]) {
            let answer = self.table.take(frame);
            let mut reached = false;
            for station in &mut self.alone {
                if da == ALL || da == station.own {
                    assert_eq!(station.take(frame), answer);
                    reached = true;
                }
            }
            if da != ALL && !reached {
                assert_eq!(answer, Err(Refusal::nowhere(4)));
            }
        }

        fn tick(&mut self, n: u32) {
            assert_eq!(self.table.tick(n), 0);
            for station in &mut self.alone {
                assert_eq!(station.advance(n), 0);
            }
        }
    }

    #[test]
    fn rows_are_stations_that_hear_from_their_joining_on() {
        let mut dice = Dice(1999);
        let mut joins = [0; 26];
        for walk in 0..60 {
            // Few addresses, or more than there are rows.
            let addresses = [4, 18, 24][walk % 3];
            let mut sentences = Sentences {
                table: Table::start(AP, 10).unwrap(),
                alone: Vec::new(),
            };
            for _ in 0..300 {
                let someone = address(dice.roll(addresses) as u8);
                match dice.roll(8) {
                    0 | 1 => {
                        let answer = sentences.join(someone, dice.roll(210) as u8);
                        joins[usize::from(answer)] += 1;
                    }
                    2 if dice.roll(3) == 0 => sentences.leave(someone),
                    3 | 4 => sentences.tick(dice.roll(30) as u32),
                    _ => {
                        let da = if dice.roll(3) == 0 { ALL } else { someone };
                        let frame = some_frame(&mut dice, da);
                        sentences.take(da, &frame);
                    }
                }
                for station in &sentences.alone {
                    assert_eq!(sentences.table.row(station.own), Ok(station));
                }
                let expected = match sentences.alone.iter().find(|row| row.own == someone) {
                    None => 26,
                    Some(station) => station.ask(40),
                };
                assert_eq!(sentences.table.ask(40, someone), expected);
            }
        }
        for number in [0, 15, 24, 25] {
            assert!(joins[number] > 50, "{} of {}", joins[number], number);
        }
    }
}
