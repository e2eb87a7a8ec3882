//! The evening list of a capture (section "Capture blocks and the evening
//! list"; for the place in a frame's line 02, One).
//!
//! One pass over the file, and every line goes into one `Vec`. An ask costs
//! more here than it has to: the station marks the covered units one by one
//! (see `station`), up to 65,535 of them where none is quiet.

use crate::answer::{ACCEPTED, DAMAGED_BLOCK, MALFORMED_RECORD, NO_STATION};
use crate::octets::u16_at;
use crate::station::Station;
use crate::Address;

/// Octets of a block: used length (2), payload (508), check (2).
const BLOCK: usize = 512;
const PAYLOAD: usize = 2;
const PAYLOAD_LIMIT: usize = 508;
const CHECK: usize = 510;

/// Kind and length (2) of a record.
const RECORD_HEAD: usize = 3;

const KIND_ADVANCE: u8 = 1;
const KIND_FRAME: u8 = 2;
const KIND_ASK: u8 = 3;
const KIND_START: u8 = 4;

/// Own address, AP, channel, B.
const START_LENGTH: usize = 15;

/// A well-formed record.
enum Record<'a> {
    Advance(u16),
    Frame(&'a [u8]),
    Ask(u16),
    Start {
        own: Address,
        ap: Address,
        channel: u8,
        interval: u16,
    },
}

/// The list so far, and the station that is followed, if any.
struct Evening {
    list: Vec<u8>,
    lines: u64,
    blocks: u64,
    damaged: u64,
    station: Option<Station>,
}

/// The evening list of a whole capture: a line for each record and each
/// damaged block, and a last line with the number of blocks.
pub fn list(file: &[u8]) -> Vec<u8> {
    let mut evening = Evening {
        list: Vec::new(),
        lines: 0,
        blocks: 0,
        damaged: 0,
        station: None,
    };
    for block in file.chunks(BLOCK) {
        evening.block(block);
    }
    evening.end()
}

impl Evening {
    /// Lists one block; a short last one is damaged as well.
    fn block(&mut self, block: &[u8]) {
        self.blocks += 1;
        match used_payload(block) {
            Some(payload) => self.records(payload),
            None => {
                self.damaged += 1;
                self.station = None;
                self.line("block", DAMAGED_BLOCK, None);
            }
        }
    }

    /// Lists the records of a block, up to the first malformed one.
    fn records(&mut self, payload: &[u8]) {
        let mut rest = payload;
        while !rest.is_empty() {
            match read_record(rest) {
                Some((record, after)) => {
                    self.record(record);
                    rest = after;
                }
                None => {
                    self.station = None;
                    self.line("record", MALFORMED_RECORD, None);
                    return;
                }
            }
        }
    }

    /// Carries out one record and lists its answer.
    fn record(&mut self, record: Record<'_>) {
        match record {
            Record::Start {
                own,
                ap,
                channel,
                interval,
            } => {
                let answer = self.start(own, ap, channel, interval);
                self.line("start", answer, None);
            }
            Record::Advance(n) => {
                let station = self.station.as_mut();
                let answer = station.map_or(NO_STATION, |station| station.advance(u32::from(n)));
                self.line("advance", answer, None);
            }
            Record::Frame(frame) => {
                let (answer, offset) = self.take(frame);
                self.line("frame", answer, offset);
            }
            Record::Ask(n) => {
                let station = self.station.as_ref();
                let answer = station.map_or(NO_STATION, |station| station.ask(u32::from(n)));
                self.line("ask", answer, None);
            }
        }
    }

    /// Starts a station in place of any other; a refused start leaves none.
    fn start(&mut self, own: Address, ap: Address, channel: u8, interval: u16) -> u8 {
        let started = Station::start(own, ap, interval, channel);
        let answer = started.as_ref().err().copied().unwrap_or(0);
        self.station = started.ok();
        answer
    }

    /// Hands a frame to the station: the answer, and the place of a fault
    /// where it has one.
    fn take(&mut self, frame: &[u8]) -> (u8, Option<usize>) {
        match &mut self.station {
            None => (NO_STATION, None),
            Some(station) => match station.take(frame) {
                Ok(()) => (ACCEPTED, None),
                Err(refusal) => (refusal.number, refusal.offset),
            },
        }
    }

    /// One line: number, word, answer, and after it the place if there is one
    /// ("in the list it follows the number").
    fn line(&mut self, word: &str, answer: u8, offset: Option<usize>) {
        self.lines += 1;
        put_decimal(self.lines, &mut self.list);
        self.list.push(b' ');
        self.list.extend_from_slice(word.as_bytes());
        self.list.push(b' ');
        put_decimal(u64::from(answer), &mut self.list);
        if let Some(offset) = offset {
            self.list.push(b' ');
            put_decimal(offset as u64, &mut self.list);
        }
        self.list.push(b'\n');
    }

    /// The last line, which has no number of its own.
    fn end(mut self) -> Vec<u8> {
        self.list.extend_from_slice(b"blocks ");
        put_decimal(self.blocks, &mut self.list);
        self.list.extend_from_slice(b" damaged ");
        put_decimal(self.damaged, &mut self.list);
        self.list.push(b'\n');
        self.list
    }
}

/// The used part of a block's payload, or `None` if the block is damaged.
fn used_payload(block: &[u8]) -> Option<&[u8]> {
    if block.len() != BLOCK {
        return None;
    }
    let used = usize::from(u16_at(block, 0));
    // At most 1 + 510 * 255, so 32 bits are enough before the modulus.
    let sum: u32 = 1 + block[..CHECK]
        .iter()
        .map(|&octet| u32::from(octet))
        .sum::<u32>();
    if sum % 65_536 != u32::from(u16_at(block, CHECK)) || used > PAYLOAD_LIMIT {
        return None;
    }
    Some(&block[PAYLOAD..PAYLOAD + used])
}

/// The first record of some octets and what follows it, or `None` if it is
/// malformed: unknown kind, wrong length, or past the end.
fn read_record(octets: &[u8]) -> Option<(Record<'_>, &[u8])> {
    if octets.len() < RECORD_HEAD {
        return None;
    }
    let length = usize::from(u16_at(octets, 1));
    let contents = octets.get(RECORD_HEAD..RECORD_HEAD + length)?;
    let record = match (octets[0], length) {
        (KIND_ADVANCE, 2) => Record::Advance(u16_at(contents, 0)),
        (KIND_FRAME, _) => Record::Frame(contents),
        (KIND_ASK, 2) => Record::Ask(u16_at(contents, 0)),
        (KIND_START, START_LENGTH) => Record::Start {
            own: address_at(contents, 0),
            ap: address_at(contents, 6),
            channel: contents[12],
            interval: u16_at(contents, 13),
        },
        _ => return None,
    };
    Some((record, &octets[RECORD_HEAD + length..]))
}

fn address_at(octets: &[u8], at: usize) -> Address {
    let mut address = [0; 6];
    address.copy_from_slice(&octets[at..at + 6]);
    address
}

/// Puts a number in decimal, without leading zeros.
fn put_decimal(number: u64, list: &mut Vec<u8>) {
    // No 64-bit number has over 20 digits.
    let mut digits = [0; 20];
    let mut first = digits.len();
    let mut rest = number;
    loop {
        first -= 1;
        digits[first] = b'0' + (rest % 10) as u8;
        rest /= 10;
        if rest == 0 {
            break;
        }
    }
    list.extend_from_slice(&digits[first..]);
}

#[cfg(test)]
mod tests {
    use super::*;
    use crate::sample::{action, block, notice, quiet, record, seal, start, Dice, ALL, AP, OWN};

    fn text(file: &[u8]) -> String {
        String::from_utf8(list(file)).unwrap()
    }

    fn advance(n: u16) -> Vec<u8> {
        record(1, &n.to_le_bytes())
    }

    fn ask(n: u16) -> Vec<u8> {
        record(3, &n.to_le_bytes())
    }

    fn started() -> Vec<u8> {
        start(OWN, AP, 36, 100)
    }

    #[test]
    fn the_documents_example() {
        let frame = action(OWN, &[0x00, 0x04, 0x25, 0x03, 0x01, 0x2C, 0x02]);
        let file = block(&[
            started(),
            record(2, &frame),
            ask(1),
            advance(100),
            ask(1),
            advance(100),
            ask(1),
        ]);
        assert_eq!(
            text(&file),
            "1 start 0\n2 frame 0\n3 ask 1\n4 advance 0\n5 ask 1\n6 advance 0\n7 ask 0\n\
             blocks 1 damaged 0\n"
        );
    }

    #[test]
    fn a_begun_quiet_interval_is_listed_to_its_end() {
        // 02, Two: the run is 120 to 129, and a beacon replaces its frame.
        for (replaced, answers) in [(110, [0, 0, 0]), (120, [2, 2, 0]), (125, [2, 2, 0])] {
            let file = block(&[
                started(),
                advance(50),
                record(2, &notice(8, ALL, 100, &quiet(1, 0, 10, 20))),
                advance(replaced - 50),
                record(2, &notice(8, ALL, 100, &[])),
                advance(126 - replaced),
                ask(1),
                advance(3),
                ask(1),
                advance(1),
                ask(1),
            ]);
            assert_eq!(
                text(&file),
                format!(
                    "1 start 0\n2 advance 0\n3 frame 0\n4 advance 0\n5 frame 0\n\
                     6 advance 0\n7 ask {}\n8 advance 0\n9 ask {}\n10 advance 0\n\
                     11 ask {}\nblocks 1 damaged 0\n",
                    answers[0], answers[1], answers[2]
                )
            );
        }
    }

    #[test]
    fn an_empty_file_and_empty_blocks() {
        assert_eq!(text(&[]), "blocks 0 damaged 0\n");
        assert_eq!(text(&block(&[])), "blocks 1 damaged 0\n");
        assert_eq!(
            text(&[block(&[]), block(&[])].concat()),
            "blocks 2 damaged 0\n"
        );
    }

    #[test]
    fn damaged_blocks() {
        let whole = block(&[started()]);
        assert_eq!(text(&whole), "1 start 0\nblocks 1 damaged 0\n");
        // Short by one octet, and a single octet.
        assert_eq!(text(&whole[..511]), "1 block 17\nblocks 1 damaged 1\n");
        assert_eq!(text(&whole[..1]), "1 block 17\nblocks 1 damaged 1\n");
        // Each octet takes part in the check, those past the used length too.
        for place in 0..512 {
            let mut other = whole.clone();
            other[place] ^= 0x40;
            assert_eq!(
                text(&other),
                "1 block 17\nblocks 1 damaged 1\n",
                "octet {}",
                place
            );
        }
        // A short last block after a whole one.
        let mut longer = whole.clone();
        longer.push(0);
        assert_eq!(text(&longer), "1 start 0\n2 block 17\nblocks 2 damaged 1\n");
    }

    #[test]
    fn used_length_on_both_sides() {
        let mut frame = action(OWN, &[]);
        frame.resize(508 - 3, 0);
        let full = block(&[record(2, &frame)]);
        assert_eq!(full[..2], 508u16.to_le_bytes());
        assert_eq!(text(&full), "1 frame 19\nblocks 1 damaged 0\n");
        for used in [509u16, 510, 512, 65_535] {
            let mut over = full.clone();
            over[..2].copy_from_slice(&used.to_le_bytes());
            seal(&mut over);
            assert_eq!(text(&over), "1 block 17\nblocks 1 damaged 1\n");
        }
    }

    #[test]
    fn the_check_is_modulo_65_536() {
        let mut high = vec![0xFF; 510];
        high[..2].copy_from_slice(&[0, 0]);
        seal(&mut high);
        // 1 + 508 * 255 = 129,541 = 65,536 + 64,005.
        assert_eq!(u16_at(&high, 510), 64_005);
        assert_eq!(text(&high), "blocks 1 damaged 0\n");
        // A block of zeros has check 1, not 0.
        let mut low = vec![0; 512];
        assert_eq!(text(&low), "1 block 17\nblocks 1 damaged 1\n");
        low[510] = 1;
        assert_eq!(text(&low), "blocks 1 damaged 0\n");
    }

    #[test]
    fn no_station() {
        let file = block(&[
            advance(1),
            record(2, &[]),
            ask(0),
            started(),
            advance(1),
            record(2, &[]),
            ask(0),
            start(OWN, AP, 201, 100),
            ask(1),
            started(),
            ask(1),
            start(OWN, AP, 200, 0),
            ask(1),
            start(OWN, AP, 200, 1),
            ask(1),
        ]);
        assert_eq!(
            text(&file),
            "1 advance 19\n2 frame 19\n3 ask 19\n4 start 0\n5 advance 0\n6 frame 1\n7 ask 5\n\
             8 start 15\n9 ask 19\n10 start 0\n11 ask 0\n12 start 15\n13 ask 19\n14 start 0\n\
             15 ask 0\nblocks 1 damaged 0\n"
        );
    }

    #[test]
    fn places_follow_the_number() {
        let frame = |body: &[u8]| record(2, &action(OWN, body));
        let beacon = |elements: &[u8]| record(2, &notice(8, OWN, 100, elements));
        let nine = quiet(1, 0, 1, 0).repeat(9);
        let first = block(&[
            started(),
            beacon(&[32, 1, 3, 0, 0, 37, 2, 1, 44]),
            frame(&[1]),
            frame(&[0, 5]),
            frame(&[0, 4, 37]),
            frame(&[0, 4]),
            frame(&[0, 0, 0]),
            frame(&[0, 1, 0, 39, 3, 0, 3, 9]),
            frame(&[0, 2, 7, 35, 0]),
            frame(&[0, 2, 7, 34, 0, 0]),
        ]);
        // Without a place the line is as it was: 1, 3, 4, 0, and an ask.
        let second = block(&[
            record(2, &notice(5, ALL, 99, &[])),
            beacon(&[32, 1, 3, 32, 1, 3]),
            frame(&[0, 0, 5, 38, 3, 1, 2, 0, 38, 3, 1, 2, 0]),
            beacon(&nine),
            record(2, &[]),
            frame(&[0]),
            record(2, &[0; 24]),
            record(2, &action(AP, &[1])),
            frame(&[0, 2, 7, 34, 0]),
            ask(1),
            record(0, &[]),
        ]);
        // No station, no place.
        let third = block(&[frame(&[1]), frame(&[0, 2, 7, 34, 0])]);
        assert_eq!(
            text(&[first, second, third].concat()),
            "1 start 0\n2 frame 8 41\n3 frame 5 24\n4 frame 5 25\n5 frame 6 26\n\
             6 frame 7 26\n7 frame 9 26\n8 frame 9 27\n9 frame 21 27\n10 frame 22 29\n\
             11 frame 12 32\n12 frame 10 39\n13 frame 10 32\n14 frame 11 100\n\
             15 frame 1\n16 frame 1\n17 frame 3\n18 frame 4\n19 frame 0\n20 ask 0\n\
             21 record 20\n22 frame 19\n23 frame 19\nblocks 3 damaged 0\n"
        );
    }

    #[test]
    fn vendors_elements_in_the_list() {
        // 02, Four: the document's example with vendors' elements after the
        // announcement, and places that count the skipped octets.
        let frame = |body: &[u8]| record(2, &action(OWN, body));
        let first = block(&[
            started(),
            frame(&[0, 4, 37, 3, 1, 44, 2, 221, 0, 221, 3, 1, 2, 3]),
            ask(1),
            advance(100),
            ask(1),
            advance(100),
            ask(1),
        ]);
        let second = block(&[
            frame(&[0, 4, 37, 3, 1, 48, 0, 221, 0, 221]),
            frame(&[0, 4, 37, 3, 1, 48, 0, 221, 1, 7, 0]),
            frame(&[0, 4, 221, 0, 37, 3, 1, 48, 0]),
            frame(&[0, 0, 9, 38, 3, 1, 2, 0, 221, 0, 38, 3, 1, 2, 0]),
            frame(&[0, 0, 9, 38, 3, 1, 2, 0, 221, 0, 38, 3, 2, 2, 0, 221, 0]),
            frame(&[0, 1, 9, 39, 3, 1, 1, 0, 221, 2, 7]),
            frame(&[0, 2, 9, 34, 0, 221, 2, 7, 7]),
            ask(1),
        ]);
        assert_eq!(
            text(&[first, second].concat()),
            "1 start 0\n2 frame 0\n3 ask 1\n4 advance 0\n5 ask 1\n6 advance 0\n7 ask 0\n\
             8 frame 6 33\n9 frame 22 34\n10 frame 21 26\n11 frame 10 34\n12 frame 0\n\
             13 frame 6 32\n14 frame 0\n15 ask 0\nblocks 2 damaged 0\n"
        );
    }

    #[test]
    fn the_last_place_in_a_block() {
        // 36 + 257 + 211 = 504 octets, and with an ID the 505 of a block.
        let mut elements = vec![0, 255];
        elements.resize(257, 0);
        elements.extend_from_slice(&[0, 209]);
        elements.resize(257 + 211, 0);
        let whole = notice(8, OWN, 100, &elements);
        elements.push(40);
        let broken = notice(8, OWN, 100, &elements);
        assert_eq!(broken.len(), 505);
        let file = [
            block(&[started()]),
            block(&[record(2, &whole)]),
            block(&[record(2, &broken)]),
        ]
        .concat();
        assert_eq!(
            text(&file),
            "1 start 0\n2 frame 0\n3 frame 6 504\nblocks 3 damaged 0\n"
        );
    }

    #[test]
    fn malformed_records() {
        let malformed: Vec<Vec<u8>> = vec![
            record(0, &[]),
            record(5, &[0, 0]),
            record(255, &[]),
            record(1, &[]),
            record(1, &[0]),
            record(1, &[0, 0, 0]),
            record(3, &[0]),
            record(3, &[0, 0, 0]),
            record(4, &[0; 14]),
            record(4, &[0; 16]),
        ];
        for wrong in malformed {
            // The rest of the block is dropped and the station gone; the next
            // block is read again.
            let first = block(&[started(), wrong, ask(1), ask(1)]);
            let file = [first, block(&[ask(1), started(), ask(1)])].concat();
            assert_eq!(
                text(&file),
                "1 start 0\n2 record 20\n3 ask 19\n4 start 0\n5 ask 0\nblocks 2 damaged 0\n"
            );
        }
        // 20 before 19.
        assert_eq!(
            text(&block(&[record(1, &[0])])),
            "1 record 20\nblocks 1 damaged 0\n"
        );
    }

    #[test]
    fn records_past_the_used_length() {
        for cut in 1..=4usize {
            let mut one = block(&[started(), ask(1)]);
            let used = 18 + 5 - cut as u16;
            one[..2].copy_from_slice(&used.to_le_bytes());
            seal(&mut one);
            assert_eq!(text(&one), "1 start 0\n2 record 20\nblocks 1 damaged 0\n");
        }
        let mut one = block(&[started(), ask(1)]);
        one[..2].copy_from_slice(&18u16.to_le_bytes());
        seal(&mut one);
        assert_eq!(text(&one), "1 start 0\nblocks 1 damaged 0\n");
        // A frame whose length runs to the very end, and one past it.
        for (length, line) in [
            (505u16, "1 frame 19\n"),
            (506, "1 record 20\n"),
            (65_535, "1 record 20\n"),
        ] {
            let mut one = block(&[vec![0; 508]]);
            one[2] = 2;
            one[3..5].copy_from_slice(&length.to_le_bytes());
            seal(&mut one);
            assert_eq!(text(&one), format!("{}blocks 1 damaged 0\n", line));
        }
    }

    #[test]
    fn a_damaged_block_ends_the_station() {
        let mut damaged = block(&[]);
        damaged[511] ^= 1;
        let file = [
            block(&[started(), ask(1)]),
            damaged,
            block(&[ask(1), started()]),
        ]
        .concat();
        assert_eq!(
            text(&file),
            "1 start 0\n2 ask 0\n3 block 17\n4 ask 19\n5 start 0\nblocks 3 damaged 1\n"
        );
        // Across whole blocks the station goes on.
        let file = [
            block(&[started(), advance(7)]),
            block(&[]),
            block(&[ask(1)]),
        ]
        .concat();
        assert_eq!(
            text(&file),
            "1 start 0\n2 advance 0\n3 ask 0\nblocks 3 damaged 0\n"
        );
    }

    #[test]
    fn decimals() {
        for number in [0u64, 1, 9, 10, 99, 100, 12_345, u64::MAX] {
            let mut octets = Vec::new();
            put_decimal(number, &mut octets);
            assert_eq!(octets, number.to_string().into_bytes());
        }
    }

    #[test]
    fn any_octets_have_a_list() {
        let mut dice = Dice(99);
        for _ in 0..300 {
            let mut octets: Vec<u8> = (0..510).map(|_| dice.roll(6) as u8).collect();
            let used = dice.roll(509) as u16;
            octets[..2].copy_from_slice(&used.to_le_bytes());
            seal(&mut octets);
            let lines = text(&octets);
            assert!(lines.ends_with("blocks 1 damaged 0\n"));
        }
    }

    #[test]
    fn a_long_evening() {
        // Each ask covers 65,535 units, none of them quiet, in the gap between
        // two runs of eight schedules: the slowest ask there is. Unoptimised
        // code gets fewer of them.
        let blocks = if cfg!(debug_assertions) { 10 } else { 1000 };
        let mut elements = Vec::new();
        for offset in 0..8u16 {
            elements.extend_from_slice(&quiet(255, 255, 1, offset));
        }
        let beacon = record(2, &notice(8, OWN, 65_535, &elements));
        let mut file = block(&[start(OWN, AP, 36, 65_535), beacon]);
        let advances = block(&vec![advance(65_535); 64]);
        for _ in 0..4 {
            file.extend_from_slice(&advances);
        }
        let asks = block(&vec![ask(65_535); 100]);
        for _ in 0..blocks {
            file.extend_from_slice(&asks);
        }
        let lines = text(&file);
        assert!(!lines.contains("ask 3"));
        let last = format!(
            "{} ask 0\nblocks {} damaged 0\n",
            2 + 256 + 100 * blocks,
            5 + blocks
        );
        assert!(lines.ends_with(&last));
    }
}
