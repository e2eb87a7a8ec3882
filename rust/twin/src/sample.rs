//! Octets for the tests.

use crate::element::element_octets;
use crate::Address;

pub(crate) const OWN: Address = [0x02, 0x11, 0x22, 0x33, 0x44, 0x55];
pub(crate) const AP: Address = [0x06, 0x66, 0x77, 0x88, 0x99, 0xAA];
pub(crate) const ALL: Address = [0xFF; 6];
/// The BSSID of an IBSS.
pub(crate) const CELL: Address = [0x0A, 0x31, 0x32, 0x33, 0x34, 0x35];
/// Stations of that IBSS.
pub(crate) const PEER: Address = [0x04, 0x41, 0x42, 0x43, 0x44, 0x45];
pub(crate) const OTHER: Address = [0x08, 0x51, 0x52, 0x53, 0x54, 0x55];

/// A header of this subtype from the AP.
pub(crate) fn header(subtype: u8, da: Address) -> Vec<u8> {
    let mut frame = vec![subtype << 4, 0, 0x34, 0x12];
    frame.extend_from_slice(&da);
    frame.extend_from_slice(&AP);
    frame.extend_from_slice(&AP);
    frame.extend_from_slice(&[0x10, 0x32]);
    frame
}

/// An Action frame from the AP.
pub(crate) fn action(da: Address, body: &[u8]) -> Vec<u8> {
    let mut frame = header(13, da);
    frame.extend_from_slice(body);
    frame
}

/// A beacon (8) or probe response (5) from the AP.
pub(crate) fn notice(subtype: u8, da: Address, interval: u16, elements: &[u8]) -> Vec<u8> {
    let mut frame = header(subtype, da);
    frame.extend_from_slice(&[1, 2, 3, 4, 5, 6, 7, 8]);
    frame.extend_from_slice(&interval.to_le_bytes());
    frame.extend_from_slice(&[0x0C, 0x0D]);
    frame.extend_from_slice(elements);
    frame
}

/// The same frame, sent by a station of the IBSS.
pub(crate) fn sent_by(sender: Address, frame: &[u8]) -> Vec<u8> {
    let mut frame = frame.to_vec();
    frame[10..16].copy_from_slice(&sender);
    frame[16..22].copy_from_slice(&CELL);
    frame
}

/// An IBSS DFS element; the pairs are their octets.
pub(crate) fn dfs(owner: Address, recovery: u8, pairs: &[u8]) -> Vec<u8> {
    element_octets(41, &[&owner[..], &[recovery], pairs].concat())
}

/// A Quiet element.
pub(crate) fn quiet(count: u8, period: u8, duration: u16, offset: u16) -> Vec<u8> {
    let mut element = vec![40, 6, count, period];
    element.extend_from_slice(&duration.to_le_bytes());
    element.extend_from_slice(&offset.to_le_bytes());
    element
}

/// A Measurement Request element that measures.
pub(crate) fn measure(token: u8, kind: u8, channel: u8, start: u64, duration: u16) -> Vec<u8> {
    let mut element = vec![38, 14, token, 0, kind, channel];
    element.extend_from_slice(&start.to_le_bytes());
    element.extend_from_slice(&duration.to_le_bytes());
    element
}

/// A vendor's element.
pub(crate) fn vendor(contents: &[u8]) -> Vec<u8> {
    element_octets(221, contents)
}

/// A capture record.
pub(crate) fn record(kind: u8, contents: &[u8]) -> Vec<u8> {
    let mut record = vec![kind];
    record.extend_from_slice(&(contents.len() as u16).to_le_bytes());
    record.extend_from_slice(contents);
    record
}

/// A start record.
pub(crate) fn start(own: Address, ap: Address, channel: u8, interval: u16) -> Vec<u8> {
    let mut contents = own.to_vec();
    contents.extend_from_slice(&ap);
    contents.push(channel);
    contents.extend_from_slice(&interval.to_le_bytes());
    record(4, &contents)
}

/// A whole block around these records; the octets past them are 0xA5.
pub(crate) fn block(records: &[Vec<u8>]) -> Vec<u8> {
    let used: Vec<u8> = records.concat();
    let mut block = (used.len() as u16).to_le_bytes().to_vec();
    block.extend_from_slice(&used);
    block.resize(510, 0xA5);
    seal(&mut block);
    block
}

/// Gives 510 octets their check, or puts the check of a block right again.
pub(crate) fn seal(block: &mut Vec<u8>) {
    block.truncate(510);
    let mut check = 1u16;
    for &octet in block.iter() {
        check = check.wrapping_add(u16::from(octet));
    }
    block.extend_from_slice(&check.to_le_bytes());
}

/// A small generator of numbers for tests (xorshift).
pub(crate) struct Dice(pub(crate) u64);

impl Dice {
    pub(crate) fn roll(&mut self, sides: u64) -> u64 {
        self.0 ^= self.0 << 13;
        self.0 ^= self.0 >> 7;
        self.0 ^= self.0 << 17;
        (self.0 >> 11) % sides
    }
}
