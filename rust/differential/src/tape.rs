//! Captures of the test's own making: records, laid into blocks that are
//! right, or wrong in every way that a block can be.

use crate::rng::Rng;

pub const BLOCK: usize = 512;
/// Where the payload begins, how much of it there is, where the check stands.
pub const PAYLOAD: usize = 2;
pub const ROOM: usize = 508;
const CHECK: usize = 510;

/// Kind and length of a record.
pub const HEAD: usize = 3;

pub const ADVANCE: u8 = 1;
pub const FRAME: u8 = 2;
pub const ASK: u8 = 3;
pub const START: u8 = 4;

/// A record, with the length that its contents have.
pub fn record(kind: u8, contents: &[u8]) -> Vec<u8> {
    record_saying(kind, contents.len() as u16, contents)
}

/// A record with any length.
pub fn record_saying(kind: u8, length: u16, contents: &[u8]) -> Vec<u8> {
    let mut record = vec![kind];
    record.extend_from_slice(&length.to_le_bytes());
    record.extend_from_slice(contents);
    record
}

/// A block with this used length in front; what is said to be used need not be
/// what is there. The octets past the payload are `filler`.
pub fn block(used: u16, payload: &[u8], filler: u8) -> Vec<u8> {
    let mut block = used.to_le_bytes().to_vec();
    block.extend_from_slice(payload);
    block.resize(BLOCK, filler);
    seal(&mut block);
    block
}

/// A block of these records, which is all right.
pub fn sound(records: &[Vec<u8>]) -> Vec<u8> {
    let payload = records.concat();
    block(payload.len() as u16, &payload, 0)
}

/// 1 plus the sum of octets 0 to 509, modulo 65,536.
fn check(block: &[u8]) -> u16 {
    let sum = |sum: u16, &octet| sum.wrapping_add(u16::from(octet));
    block[..CHECK].iter().fold(1, sum)
}

/// Puts the check of a block right.
pub fn seal(block: &mut [u8]) {
    let check = check(block);
    block[CHECK..BLOCK].copy_from_slice(&check.to_le_bytes());
}

/// A capture that grows.
pub struct Tape {
    file: Vec<u8>,
    payload: Vec<u8>,
}

impl Tape {
    pub fn new() -> Tape {
        Tape {
            file: Vec::new(),
            payload: Vec::new(),
        }
    }

    /// Puts a record into the block, or into the next one if it does not fit.
    pub fn put(&mut self, rng: &mut Rng, record: &[u8]) {
        if self.payload.len() + record.len() > ROOM {
            self.close(rng);
        }
        self.payload.extend_from_slice(record);
    }

    /// Puts a malformed record: of a kind that is not known, of a wrong length,
    /// or one that runs past the used length, with its head or its contents.
    pub fn put_malformed(&mut self, rng: &mut Rng) {
        let some = rng.u16();
        let contents = rng.octets(20);
        let record = match rng.below(5) {
            0 => {
                let kind = rng.pick(&[0, 5, 6, 128, 255]);
                let length = rng.pick(&[0, 2, 15]);
                record(kind, &contents[..length])
            }
            1 => {
                let length = rng.pick(&[0, 1, 3, 15]);
                record(rng.pick(&[ADVANCE, ASK]), &contents[..length])
            }
            2 => {
                let length = rng.pick(&[0, 2, 14, 16]);
                record(START, &contents[..length])
            }
            3 => {
                let length = rng.pick(&[ROOM as u16, 511, 65_535, some | 512]);
                record_saying(rng.pick(&[ADVANCE, FRAME, ASK, START]), length, &contents)
            }
            _ => {
                // The block ends in the midst of it.
                let whole = [record(ADVANCE, &[0, 0]), record(FRAME, &contents)];
                let whole = &whole[rng.place(2)];
                let length = 1 + rng.place(whole.len() - 1);
                self.put(rng, &whole[..length]);
                self.close(rng);
                return;
            }
        };
        self.put(rng, &record);
    }

    /// Ends the block. What is past the used length is covered by the check and
    /// otherwise not looked at, so it can be anything; octets of 255 make the
    /// sum pass 65,536.
    pub fn close(&mut self, rng: &mut Rng) {
        let used = self.payload.len();
        match rng.below(4) {
            0 => self.payload.resize(ROOM, 0),
            1 => self.payload.resize(ROOM, 255),
            2 => self.payload.extend_from_slice(&rng.octets(ROOM - used)),
            _ => {
                // What looks like further records.
                while self.payload.len() < ROOM {
                    self.payload.extend_from_slice(&record(ASK, &[1, 0]));
                }
                self.payload.truncate(ROOM);
            }
        }
        self.file
            .extend_from_slice(&block(used as u16, &self.payload, 0));
        self.payload.clear();
    }

    /// Ends the block, and damages it.
    pub fn close_damaged(&mut self, rng: &mut Rng) {
        self.close(rng);
        let start = self.file.len() - BLOCK;
        damage(rng, &mut self.file[start..]);
    }

    pub fn finish(mut self, rng: &mut Rng) -> Vec<u8> {
        if !self.payload.is_empty() {
            self.close(rng);
        }
        self.file
    }
}

/// A wrong check (off by one, without its 1, its octets exchanged, an octet of
/// the block changed after it), or a used length over 508.
pub fn damage(rng: &mut Rng, block: &mut [u8]) {
    let check = check(block);
    let wrong = match rng.below(6) {
        0 => check.wrapping_sub(1),
        1 => check.wrapping_add(1),
        2 if check.swap_bytes() != check => check.swap_bytes(),
        3 => check.wrapping_add(rng.between(1, 65_535) as u16),
        4 => {
            let some = rng.between(509, 65_535) as u16;
            let used: u16 = rng.pick(&[509, 510, 512, some, 65_535]);
            block[..PAYLOAD].copy_from_slice(&used.to_le_bytes());
            seal(block);
            return;
        }
        _ => {
            block[rng.place(CHECK)] ^= 1 << rng.below(8);
            return;
        }
    };
    block[CHECK..BLOCK].copy_from_slice(&wrong.to_le_bytes());
}
