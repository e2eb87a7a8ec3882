//! Buffers that are lent to a call: every octet of them counts afterwards.

use std::fmt;
use std::ops::Range;

/// Octets on both sides of what is lent. They belong to the same allocation,
/// so that a write outside of the buffer changes them instead of other memory.
const GUARD: usize = 32;

/// So many octets of a buffer are told; that is more than the longest frame.
const TOLD: usize = 2500;

/// What a call left: its answer, and every octet of the buffer that it was
/// lent, with the guards, before and after it.
#[derive(PartialEq, Eq)]
pub struct Left {
    pub answer: Result<usize, u8>,
    before: Vec<u8>,
    octets: Vec<u8>,
}

impl Left {
    /// Whether every octet is as it was, as it must be after a refusal.
    pub fn is_as_before(&self) -> bool {
        self.octets == self.before
    }

    /// Whether every octet is as it was but for these of the buffer, which may be
    /// others.
    pub fn is_as_before_but(&self, these: Range<usize>) -> bool {
        let (first, after) = (GUARD + these.start, GUARD + these.end);
        self.octets[..first] == self.before[..first] && self.octets[after..] == self.before[after..]
    }

    /// The octets of the buffer itself.
    pub fn buffer(&self) -> &[u8] {
        &self.octets[GUARD..self.octets.len() - GUARD]
    }

    /// The octets that the call says it has written from the front on.
    pub fn written(&self) -> &[u8] {
        &self.buffer()[..self.answer.unwrap_or(0)]
    }
}

impl fmt::Debug for Left {
    fn fmt(&self, f: &mut fmt::Formatter<'_>) -> fmt::Result {
        let buffer = self.buffer();
        let told = &buffer[..buffer.len().min(TOLD)];
        write!(
            f,
            "{:?}, buffer of {}: {}",
            self.answer,
            buffer.len(),
            hex(told)
        )?;
        let end = self.octets.len() - GUARD;
        let guards = [0..GUARD, end..self.octets.len()];
        for guard in guards {
            if self.octets[guard.clone()] != self.before[guard] {
                write!(f, ", and octets outside of it")?;
            }
        }
        Ok(())
    }
}

/// What a buffer holds before a call. Neighbours differ, and no value that the
/// writers put often (0, or the same octet again and again) fills it, so that
/// an octet that is stored is seen.
fn pattern(place: usize) -> u8 {
    (place.wrapping_mul(151) ^ (place >> 8) ^ 0xA5) as u8
}

/// Lends a buffer of this length that holds the pattern.
pub fn lend(length: usize, call: impl FnOnce(&mut [u8]) -> Result<usize, u8>) -> Left {
    lend_after(&[], length, call)
}

/// Lends a buffer of this length that begins with `front` and goes on with the
/// pattern. A front that is longer than the buffer is cut.
pub fn lend_after(
    front: &[u8],
    length: usize,
    call: impl FnOnce(&mut [u8]) -> Result<usize, u8>,
) -> Left {
    let mut before: Vec<u8> = (0..length + 2 * GUARD).map(pattern).collect();
    let held = front.len().min(length);
    before[GUARD..GUARD + held].copy_from_slice(&front[..held]);
    let mut octets = before.clone();
    let answer = call(&mut octets[GUARD..GUARD + length]);
    Left {
        answer,
        before,
        octets,
    }
}

pub fn hex(octets: &[u8]) -> String {
    octets
        .iter()
        .map(|octet| format!("{:02x}", octet))
        .collect()
}
