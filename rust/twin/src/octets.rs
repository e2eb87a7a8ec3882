//! Small help with octets: least significant first, as in the base standard.

use crate::answer::BUFFER_SHORT;

/// The two octets at `at`; the caller has checked that they are there.
pub(crate) fn u16_at(octets: &[u8], at: usize) -> u16 {
    u16::from_le_bytes([octets[at], octets[at + 1]])
}

/// The eight octets at `at`; the caller has checked that they are there.
pub(crate) fn u64_at(octets: &[u8], at: usize) -> u64 {
    let mut eight = [0; 8];
    eight.copy_from_slice(&octets[at..at + 8]);
    u64::from_le_bytes(eight)
}

/// Copies `octets` to the front of `out` and answers how many there are.
///
/// All writers end here: what is to be written is complete before `out` is
/// touched, so that a refusal leaves it alone ("Write: 16, 13").
pub(crate) fn lay(octets: &[u8], out: &mut [u8]) -> Result<usize, u8> {
    match out.get_mut(..octets.len()) {
        None => Err(BUFFER_SHORT),
        Some(front) => {
            front.copy_from_slice(octets);
            Ok(octets.len())
        }
    }
}
