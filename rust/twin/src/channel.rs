//! Channels and their centres, from the section "Numbers that hold".

use crate::answer::IMPOSSIBLE;
use crate::station::Station;

/// Channels 0 to 200.
const CHANNELS: usize = Station::CHANNEL_LIMIT as usize + 1;

/// The centre of each channel, in MHz: 5000 + 5 times the channel.
pub const CENTRES: [u16; CHANNELS] = centres();

const fn centres() -> [u16; CHANNELS] {
    let mut table = [0; CHANNELS];
    let mut channel = 0;
    while channel < CHANNELS {
        table[channel] = 5000 + 5 * channel as u16;
        channel += 1;
    }
    table
}

/// The centre of `channel` in MHz; over 200 it is 16.
pub fn centre(channel: u8) -> Result<u16, u8> {
    CENTRES.get(usize::from(channel)).copied().ok_or(IMPOSSIBLE)
}

#[cfg(test)]
mod tests {
    use super::*;

    #[test]
    fn every_centre() {
        for channel in 0..=200u8 {
            assert_eq!(centre(channel), Ok(5000 + 5 * u16::from(channel)));
        }
        assert_eq!(centre(0), Ok(5000));
        assert_eq!(centre(36), Ok(5180));
        assert_eq!(centre(200), Ok(6000));
    }

    #[test]
    fn no_centre_over_200() {
        for channel in 201..=255u8 {
            assert_eq!(centre(channel), Err(16));
        }
    }
}
