//! Busy fraction and RPI densities (802.11h 7.3.2.22.2 and 7.3.2.22.3; the
//! section "Replies" of the document).

use crate::answer::IMPOSSIBLE;

/// 1 TU in microseconds.
pub(crate) const TU: u64 = 1024;

/// The busy fraction: the ceiling of 255 times `busy` microseconds over the
/// `duration` in TU. Duration 0, or more busy time than there was: 16.
pub fn busy_fraction(busy: u32, duration: u16) -> Result<u8, u8> {
    let whole = measured(u64::from(busy), duration)?;
    Ok(ceiling(busy, whole))
}

/// The eight RPI densities, each by the rule of the busy fraction.
/// Duration 0, or times whose sum is over the duration: 16.
pub fn rpi_densities(times: [u32; 8], duration: u16) -> Result<[u8; 8], u8> {
    let sum = times.iter().map(|&time| u64::from(time)).sum();
    let whole = measured(sum, duration)?;
    Ok(times.map(|time| ceiling(time, whole)))
}

/// The measured microseconds, once `sum` microseconds are known to fit in.
fn measured(sum: u64, duration: u16) -> Result<u64, u8> {
    let whole = TU * u64::from(duration);
    if whole == 0 || sum > whole {
        return Err(IMPOSSIBLE);
    }
    Ok(whole)
}

/// The ceiling of 255 times `time` over `whole`, for `time` up to `whole` and
/// `whole` over 0; so it is at most 255 and nothing here overflows.
fn ceiling(time: u32, whole: u64) -> u8 {
    let value = (255 * u64::from(time) + (whole - 1)) / whole;
    u8::try_from(value).unwrap_or(u8::MAX)
}

#[cfg(test)]
mod tests {
    use super::*;

    #[test]
    fn busy_on_both_sides() {
        assert_eq!(busy_fraction(0, 0), Err(16));
        assert_eq!(busy_fraction(0, 1), Ok(0));
        assert_eq!(busy_fraction(1, 1), Ok(1));
        assert_eq!(busy_fraction(1024, 1), Ok(255));
        assert_eq!(busy_fraction(1025, 1), Err(16));
        assert_eq!(busy_fraction(1, 65_535), Ok(1));
        assert_eq!(busy_fraction(67_107_840, 65_535), Ok(255));
        assert_eq!(busy_fraction(67_107_841, 65_535), Err(16));
        assert_eq!(busy_fraction(u32::MAX, 65_535), Err(16));
    }

    #[test]
    fn busy_is_the_ceiling() {
        for duration in [1u16, 2, 3, 7, 255, 1000] {
            let whole = 1024 * u64::from(duration);
            for busy in 0..=whole.min(5000) {
                let value = u64::from(busy_fraction(busy as u32, duration).unwrap());
                // The least number that is not below the quotient.
                assert!(value * whole >= 255 * busy);
                assert!(value == 0 || (value - 1) * whole < 255 * busy);
            }
        }
    }

    #[test]
    fn densities_of_the_document() {
        let times = [129, 129, 129, 129, 129, 129, 125, 125];
        let densities = rpi_densities(times, 1).unwrap();
        assert_eq!(densities, [33, 33, 33, 33, 33, 33, 32, 32]);
        assert_eq!(densities.iter().map(|&d| u32::from(d)).sum::<u32>(), 262);
    }

    #[test]
    fn densities_on_both_sides() {
        assert_eq!(rpi_densities([0; 8], 0), Err(16));
        assert_eq!(rpi_densities([0; 8], 1), Ok([0; 8]));
        assert_eq!(rpi_densities([128; 8], 1), Ok([32; 8]));
        let mut times = [128; 8];
        times[7] = 129;
        assert_eq!(rpi_densities(times, 1), Err(16));
        assert_eq!(rpi_densities([u32::MAX; 8], 65_535), Err(16));
        assert_eq!(
            rpi_densities([0, 0, 0, 0, 0, 0, 0, 1024], 1),
            Ok([0, 0, 0, 0, 0, 0, 0, 255])
        );
    }
}
