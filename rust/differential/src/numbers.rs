//! Busy fractions, densities and centres.

use crate::count::{Call, Count};
use crate::replies::some_times;
use crate::rng::Rng;

const SEED: u64 = 0x8021_1000_2003_0005;

const FRACTIONS: usize = 400_000;
const DENSITIES: usize = 200_000;

/// µs in a TU.
const TU: u32 = 1024;

pub fn run(count: &mut Count) {
    let mut rng = count.begin("numbers", SEED);
    for channel in 0..=255 {
        let (library, twin) = (oneiralth::centre(channel), twin::centre(channel));
        count.values(Call::Number, &library, &twin, || {
            format!("centre of {:x}", channel)
        });
    }
    fractions(count, &mut rng);
    densities(count, &mut rng);
}

fn fraction(count: &mut Count, busy: u32, duration: u16) {
    let library = oneiralth::busy_fraction(busy, duration);
    let twin = twin::busy_fraction(busy, duration);
    count.values(Call::Number, &library, &twin, || {
        format!("{:x} busy of {:x}", busy, duration)
    });
}

/// Every busy time of the shortest durations, the limits of many more, and
/// times around each step from one fraction to the next.
fn fractions(count: &mut Count, rng: &mut Rng) {
    for duration in 0..=3 {
        for busy in 0..=TU * u32::from(duration) + 2 {
            fraction(count, busy, duration);
        }
    }
    for duration in (0..=65_535).step_by(5).chain(65_500..=65_535) {
        let limit = TU * u32::from(duration);
        for busy in [0, 1, limit.saturating_sub(1), limit, limit + 1, u32::MAX] {
            fraction(count, busy, duration);
        }
    }
    for _ in 0..FRACTIONS {
        let some = rng.u16();
        let duration = rng.pick(&[1, 2, 100, 255, some, 65_535]);
        let whole = u64::from(TU) * u64::from(duration);
        // The greatest time that still has this fraction, or one off it.
        let step = (rng.below(256) * whole / 255) as u32;
        let busy = match rng.below(4) {
            0 => step,
            1 => step + 1,
            2 => step.saturating_sub(1),
            _ => rng.u32() % (whole as u32 + 2),
        };
        fraction(count, busy, duration);
    }
}

fn eight(count: &mut Count, times: [u32; 8], duration: u16) {
    let library = oneiralth::rpi_densities(times, duration);
    let twin = twin::rpi_densities(times, duration);
    count.values(Call::Number, &library, &twin, || {
        format!("densities of {:x?} in {:x}", times, duration)
    });
}

/// Sums at the limit, one below and one above; sums that would wrap in 32
/// bits; the greatest sum of densities.
fn densities(count: &mut Count, rng: &mut Rng) {
    eight(count, [129, 129, 129, 129, 129, 129, 125, 125], 1);
    eight(count, [u32::MAX; 8], 65_535);
    eight(count, [1 << 29; 8], 65_535);
    eight(count, [1 << 29, 0, 1 << 31, 0, 1 << 31, 0, 0, 0], 65_535);
    eight(count, [0; 8], 0);
    for duration in [0, 1, 2, 3, 100, 65_535] {
        let limit = TU * u32::from(duration);
        for place in 0..8 {
            for time in [0, 1, limit.saturating_sub(1), limit, limit + 1, u32::MAX] {
                for other in [0, 1, limit] {
                    let mut times = [0; 8];
                    times[(place + 3) % 8] = other;
                    times[place] = time;
                    eight(count, times, duration);
                }
            }
        }
    }
    for _ in 0..DENSITIES {
        let some = rng.u16();
        let duration = rng.pick(&[0, 1, 1, 2, 100, some, some, 65_535]);
        eight(count, some_times(rng, TU * u32::from(duration)), duration);
    }
}
