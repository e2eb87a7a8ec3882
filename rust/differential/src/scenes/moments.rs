//! Moments worth asking at, and steps that lead there.

use crate::rng::Rng;
use twin::Notice;

/// The longest advance, and the longest question.
pub const LONGEST_STEP: u64 = 65_535;

/// Moments at which something may begin or end.
pub struct Moments {
    interval: u16,
    /// How often, of ten times, the clock stays within one beacon interval.
    near: u64,
    /// Where Quiet elements begin and end.
    edges: Vec<u64>,
}

/// Where a station stands.
#[derive(Clone, Copy)]
pub struct Now {
    pub clock: u64,
    /// The moment of its pending switch.
    pub pending: Option<u64>,
}

/// A beacon interval of any length, mostly one that is worth trying.
pub fn some_interval(rng: &mut Rng) -> u16 {
    if rng.one_in(4) {
        rng.between(1, 65_535) as u16
    } else {
        rng.pick(&[1, 2, 3, 7, 10, 100, 100, 100, 100, 1000, 65_535])
    }
}

impl Moments {
    pub fn new(interval: u16, near: u64) -> Moments {
        Moments {
            interval,
            near,
            edges: Vec::new(),
        }
    }

    /// When the Quiet elements begin and end.
    pub fn note(&mut self, clock: u64, notice: &Notice) {
        let b = u64::from(self.interval);
        let latest_tbtt = clock / b * b;
        for quiet in &notice.quiets {
            let start = latest_tbtt + u64::from(quiet.count) * b + u64::from(quiet.offset);
            let end = start + u64::from(quiet.duration);
            let again = u64::from(quiet.period) * b;
            self.edges.extend([start, end, start + again, end + again]);
        }
    }

    pub fn units_to_advance(&mut self, rng: &mut Rng, now: Now) -> u32 {
        let units = if rng.below(10) < self.near {
            self.few_units(rng, now)
        } else {
            self.many_units(rng, now)
        };
        units as u32
    }

    pub fn units_to_ask(&mut self, rng: &mut Rng, now: Now) -> u32 {
        let units = match rng.below(10) {
            0 => 0,
            1 | 2 => 1,
            3 => u64::from(self.interval),
            4 => rng.below(LONGEST_STEP + 1),
            5 => rng.pick(&[LONGEST_STEP, LONGEST_STEP + 1, 4_294_967_295]),
            _ => self.towards_edge(rng, now).unwrap_or(2),
        };
        units as u32
    }

    /// A moment near the clock's limit.
    pub fn late(&self, rng: &mut Rng) -> u32 {
        u32::MAX - rng.below(20 * u64::from(self.interval) + 300) as u32
    }

    /// To about the next TBTT at most.
    fn few_units(&mut self, rng: &mut Rng, now: Now) -> u64 {
        let b = u64::from(self.interval);
        let to_tbtt = b - now.clock % b;
        match rng.below(8) {
            0 => 0,
            1 => 1,
            2 => to_tbtt - 1,
            3 | 4 => to_tbtt,
            5 => to_tbtt + 1,
            6 => self.towards_edge(rng, now).unwrap_or(1),
            _ => rng.below(b),
        }
    }

    fn many_units(&mut self, rng: &mut Rng, now: Now) -> u64 {
        let b = u64::from(self.interval);
        match rng.below(16) {
            0 | 1 => b - 1,
            2 | 3 => b,
            4 | 5 => b + 1,
            6..=8 => rng.between(2, 6) * b,
            9..=11 => self.towards_edge(rng, now).unwrap_or(b),
            12 => rng.below(LONGEST_STEP + 1),
            13 => LONGEST_STEP,
            14 => LONGEST_STEP + 1,
            _ => rng.pick(&[100_000, 4_294_967_295]),
        }
    }

    /// The way to an edge, or one unit less or more.
    fn towards_edge(&mut self, rng: &mut Rng, now: Now) -> Option<u64> {
        let edge = self.edge(rng, now)?;
        let way = edge - now.clock + rng.below(3) - 1;
        Some(way.min(LONGEST_STEP))
    }

    /// A moment that lies ahead, at which something may begin or end.
    fn edge(&mut self, rng: &mut Rng, now: Now) -> Option<u64> {
        self.edges.retain(|&edge| edge > now.clock);
        if self.edges.len() > 12 {
            self.edges.drain(..6);
        }
        if rng.one_in(2) && now.pending.is_some() {
            return now.pending;
        }
        if self.edges.is_empty() {
            return None;
        }
        Some(rng.pick(&self.edges))
    }
}
