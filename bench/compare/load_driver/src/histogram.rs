//! How long batches took: counts of durations, in steps of less than one in a hundred.

use std::time::Duration;

// A doubling of the nanoseconds has so many steps.
const STEPS: usize = 1 << STEP_BITS;
const STEP_BITS: u32 = 7;
// Durations below two of them are exact, and each further bit of 64 is a doubling.
const PLACES: usize = STEPS * (64 - STEP_BITS as usize + 1);

/// Takes no memory a duration.
#[derive(Clone, Debug)]
pub struct Histogram {
    counts: Vec<u64>,
    count: u64,
    most: u64,
}

impl Default for Histogram {
    fn default() -> Self {
        Histogram {
            counts: vec![0; PLACES],
            count: 0,
            most: 0,
        }
    }
}

impl Histogram {
    pub fn add(&mut self, took: Duration) {
        let nanoseconds = u64::try_from(took.as_nanos()).unwrap_or(u64::MAX);
        self.counts[place(nanoseconds)] += 1;
        self.count += 1;
        self.most = self.most.max(nanoseconds);
    }

    pub fn merge(&mut self, other: &Histogram) {
        for (mine, theirs) in self.counts.iter_mut().zip(&other.counts) {
            *mine += theirs;
        }
        self.count += other.count;
        self.most = self.most.max(other.most);
    }

    pub fn most(&self) -> Duration {
        Duration::from_nanos(self.most)
    }

    /// The least duration, rounded up by its step, that so many of 100 don't exceed.
    pub fn percentile(&self, percent: u64) -> Duration {
        let rank = (u128::from(self.count) * u128::from(percent)).div_ceil(100);
        let mut seen = 0;
        let reached = self.counts.iter().position(|count| {
            seen += u128::from(*count);
            seen >= rank.max(1)
        });
        let nanoseconds = reached.map_or(self.most, last).min(self.most);
        Duration::from_nanos(nanoseconds)
    }
}

// Where a duration is counted.
fn place(nanoseconds: u64) -> usize {
    let bits = nanoseconds.checked_ilog2().unwrap_or(0);
    let dropped = bits.saturating_sub(STEP_BITS);
    dropped as usize * STEPS + (nanoseconds >> dropped) as usize
}

// The longest duration that is counted at a place.
fn last(place: usize) -> u64 {
    let dropped = (place / STEPS).saturating_sub(1);
    let step = (place - dropped * STEPS) as u128;
    (((step + 1) << dropped) - 1) as u64
}
