//! How often each kind of call is asked.

use crate::ask::{KINDS, Kind};
use crate::random::Random;

/// The most that all weights together may be.
pub const MOST_WEIGHT: u32 = 1_000_000;

/// Weights of the kinds; not all are 0.
#[derive(Clone, Debug, PartialEq, Eq)]
pub struct Mix {
    // Up to which number below the sum of all weights a kind goes, for each of `Kind::ALL`.
    ends: [u32; KINDS],
}

impl Mix {
    /// `None` if all weights are 0, or too large together.
    pub fn new(weights: [u32; KINDS]) -> Option<Mix> {
        let mut sum = 0u32;
        let ends = weights.map(|weight| {
            sum = sum.saturating_add(weight);
            sum
        });
        (1..=MOST_WEIGHT).contains(&sum).then_some(Mix { ends })
    }

    pub fn draw(&self, random: &mut Random) -> Kind {
        let drawn = random.below(self.ends[KINDS - 1]);
        let place = self.ends.partition_point(|end| *end <= drawn);
        Kind::ALL[place]
    }
}

impl Default for Mix {
    /// BenchBase's: a quarter are payments, the others come alike.
    fn default() -> Mix {
        let weights = Kind::ALL.map(|kind| if kind == Kind::Pay { 25 } else { 15 });
        Mix::new(weights).expect("not all are 0")
    }
}
