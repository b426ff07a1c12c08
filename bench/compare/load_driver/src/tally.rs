//! What a load counts.

use crate::histogram::Histogram;
use crate::reply::{REPLIES, Reply};

#[derive(Clone, Debug, Default)]
pub struct Tally {
    replies: [u64; REPLIES],
    /// Asks whose batch was answered while it was measured.
    pub answered: u64,
    /// Asks that were due before the end, and for which a client had no time.
    pub unsent: u64,
    /// How long the batches took that weren't answered at its start, and begun before its end.
    pub latencies: Histogram,
}

impl Tally {
    pub fn count(&mut self, reply: Reply) {
        self.replies[reply as usize] += 1;
    }

    pub fn merge(&mut self, other: &Tally) {
        for (mine, theirs) in self.replies.iter_mut().zip(other.replies) {
            *mine += theirs;
        }
        self.answered += other.answered;
        self.unsent += other.unsent;
        self.latencies.merge(&other.latencies);
    }

    /// How often each reply came, the warm-up included.
    pub fn replies(&self) -> impl Iterator<Item = (Reply, u64)> {
        Reply::ALL.into_iter().zip(self.replies)
    }
}
