//! When batches of asks are due.

use std::time::{Duration, Instant};

/// A batch: the place of its client among all, and how many batches that client has asked before.
#[derive(Clone, Copy, Debug, PartialEq, Eq)]
pub struct Turn {
    pub place: u64,
    pub round: u64,
}

#[derive(Clone, Copy, Debug)]
pub enum Pace {
    /// A client's batch is due once it has all outcomes of the one before.
    Closed,
    /// The clients take turns, and a batch is due so many nanoseconds after the one before it.
    Open {
        start: Instant,
        gap: f64,
        clients: u64,
    },
}

impl Pace {
    /// When the clock says that a batch is due.
    pub fn due(&self, turn: Turn) -> Option<Instant> {
        match *self {
            Pace::Closed => None,
            Pace::Open {
                start,
                gap,
                clients,
            } => {
                let before = turn.place + turn.round * clients;
                Some(start + Duration::from_nanos((before as f64 * gap) as u64))
            }
        }
    }

    /// Whether a client that waits for nothing may ask.
    pub fn is_due(&self, turn: Turn, now: Instant) -> bool {
        self.due(turn).is_none_or(|due| due <= now)
    }

    /// From when on the time of a batch counts that is asked now: if it is asked late, from when it was
    /// due.
    pub fn begins(&self, turn: Turn) -> Instant {
        self.due(turn).unwrap_or_else(Instant::now)
    }

    /// How many batches of a client, from this one on, are due before the end.
    pub fn due_before(&self, turn: Turn, end: Instant) -> u64 {
        let Pace::Open {
            start,
            gap,
            clients,
        } = *self
        else {
            return 0;
        };
        let passed = end.saturating_duration_since(start).as_nanos() as f64;
        let all = (passed / gap).ceil() as u64;
        let of_client = all.saturating_sub(turn.place).div_ceil(clients);
        of_client.saturating_sub(turn.round)
    }
}
