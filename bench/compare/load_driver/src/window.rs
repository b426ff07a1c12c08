//! When a load asks, and which part of that is measured.

use std::sync::atomic::{AtomicBool, AtomicU64, Ordering::Relaxed};
use std::time::{Duration, Instant};

/// The time of a load, which all threads share. It ends early when all its asks are asked.
pub struct Window {
    start: Instant,
    // When the warm-up is over, and when all is over, unless that is sooner.
    warm: Instant,
    latest: Instant,
    left: AtomicU64,
    // How many nanoseconds after the start no ask was left.
    ran_out: AtomicU64,
    is_given_up: AtomicBool,
}

impl Window {
    pub fn new(start: Instant, warm_up: Duration, measured: Duration, asks: u64) -> Window {
        Window {
            start,
            warm: start + warm_up,
            latest: start + warm_up + measured,
            left: AtomicU64::new(asks),
            ran_out: AtomicU64::new(u64::MAX),
            is_given_up: AtomicBool::new(false),
        }
    }

    /// Whether so many asks may be asked now; they count then.
    pub fn takes(&self, now: Instant, asks: u64) -> bool {
        if self.is_over(now) {
            return false;
        }
        let taken = self
            .left
            .fetch_update(Relaxed, Relaxed, |left| left.checked_sub(asks));
        if taken.is_err() {
            let passed = now.saturating_duration_since(self.start).as_nanos() as u64;
            self.ran_out.fetch_min(passed, Relaxed);
        }
        taken.is_ok()
    }

    pub fn end(&self) -> Instant {
        let passed = Duration::from_nanos(self.ran_out.load(Relaxed));
        self.start
            .checked_add(passed)
            .map_or(self.latest, |ran_out| ran_out.min(self.latest))
    }

    pub fn is_over(&self, now: Instant) -> bool {
        now >= self.end()
    }

    /// Whether what happens then is measured.
    pub fn measures(&self, when: Instant) -> bool {
        when >= self.warm && when < self.end()
    }

    /// Whether some of this time is measured.
    pub fn touches(&self, begun: Instant, ended: Instant) -> bool {
        begun < self.end() && ended >= self.warm
    }

    /// How long was measured.
    pub fn measured(&self) -> Duration {
        self.end().saturating_duration_since(self.warm)
    }

    /// Has all threads end, since one of them found a fault.
    pub fn give_up(&self) {
        self.is_given_up.store(true, Relaxed);
    }

    pub fn is_given_up(&self) -> bool {
        self.is_given_up.load(Relaxed)
    }
}
