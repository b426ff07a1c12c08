//! What the plain programs that do the job of `smallbank run` have in common: limits, and the texts
//! that they read and write.

pub mod bank;
pub mod input;
pub mod output;

/// The largest amount and balance, in cents.
pub const LIMIT: i64 = 1_000_000_000_000;

/// How many calls a log takes.
pub const LOG_CALLS: u32 = 1_000_000;

/// The penalty of a check that is above what is there.
pub const PENALTY: i64 = 100;
