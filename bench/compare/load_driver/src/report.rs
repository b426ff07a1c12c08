//! What is printed of a load.

use crate::load::Measured;
use crate::words::{Store, Words};
use std::fmt::Write;
use std::time::Duration;

const PERCENTILES: [u64; 3] = [50, 95, 99];

/// A table, and a line with what was answered.
pub fn table(words: &Words, measured: &Measured) -> String {
    let tally = &measured.tally;
    let heads = "clients | asks to a flush | seconds | asks a second \
                 | p50 µs | p95 µs | p99 µs | most µs | due, not asked";
    let mut cells = vec![
        words.clients.to_string(),
        thousands(words.flush),
        format!("{:.2}", measured.time.as_secs_f64()),
        thousands(a_second(measured).round() as u64),
    ];
    cells.extend(latencies(measured));
    cells.push(thousands(tally.unsent));
    let rule = "|---".repeat(cells.len());
    let replies: Vec<String> = tally
        .replies()
        .filter(|(_, count)| *count > 0)
        .map(|(reply, count)| format!("{} {}", reply.words(), thousands(count)))
        .collect();
    let (row, replies) = (cells.join(" | "), replies.join(", "));
    format!("| {heads} |\n{rule}|\n| {row} |\n\nReplies, the warm-up's too: {replies}.\n")
}

/// A line of heads, and one of values.
pub fn csv(words: &Words, measured: &Measured) -> String {
    let tally = &measured.tally;
    let mut heads = "protocol,clients,threads,flush,rate,seconds,asks,asks_a_second,\
                     p50_us,p95_us,p99_us,most_us,not_asked"
        .to_owned();
    let mut cells = vec![
        protocol(words).to_owned(),
        words.clients.to_string(),
        words.threads.to_string(),
        words.flush.to_string(),
        words.rate.map_or(String::new(), |rate| rate.to_string()),
        format!("{:.6}", measured.time.as_secs_f64()),
        tally.answered.to_string(),
        format!("{:.1}", a_second(measured)),
    ];
    cells.extend(latencies(measured));
    cells.push(tally.unsent.to_string());
    for (reply, count) in tally.replies() {
        let _ = write!(heads, ",{}", reply.words().replace(' ', "_"));
        cells.push(count.to_string());
    }
    format!("{heads}\n{}\n", cells.join(","))
}

fn protocol(words: &Words) -> &'static str {
    match words.store {
        Store::Frames => "frames",
        Store::RedisCounters => "redis-incr",
        Store::RedisProcedure(_) => "redis-lua",
        Store::Postgres => "postgres",
    }
}

fn a_second(measured: &Measured) -> f64 {
    measured.tally.answered as f64 / measured.time.as_secs_f64()
}

fn latencies(measured: &Measured) -> impl Iterator<Item = String> {
    let taken = &measured.tally.latencies;
    PERCENTILES
        .into_iter()
        .map(|percent| taken.percentile(percent))
        .chain([taken.most()])
        .map(microseconds)
}

fn microseconds(time: Duration) -> String {
    format!("{:.1}", time.as_secs_f64() * 1e6)
}

fn thousands(number: u64) -> String {
    let digits = number.to_string();
    let mut out = String::new();
    for (place, digit) in digits.chars().enumerate() {
        if place > 0 && (digits.len() - place).is_multiple_of(3) {
            out.push(',');
        }
        out.push(digit);
    }
    out
}
