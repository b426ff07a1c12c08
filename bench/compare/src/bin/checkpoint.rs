//! What `store_timing write` and `store_timing read` do, in plain Rust: nothing proved, std alone,
//! written for speed. The format, the checks and the printed line are the same.

use std::fmt;
use std::hint::black_box;
use std::process::ExitCode;
use std::time::{Duration, Instant};

const LIMIT: i64 = 1_000_000_000_000;
const CUSTOMERS: usize = 65_536;
const LOG_CALLS: usize = 1_000_000;

// The first layout is only read. The second one has the opening total after the total.
const FIRST: &[u8; 8] = b"SBCKPT01";
const SECOND: &[u8; 8] = b"SBCKPT02";
const HEAD: usize = 20;
const AMOUNT: usize = 8;
const REPLY: usize = 9;

// What each customer has, in cents.
const SAVINGS: i64 = 100_025;
const CHECKING: i64 = -20_075;

// What the bank had at its opening.
const OPENING_TOTAL: i64 = CUSTOMERS as i64 * (SAVINGS + CHECKING);

#[derive(Clone, Copy, Debug, PartialEq, Eq)]
enum Reply {
    Shown(i64),
    Done,
    Penalised,
    NoCustomer,
    SameCustomer,
    Negative,
    WouldOverdraw,
    OverLimit,
}

/// The balances and replies of an idle replica.
#[derive(Debug, PartialEq, Eq)]
struct Checkpoint {
    savings: Vec<i64>,
    checking: Vec<i64>,
    replies: Vec<Reply>,
}

/// Why bytes aren't a checkpoint.
#[derive(Debug, Clone, Copy, PartialEq, Eq)]
enum Fault {
    BadMagic,
    Short,
    WrongCustomers,
    OutOfRange,
    NegativeSavings,
    WrongTotal,
    WrongOpening,
    BadReply,
    Long,
}

impl fmt::Display for Fault {
    fn fmt(&self, f: &mut fmt::Formatter<'_>) -> fmt::Result {
        f.write_str(match self {
            Fault::BadMagic => "bad magic",
            Fault::Short => "short",
            Fault::WrongCustomers => "wrong customers",
            Fault::OutOfRange => "out of range",
            Fault::NegativeSavings => "negative savings",
            Fault::WrongTotal => "wrong total",
            Fault::WrongOpening => "wrong opening",
            Fault::BadReply => "bad reply",
            Fault::Long => "long",
        })
    }
}

// ---- writing

fn code_and_total(reply: Reply) -> (u8, i64) {
    match reply {
        Reply::Shown(total) => (0, total),
        Reply::Done => (1, 0),
        Reply::Penalised => (2, 0),
        Reply::NoCustomer => (3, 0),
        Reply::SameCustomer => (4, 0),
        Reply::Negative => (5, 0),
        Reply::WouldOverdraw => (6, 0),
        Reply::OverLimit => (7, 0),
    }
}

fn total(checkpoint: &Checkpoint) -> i64 {
    checkpoint.savings.iter().sum::<i64>() + checkpoint.checking.iter().sum::<i64>()
}

fn write(checkpoint: &Checkpoint, opening_total: i64) -> Vec<u8> {
    let customers = checkpoint.savings.len();
    let replies = &checkpoint.replies;
    let size = HEAD + AMOUNT * (2 * customers + 2) + REPLY * replies.len();
    let mut bytes = Vec::with_capacity(size);
    bytes.extend_from_slice(SECOND);
    bytes.extend_from_slice(&(replies.len() as u64).to_be_bytes());
    bytes.extend_from_slice(&(customers as u32).to_be_bytes());
    for amount in checkpoint.savings.iter().chain(&checkpoint.checking) {
        bytes.extend_from_slice(&amount.to_be_bytes());
    }
    bytes.extend_from_slice(&total(checkpoint).to_be_bytes());
    bytes.extend_from_slice(&opening_total.to_be_bytes());
    for reply in replies {
        let (code, total) = code_and_total(*reply);
        let mut cells = [code; REPLY];
        cells[1..].copy_from_slice(&total.to_be_bytes());
        bytes.extend_from_slice(&cells);
    }
    bytes
}

// ---- reading

fn amounts(bytes: &[u8]) -> Vec<i64> {
    let (cells, _) = bytes.as_chunks::<AMOUNT>();
    cells
        .iter()
        .map(|cells| i64::from_be_bytes(*cells))
        .collect()
}

fn plain_reply(code: u8) -> Option<Reply> {
    match code {
        1 => Some(Reply::Done),
        2 => Some(Reply::Penalised),
        3 => Some(Reply::NoCustomer),
        4 => Some(Reply::SameCustomer),
        5 => Some(Reply::Negative),
        6 => Some(Reply::WouldOverdraw),
        7 => Some(Reply::OverLimit),
        _ => None,
    }
}

fn reply(cells: &[u8; REPLY]) -> Option<Reply> {
    let [code, total @ ..] = *cells;
    let total = i64::from_be_bytes(total);
    if code == 0 {
        (-2 * LIMIT..=2 * LIMIT)
            .contains(&total)
            .then_some(Reply::Shown(total))
    } else if total == 0 {
        plain_reply(code)
    } else {
        None
    }
}

fn is_past_limit(amounts: &[i64]) -> bool {
    amounts
        .iter()
        .any(|amount| !(-LIMIT..=LIMIT).contains(amount))
}

// How many amounts follow the columns, if the magic is one of the two, or the beginning of one.
fn totals(bytes: &[u8]) -> Option<usize> {
    let magic = &bytes[..bytes.len().min(FIRST.len())];
    if FIRST.starts_with(magic) {
        Some(1)
    } else {
        SECOND.starts_with(magic).then_some(2)
    }
}

fn read(bytes: &[u8], customers: usize, opening_total: i64) -> Result<Checkpoint, Fault> {
    let totals = totals(bytes).ok_or(Fault::BadMagic)?;
    let Some((head, body)) = bytes.split_at_checked(HEAD) else {
        return Err(Fault::Short);
    };
    let length = u64::from_be_bytes(head[8..16].try_into().unwrap());
    let stated = u32::from_be_bytes(head[16..].try_into().unwrap());
    let amount_cells = 2 * u128::from(stated) + totals as u128;
    let size = AMOUNT as u128 * amount_cells + REPLY as u128 * u128::from(length);
    if (body.len() as u128) < size {
        return Err(Fault::Short);
    }
    if stated as usize != customers {
        return Err(Fault::WrongCustomers);
    }
    let (savings, body) = body.split_at(AMOUNT * customers);
    let (checking, body) = body.split_at(AMOUNT * customers);
    let (stated_totals, body) = body.split_at(AMOUNT * totals);
    let (cells, rest) = body.split_at(REPLY * length as usize);
    let (savings, checking) = (amounts(savings), amounts(checking));
    if is_past_limit(&savings) || is_past_limit(&checking) {
        return Err(Fault::OutOfRange);
    }
    if savings.iter().any(|amount| *amount < 0) {
        return Err(Fault::NegativeSavings);
    }
    let checkpoint = Checkpoint {
        savings,
        checking,
        replies: Vec::new(),
    };
    let stated_totals = amounts(stated_totals);
    if stated_totals[0] != total(&checkpoint) {
        return Err(Fault::WrongTotal);
    }
    if stated_totals
        .get(1)
        .is_some_and(|stated| *stated != opening_total)
    {
        return Err(Fault::WrongOpening);
    }
    let (cells, _) = cells.as_chunks::<REPLY>();
    let mut replies = Vec::with_capacity(cells.len());
    for cells in cells {
        let Some(reply) = reply(cells) else {
            return Err(Fault::BadReply);
        };
        replies.push(reply);
    }
    if replies.len() > LOG_CALLS || !rest.is_empty() {
        return Err(Fault::Long);
    }
    Ok(Checkpoint {
        replies,
        ..checkpoint
    })
}

// ---- what is measured

fn largest() -> Checkpoint {
    let reply = |place| match place % 3 {
        0 => Reply::Shown(place),
        1 => Reply::Done,
        _ => Reply::WouldOverdraw,
    };
    Checkpoint {
        savings: vec![SAVINGS; CUSTOMERS],
        checking: vec![CHECKING; CUSTOMERS],
        replies: (0..LOG_CALLS as i64).map(reply).collect(),
    }
}

fn shown(reply: &Reply) -> i64 {
    match reply {
        Reply::Shown(total) => *total,
        _ => 1,
    }
}

fn measure_write(count: u32) -> (usize, i64, Duration) {
    let checkpoint = largest();
    let mut sum = 0;
    let start = Instant::now();
    for _ in 0..count {
        let bytes = black_box(write(black_box(&checkpoint), OPENING_TOTAL));
        sum += bytes.last().map_or(0, |last| i64::from(*last));
    }
    let time = start.elapsed();
    let bytes = write(&checkpoint, OPENING_TOTAL);
    sum += bytes.iter().map(|byte| i64::from(*byte)).sum::<i64>();
    (bytes.len(), sum, time)
}

fn measure_read(count: u32) -> Result<(usize, i64, Duration), Fault> {
    let bytes = write(&largest(), OPENING_TOTAL);
    let mut sum = 0;
    let start = Instant::now();
    for _ in 0..count {
        let checkpoint = black_box(read(black_box(&bytes), CUSTOMERS, OPENING_TOTAL)?);
        sum += checkpoint.replies.last().map_or(0, shown);
    }
    let time = start.elapsed();
    let checkpoint = read(&bytes, CUSTOMERS, OPENING_TOTAL)?;
    sum += total(&checkpoint) + checkpoint.replies.iter().map(shown).sum::<i64>();
    Ok((checkpoint.replies.len(), sum, time))
}

fn main() -> ExitCode {
    let words: Vec<String> = std::env::args().skip(1).collect();
    let (action, count) = match &words[..] {
        [action, number] => (action.as_str(), number.parse::<u32>().ok()),
        _ => ("", None),
    };
    let measured = match (action, count) {
        ("write", Some(count)) => Ok(measure_write(count)),
        ("read", Some(count)) => measure_read(count),
        _ => {
            eprintln!("usage: checkpoint write|read NUMBER");
            return ExitCode::from(2);
        }
    };
    match measured {
        Ok((length, sum, time)) => {
            println!("{length} {sum}");
            eprintln!("{:.3} ms", time.as_secs_f64() * 1e3);
            ExitCode::SUCCESS
        }
        Err(fault) => {
            eprintln!("checkpoint: {fault}");
            ExitCode::from(3)
        }
    }
}

#[cfg(test)]
#[path = "checkpoint/tests.rs"]
mod tests;
