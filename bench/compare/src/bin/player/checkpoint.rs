//! Checkpoints in bytes.

use crate::bank::{LIMIT, Reply};
use crate::board::Board;
use crate::frame::{REPLY, reply_cells, reply_of};

// The first layout is only read. The second one has the opening total after the total.
const FIRST: &[u8; 8] = b"SBCKPT01";
const SECOND: &[u8; 8] = b"SBCKPT02";
const HEAD: usize = 20;
const AMOUNT: usize = 8;
const LOG_CALLS: usize = 1_000_000;

/// The balances and replies of a replica up to a length.
pub struct Checkpoint {
    /// For each customer savings, then checking.
    pub balances: Vec<i64>,
    pub replies: Vec<Reply>,
}

impl Checkpoint {
    pub fn length(&self) -> u64 {
        self.replies.len() as u64
    }

    /// A board that goes on from here.
    pub fn board(self) -> Board {
        Board::open(self.balances, self.replies)
    }
}

/// The bytes of these balances and replies, for a bank that opened with this total.
pub fn write(
    balances: &[i64],
    opening_total: i64,
    replies: impl ExactSizeIterator<Item = Reply>,
) -> Vec<u8> {
    let customers = balances.len() / 2;
    let size = HEAD + AMOUNT * (balances.len() + 2) + REPLY * replies.len();
    let mut bytes = Vec::with_capacity(size);
    bytes.extend_from_slice(SECOND);
    bytes.extend_from_slice(&(replies.len() as u64).to_be_bytes());
    bytes.extend_from_slice(&(customers as u32).to_be_bytes());
    push_columns(&mut bytes, balances);
    bytes.extend_from_slice(&opening_total.to_be_bytes());
    for reply in replies {
        bytes.extend_from_slice(&reply_cells(reply));
    }
    bytes
}

// Both columns, and their total.
fn push_columns(bytes: &mut Vec<u8>, balances: &[i64]) {
    let savings = balances.iter().step_by(2);
    let checking = balances.iter().skip(1).step_by(2);
    for amount in savings.chain(checking) {
        bytes.extend_from_slice(&amount.to_be_bytes());
    }
    bytes.extend_from_slice(&balances.iter().sum::<i64>().to_be_bytes());
}

/// The checkpoint that these bytes spell, for this many customers and this opening total.
pub fn read(bytes: &[u8], customers: usize, opening_total: i64) -> Option<Checkpoint> {
    let (head, body) = bytes.split_first_chunk::<HEAD>()?;
    let (magic, head) = head.split_first_chunk()?;
    let (length, stated) = head.split_first_chunk()?;
    let length = usize::try_from(u64::from_be_bytes(*length)).ok()?;
    let stated = u32::from_be_bytes(stated.try_into().ok()?);
    if stated as usize != customers || length > LOG_CALLS {
        return None;
    }
    let (columns, body) = body.split_at_checked(2 * AMOUNT * customers)?;
    let (total, cells) = body.split_first_chunk()?;
    let balances = balances(columns, customers)?;
    if i64::from_be_bytes(*total) != balances.iter().sum::<i64>() {
        return None;
    }
    let cells = behind_totals(magic, cells, opening_total)?;
    let (cells, rest) = cells.as_chunks::<REPLY>();
    if cells.len() != length || !rest.is_empty() {
        return None;
    }
    let replies = cells.iter().map(reply_of).collect::<Option<_>>()?;
    Some(Checkpoint { balances, replies })
}

// What follows the opening total, if the layout has one.
fn behind_totals<'a>(magic: &[u8; 8], cells: &'a [u8], opening_total: i64) -> Option<&'a [u8]> {
    match magic {
        FIRST => Some(cells),
        SECOND => {
            let (stated, cells) = cells.split_first_chunk()?;
            (i64::from_be_bytes(*stated) == opening_total).then_some(cells)
        }
        _ => None,
    }
}

fn balances(columns: &[u8], customers: usize) -> Option<Vec<i64>> {
    let (cells, _) = columns.as_chunks::<AMOUNT>();
    let (savings, checking) = cells.split_at(customers);
    let mut balances = Vec::with_capacity(cells.len());
    for (savings, checking) in savings.iter().zip(checking) {
        let savings = i64::from_be_bytes(*savings);
        let checking = i64::from_be_bytes(*checking);
        if !(0..=LIMIT).contains(&savings) || !(-LIMIT..=LIMIT).contains(&checking) {
            return None;
        }
        balances.extend([savings, checking]);
    }
    Some(balances)
}
