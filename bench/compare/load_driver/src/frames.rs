//! Asks and outcomes as frames, the way of `smallbank serve`.

use crate::ask::{Asked, Call, Key};
use crate::customers::Name;
use crate::protocol::{Answer, Protocol, Wrong};
use crate::reply::Reply;

const ASK: u8 = 1;
const OUTCOME: u8 = 5;
const FLUSH: [u8; 3] = [0, 1, 6];

// An outcome's length, tag and key; then come its status, code and total.
const HEAD: usize = 2 + 1 + 4 + 4;
const WHOLE: usize = HEAD + 1 + 1 + 8;

// A total is of two balances, each at most this.
const LIMIT: i64 = 1_000_000_000_000;

pub struct Frames;

impl Protocol for Frames {
    fn spell(&self, key: Key, call: &Call, out: &mut Vec<u8>) {
        let start = out.len();
        out.extend_from_slice(&[0, 0, ASK]);
        out.extend_from_slice(&key.client.0.to_be_bytes());
        out.extend_from_slice(&key.request.0.to_be_bytes());
        out.push(call.kind as u8);
        push_name(call.giver, out);
        if let Some(taker) = call.taker {
            push_name(taker, out);
        }
        if let Some(amount) = call.kind.amount() {
            out.extend_from_slice(&amount.0.to_be_bytes());
        }
        let length = (out.len() - start - 2) as u16;
        out[start..start + 2].copy_from_slice(&length.to_be_bytes());
    }

    fn end_batch(&self, out: &mut Vec<u8>) {
        out.extend_from_slice(&FLUSH);
    }

    fn read(&self, bytes: &[u8], asked: Asked) -> Result<Option<Answer>, Wrong> {
        let expected = head(asked.key);
        let seen = bytes.len().min(HEAD);
        if bytes[..seen] != expected[..seen] {
            return Err(Wrong);
        }
        let Some(whole) = bytes.first_chunk::<WHOLE>() else {
            return Ok(None);
        };
        let reply = reply(&whole[HEAD..]).filter(|reply| reply.fits(asked.kind));
        let length = WHOLE;
        reply
            .map(|reply| Some(Answer { reply, length }))
            .ok_or(Wrong)
    }

    // As much as one outcome, in hexadecimal.
    fn told(&self, bytes: &[u8]) -> String {
        let seen = &bytes[..bytes.len().min(WHOLE)];
        seen.iter().map(|byte| format!("{byte:02x}")).collect()
    }
}

fn push_name(name: &Name, out: &mut Vec<u8>) {
    let bytes = name.as_bytes();
    out.push(bytes.len() as u8);
    out.extend_from_slice(bytes);
}

// How the outcome of an ask begins.
fn head(key: Key) -> [u8; HEAD] {
    let mut head = [0, (WHOLE - 2) as u8, OUTCOME, 0, 0, 0, 0, 0, 0, 0, 0];
    head[3..7].copy_from_slice(&key.client.0.to_be_bytes());
    head[7..].copy_from_slice(&key.request.0.to_be_bytes());
    head
}

// What a status, a code and a total say.
fn reply(bytes: &[u8]) -> Option<Reply> {
    let ([status, code], total) = bytes.split_first_chunk()?;
    let total = i64::from_be_bytes(*total.first_chunk()?);
    match (status, code) {
        (0, 0) => (-2 * LIMIT..=2 * LIMIT)
            .contains(&total)
            .then_some(Reply::Shown),
        _ if total != 0 => None,
        (0, code) => Reply::of_code(*code),
        (1, 0) => Some(Reply::Mismatch),
        (2, 0) => Some(Reply::LogFull),
        _ => None,
    }
}
