//! Asks of Redis: a counter of each client's own, or a procedure in Lua that the server has.

use crate::ask::{Asked, Call, Client, Key, Request};
use crate::protocol::{Answer, Protocol, Wrong};
use crate::reply::Reply;
use std::io::{self, Read, Write};
use std::net::TcpStream;

const OK: &[u8] = b"+OK\r\n";
const END: &[u8] = b"\r\n";

/// `INCR` of a counter, which has the number of the last request: so each answer says which request
/// it is of.
pub struct Counters {
    pub from: Request,
}

impl Protocol for Counters {
    fn greet(&self, line: &mut TcpStream, client: Client) -> io::Result<()> {
        let (key, before) = (counter(client), i64::from(self.from.0) - 1);
        write!(line, "SET {key} {before}\r\n")?;
        let mut told = [0; OK.len()];
        line.read_exact(&mut told)?;
        if told == OK {
            Ok(())
        } else {
            Err(io::Error::other("SET was refused"))
        }
    }

    fn spell(&self, key: Key, _call: &Call, out: &mut Vec<u8>) {
        push_count(b'*', 2, out);
        push_text(b"INCR", out);
        let client = u64::from(key.client.0);
        push_count(b'$', COUNTER.len() as u64 + digits(client), out);
        out.extend_from_slice(COUNTER.as_bytes());
        push_number(client, out);
        out.extend_from_slice(END);
    }

    fn read(&self, bytes: &[u8], asked: Asked) -> Result<Option<Answer>, Wrong> {
        let Some((value, length)) = number(b':', bytes)? else {
            return Ok(None);
        };
        let reply = Reply::Done;
        if value == u64::from(asked.key.request.0) {
            Ok(Some(Answer { reply, length }))
        } else {
            Err(Wrong)
        }
    }
}

const COUNTER: &str = "load:";

fn counter(client: Client) -> String {
    format!("{COUNTER}{}", client.0)
}

/// A procedure by its digest. It gets a client, a request, a kind, two names and an amount, and answers
/// in words.
pub struct Procedure {
    pub digest: String,
}

impl Protocol for Procedure {
    fn spell(&self, key: Key, call: &Call, out: &mut Vec<u8>) {
        push_count(b'*', 9, out);
        push_text(b"EVALSHA", out);
        push_text(self.digest.as_bytes(), out);
        push_text(b"0", out);
        push_number_text(u64::from(key.client.0), out);
        push_number_text(u64::from(key.request.0), out);
        push_text(call.kind.word().as_bytes(), out);
        push_text(call.giver.as_bytes(), out);
        push_text(call.taker.map_or(b"", |taker| taker.as_bytes()), out);
        let amount = call.kind.amount().map_or(0, |amount| amount.0);
        push_number_text(amount.unsigned_abs(), out);
    }

    fn read(&self, bytes: &[u8], asked: Asked) -> Result<Option<Answer>, Wrong> {
        let Some((size, start)) = number(b'$', bytes)? else {
            return Ok(None);
        };
        let size = usize::try_from(size).map_err(|_| Wrong)?;
        let Some((text, behind)) = bytes[start..].split_at_checked(size) else {
            return Ok(None);
        };
        if behind.len() < END.len() {
            return Ok(None);
        }
        let reply = Reply::of_words(text).filter(|reply| reply.fits(asked.kind));
        let length = start + size + END.len();
        reply
            .filter(|_| behind.starts_with(END))
            .map(|reply| Some(Answer { reply, length }))
            .ok_or(Wrong)
    }
}

fn push_count(sign: u8, count: u64, out: &mut Vec<u8>) {
    out.push(sign);
    push_number(count, out);
    out.extend_from_slice(END);
}

fn push_text(text: &[u8], out: &mut Vec<u8>) {
    push_count(b'$', text.len() as u64, out);
    out.extend_from_slice(text);
    out.extend_from_slice(END);
}

fn push_number_text(number: u64, out: &mut Vec<u8>) {
    push_count(b'$', digits(number), out);
    push_number(number, out);
    out.extend_from_slice(END);
}

/// Appends a number's digits.
pub fn push_number(number: u64, out: &mut Vec<u8>) {
    write!(out, "{number}").expect("a list of bytes takes all");
}

/// How many digits a number has.
pub fn digits(number: u64) -> u64 {
    u64::from(number.checked_ilog10().unwrap_or(0)) + 1
}

// The number of a line that begins with this sign, and the line's length; `None` if it isn't whole yet.
fn number(sign: u8, bytes: &[u8]) -> Result<Option<(u64, usize)>, Wrong> {
    const LONGEST: usize = 24;
    if bytes.first().is_some_and(|first| *first != sign) {
        return Err(Wrong);
    }
    let seen = &bytes[..bytes.len().min(LONGEST)];
    let Some(end) = seen.windows(2).position(|pair| pair == END) else {
        return if seen.len() < LONGEST {
            Ok(None)
        } else {
            Err(Wrong)
        };
    };
    let text = str::from_utf8(&bytes[1..end]).map_err(|_| Wrong)?;
    let value = text.parse().map_err(|_| Wrong)?;
    Ok(Some((value, end + END.len())))
}
