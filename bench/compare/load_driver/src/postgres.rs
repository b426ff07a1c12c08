//! Asks of PostgreSQL by its extended query protocol: statements that are prepared once, and one
//! transaction for all asks up to a flush.

use crate::ask::{Asked, Call, Client, Key, Kind};
use crate::protocol::{Answer, Protocol, Wrong};
use crate::redis::{digits, push_number};
use crate::reply::Reply;
use std::io::{self, Read, Write};
use std::net::TcpStream;

const VERSION: u32 = 3 << 16;
const WHO: &[u8] = b"user\0postgres\0database\0postgres\0\0";
const LONG: u32 = 20;
const TEXT: u32 = 25;
const TEXTS: u32 = 1009;
const VALUES: [u32; 6] = [LONG, LONG, TEXT, TEXT, TEXT, LONG];
const ASK: &[u8] = b"asking\0SELECT ask($1, $2, $3, $4, $5, $6)\0";
const ASK_LOCKED: &[u8] = b"asking\0SELECT ask_locked($1, $2, $3, $4, $5, $6)\0";
const LOCK: &[u8] = b"locking\0SELECT lock_rows($1)\0";
const SYNC: &[u8] = b"S\0\0\0\x04";
const EXECUTE: &[u8] = b"E\0\0\0\x09\0\0\0\0\0";
const TERMINATE: &[u8] = b"X\0\0\0\x04";

// A message's kind and length.
const HEAD: usize = 1 + 4;
// No message of the server is longer.
const LONGEST: usize = 1 << 14;

/// Two functions that get a client, a request, a kind, two names and an amount, and answer in words.
/// One ask alone goes to `ask`, which locks the rows that it needs. For more there is `lock_rows`,
/// which gets the names of all rows that will be changed and locks them in one order for all clients:
/// else some would wait for one another for ever. Then comes `ask_locked`, for each.
pub struct Postgres {
    pub is_alone: bool,
}

impl Protocol for Postgres {
    /// Whoever connects is trusted.
    fn greet(&self, line: &mut TcpStream, _client: Client) -> io::Result<()> {
        let mut hello = (4 + 4 + WHO.len() as u32).to_be_bytes().to_vec();
        hello.extend_from_slice(&VERSION.to_be_bytes());
        hello.extend_from_slice(WHO);
        line.write_all(&hello)?;
        until_ready(line)?;
        let mut prepare = Vec::new();
        if self.is_alone {
            push_statement(ASK, &VALUES, &mut prepare);
        } else {
            push_statement(ASK_LOCKED, &VALUES, &mut prepare);
            push_statement(LOCK, &[TEXTS], &mut prepare);
        }
        prepare.extend_from_slice(SYNC);
        line.write_all(&prepare)?;
        until_ready(line)
    }

    fn begin_batch(&self, calls: &[Call], out: &mut Vec<u8>) {
        if self.is_alone {
            return;
        }
        push_message(b'B', out, |out| {
            out.extend_from_slice(b"\0locking\0");
            push_count(1, out);
            push_sized(out, |out| push_rows(calls, out));
            out.extend_from_slice(&[0, 0]);
        });
        out.extend_from_slice(EXECUTE);
    }

    fn spell(&self, key: Key, call: &Call, out: &mut Vec<u8>) {
        push_message(b'B', out, |out| {
            out.extend_from_slice(b"\0asking\0");
            push_count(VALUES.len() as u8, out);
            push_number_value(u64::from(key.client.0), out);
            push_number_value(u64::from(key.request.0), out);
            push_value(call.kind.word().as_bytes(), out);
            push_value(call.giver.as_bytes(), out);
            push_value(call.taker.map_or(b"", |taker| taker.as_bytes()), out);
            let amount = call.kind.amount().map_or(0, |amount| amount.0);
            push_number_value(amount.unsigned_abs(), out);
            out.extend_from_slice(&[0, 0]);
        });
        out.extend_from_slice(EXECUTE);
    }

    fn end_batch(&self, out: &mut Vec<u8>) {
        out.extend_from_slice(SYNC);
    }

    fn read(&self, bytes: &[u8], asked: Asked) -> Result<Option<Answer>, Wrong> {
        let (mut rest, mut told) = (bytes, None);
        loop {
            let Some((message, behind)) = Message::read(rest)? else {
                return Ok(None);
            };
            rest = behind;
            match (message.kind, message.body) {
                // It is bound, a notice, or the row of a lock, which says nothing.
                (b'2' | b'N', _) | (b'D', [0, 1, 0, 0, 0, 0]) => {}
                (b'D', row) if told.is_none() => told = Some(reply(row).ok_or(Wrong)?),
                // A statement is complete: the lock, or the ask.
                (b'C', _) if told.is_none() || asked.is_last => {}
                (b'C', _) => break,
                // All is committed.
                (b'Z', _) if asked.is_last => break,
                _ => return Err(Wrong),
            }
        }
        let length = bytes.len() - rest.len();
        told.filter(|reply: &Reply| reply.fits(asked.kind))
            .map(|reply| Some(Answer { reply, length }))
            .ok_or(Wrong)
    }

    fn farewell(&self) -> &'static [u8] {
        TERMINATE
    }
}

struct Message<'a> {
    kind: u8,
    body: &'a [u8],
}

impl Message<'_> {
    // The first message, and what is behind it; `None` if it isn't whole yet.
    fn read(bytes: &[u8]) -> Result<Option<(Message<'_>, &[u8])>, Wrong> {
        let Some(([kind, length @ ..], rest)) = bytes.split_first_chunk::<HEAD>() else {
            return Ok(None);
        };
        let length = (u32::from_be_bytes(*length) as usize)
            .checked_sub(4)
            .filter(|length| *length <= LONGEST)
            .ok_or(Wrong)?;
        let message = |(body, behind)| (Message { kind: *kind, body }, behind);
        Ok(rest.split_at_checked(length).map(message))
    }
}

// The text of a row with one column.
fn reply(body: &[u8]) -> Option<Reply> {
    let ([0, 1, length @ ..], text) = body.split_first_chunk::<6>()? else {
        return None;
    };
    let is_whole = u32::from_be_bytes(*length) as usize == text.len();
    Reply::of_words(text).filter(|_| is_whole)
}

// Appends a message whose body is written by a function.
fn push_message(kind: u8, out: &mut Vec<u8>, body: impl FnOnce(&mut Vec<u8>)) {
    out.push(kind);
    let start = out.len();
    out.extend_from_slice(&[0; 4]);
    body(out);
    let length = (out.len() - start) as u32;
    out[start..start + 4].copy_from_slice(&length.to_be_bytes());
}

// Prepares a statement; its values have these types.
fn push_statement(statement: &[u8], types: &[u32], out: &mut Vec<u8>) {
    push_message(b'P', out, |out| {
        out.extend_from_slice(statement);
        out.extend_from_slice(&(types.len() as u16).to_be_bytes());
        out.extend(types.iter().flat_map(|kind| kind.to_be_bytes()));
    });
}

// How many values come. By no format at all they are texts.
fn push_count(values: u8, out: &mut Vec<u8>) {
    out.extend_from_slice(&[0, 0, 0, values]);
}

// The names that calls may change, as a list.
fn push_rows(calls: &[Call], out: &mut Vec<u8>) {
    out.push(b'{');
    let start = out.len();
    let changing = calls.iter().filter(|call| call.kind != Kind::Balance);
    for name in changing
        .flat_map(|call| [Some(call.giver), call.taker])
        .flatten()
    {
        if out.len() > start {
            out.push(b',');
        }
        out.extend_from_slice(name.as_bytes());
    }
    out.push(b'}');
}

fn push_value(text: &[u8], out: &mut Vec<u8>) {
    out.extend_from_slice(&(text.len() as u32).to_be_bytes());
    out.extend_from_slice(text);
}

// Appends a value that is written by a function.
fn push_sized(out: &mut Vec<u8>, value: impl FnOnce(&mut Vec<u8>)) {
    let start = out.len();
    out.extend_from_slice(&[0; 4]);
    value(out);
    let length = (out.len() - start - 4) as u32;
    out[start..start + 4].copy_from_slice(&length.to_be_bytes());
}

fn push_number_value(number: u64, out: &mut Vec<u8>) {
    out.extend_from_slice(&(digits(number) as u32).to_be_bytes());
    push_number(number, out);
}

// Skips all messages up to the one that says that the server is ready.
fn until_ready(line: &mut TcpStream) -> io::Result<()> {
    loop {
        let mut head = [0; HEAD];
        line.read_exact(&mut head)?;
        let [kind, length @ ..] = head;
        let length = u64::from(u32::from_be_bytes(length)).saturating_sub(4);
        let mut body = Vec::new();
        line.take(length.min(LONGEST as u64))
            .read_to_end(&mut body)?;
        match (kind, &body[..]) {
            (b'Z', _) => return Ok(()),
            (b'E', text) => return Err(io::Error::other(text.escape_ascii().to_string())),
            (b'R', text) if *text != [0; 4] => {
                return Err(io::Error::other("it wants a password"));
            }
            _ => {}
        }
    }
}
