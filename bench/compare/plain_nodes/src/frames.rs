//! What nodes and clients send each other, as bytes.

use crate::shared::LIMIT;
use crate::shared::input::{Call, Key, name};
use crate::shared::output::Reply;

const ASK: u8 = 1;
const ENTRY: u8 = 2;
const ACK: u8 = 3;
const ANSWER: u8 = 4;
const OUTCOME: u8 = 5;
const FLUSH: u8 = 6;
const HAVE: u8 = 7;

const BODY: usize = 64;
const NAME: usize = 20;
const REPLY: usize = 9;

/// How many bytes an outcome has.
pub const OUTCOME_FRAME: usize = 2 + 1 + 4 + 4 + 1 + REPLY;

/// Why bytes begin no frame. The numbers are those of the formats.
#[derive(Clone, Copy, Debug, PartialEq, Eq)]
pub enum FrameFault {
    Short = 1,
    BadLength,
    UnknownTag,
    BadName,
    BadAmount,
    BadReply,
    BadStatus,
}

/// The outcome of an ask.
#[derive(Clone, Copy, Debug, PartialEq, Eq)]
pub enum Outcome {
    Replied(Reply),
    Mismatch,
    LogFull,
}

#[derive(Clone, Copy, Debug, PartialEq, Eq)]
pub enum Frame<'a> {
    Ask { key: Key, call: Call<'a> },
    Entry { number: u64, call: Call<'a> },
    Ack { replica: u8, length: u64 },
    Answer { number: u64, reply: Reply },
    Outcome { key: Key, outcome: Outcome },
    Flush,
    Have { replica: u8, length: u64 },
}

// ---- writing

/// Appends a frame to others.
#[inline]
pub fn push_frame(out: &mut Vec<u8>, frame: &Frame) {
    let start = out.len();
    out.extend_from_slice(&[0; 2]);
    match *frame {
        Frame::Ask { key, call } => {
            out.push(ASK);
            push_key(out, key);
            push_call(out, &call);
        }
        Frame::Entry { number, call } => {
            out.push(ENTRY);
            out.extend_from_slice(&number.to_be_bytes());
            push_call(out, &call);
        }
        Frame::Ack { replica, length } => {
            out.extend_from_slice(&[ACK, replica]);
            out.extend_from_slice(&length.to_be_bytes());
        }
        Frame::Answer { number, reply } => {
            out.push(ANSWER);
            out.extend_from_slice(&number.to_be_bytes());
            out.extend_from_slice(&reply_bytes(reply));
        }
        Frame::Outcome { key, outcome } => {
            out.push(OUTCOME);
            push_key(out, key);
            let (status, reply) = match outcome {
                Outcome::Replied(reply) => (0, reply_bytes(reply)),
                Outcome::Mismatch => (1, [0; REPLY]),
                Outcome::LogFull => (2, [0; REPLY]),
            };
            out.push(status);
            out.extend_from_slice(&reply);
        }
        Frame::Flush => out.push(FLUSH),
        Frame::Have { replica, length } => {
            out.extend_from_slice(&[HAVE, replica]);
            out.extend_from_slice(&length.to_be_bytes());
        }
    }
    let length = (out.len() - start - 2) as u16;
    out[start..start + 2].copy_from_slice(&length.to_be_bytes());
}

fn push_key(out: &mut Vec<u8>, (client, request): Key) {
    out.extend_from_slice(&client.to_be_bytes());
    out.extend_from_slice(&request.to_be_bytes());
}

/// Appends the bytes of a call to others. Each call has one spelling.
pub fn push_call(out: &mut Vec<u8>, call: &Call) {
    let (kind, name, other, amount) = match *call {
        Call::Balance(name) => (1, name, None, None),
        Call::Deposit(name, amount) => (2, name, None, Some(amount)),
        Call::Savings(name, amount) => (3, name, None, Some(amount)),
        Call::Amalgamate(from, to) => (4, from, Some(to), None),
        Call::Check(name, amount) => (5, name, None, Some(amount)),
        Call::Pay(from, to, amount) => (6, from, Some(to), Some(amount)),
    };
    out.push(kind);
    push_name(out, name);
    if let Some(other) = other {
        push_name(out, other);
    }
    if let Some(amount) = amount {
        out.extend_from_slice(&amount.to_be_bytes());
    }
}

fn push_name(out: &mut Vec<u8>, name: &[u8]) {
    out.push(name.len() as u8);
    out.extend_from_slice(name);
}

fn reply_bytes(reply: Reply) -> [u8; REPLY] {
    let (code, total) = match reply {
        Reply::Shown(total) => (0, total),
        Reply::Done => (1, 0),
        Reply::Penalised => (2, 0),
        Reply::NoCustomer => (3, 0),
        Reply::SameCustomer => (4, 0),
        Reply::Negative => (5, 0),
        Reply::WouldOverdraw => (6, 0),
        Reply::OverLimit => (7, 0),
    };
    let mut bytes = [code; REPLY];
    bytes[1..].copy_from_slice(&total.to_be_bytes());
    bytes
}

// ---- reading

/// The first frame of these bytes, and what follows it.
#[inline]
pub fn read_frame(bytes: &[u8]) -> Result<(Frame<'_>, &[u8]), FrameFault> {
    let (length, rest) = bytes.split_first_chunk().ok_or(FrameFault::Short)?;
    let length = usize::from(u16::from_be_bytes(*length));
    if length == 0 || length > BODY {
        return Err(FrameFault::BadLength);
    }
    let (body, behind) = rest.split_at_checked(length).ok_or(FrameFault::Short)?;
    let mut fields = Fields(body);
    let frame = match fields.byte()? {
        ASK => Frame::Ask {
            key: fields.key()?,
            call: fields.call()?,
        },
        ENTRY => Frame::Entry {
            number: fields.long()?,
            call: fields.call()?,
        },
        ACK => Frame::Ack {
            replica: fields.byte()?,
            length: fields.long()?,
        },
        ANSWER => Frame::Answer {
            number: fields.long()?,
            reply: fields.reply()?,
        },
        OUTCOME => Frame::Outcome {
            key: fields.key()?,
            outcome: fields.outcome()?,
        },
        FLUSH => Frame::Flush,
        HAVE => Frame::Have {
            replica: fields.byte()?,
            length: fields.long()?,
        },
        _ => return Err(FrameFault::UnknownTag),
    };
    if fields.0.is_empty() {
        Ok((frame, behind))
    } else {
        Err(FrameFault::BadLength)
    }
}

// What is left of a frame's body.
struct Fields<'a>(&'a [u8]);

impl<'a> Fields<'a> {
    fn bytes<const N: usize>(&mut self) -> Result<[u8; N], FrameFault> {
        let (bytes, rest) = self.0.split_first_chunk().ok_or(FrameFault::BadLength)?;
        self.0 = rest;
        Ok(*bytes)
    }

    fn byte(&mut self) -> Result<u8, FrameFault> {
        self.bytes().map(|[byte]| byte)
    }

    fn long(&mut self) -> Result<u64, FrameFault> {
        self.bytes().map(u64::from_be_bytes)
    }

    fn key(&mut self) -> Result<Key, FrameFault> {
        let client = self.bytes().map(u32::from_be_bytes)?;
        let request = self.bytes().map(u32::from_be_bytes)?;
        Ok((client, request))
    }

    fn name(&mut self) -> Result<&'a [u8], FrameFault> {
        let length = usize::from(self.byte()?);
        if length == 0 || length > NAME {
            return Err(FrameFault::BadName);
        }
        let (text, rest) = self
            .0
            .split_at_checked(length)
            .ok_or(FrameFault::BadLength)?;
        self.0 = rest;
        name(text).map_err(|_| FrameFault::BadName)
    }

    fn amount(&mut self) -> Result<i64, FrameFault> {
        let amount = self.bytes().map(i64::from_be_bytes)?;
        if (-LIMIT..=LIMIT).contains(&amount) {
            Ok(amount)
        } else {
            Err(FrameFault::BadAmount)
        }
    }

    fn call(&mut self) -> Result<Call<'a>, FrameFault> {
        Ok(match self.byte()? {
            1 => Call::Balance(self.name()?),
            2 => Call::Deposit(self.name()?, self.amount()?),
            3 => Call::Savings(self.name()?, self.amount()?),
            4 => Call::Amalgamate(self.name()?, self.name()?),
            5 => Call::Check(self.name()?, self.amount()?),
            6 => Call::Pay(self.name()?, self.name()?, self.amount()?),
            _ => return Err(FrameFault::UnknownTag),
        })
    }

    fn reply(&mut self) -> Result<Reply, FrameFault> {
        let [code, total @ ..]: [u8; REPLY] = self.bytes()?;
        let total = i64::from_be_bytes(total);
        match code {
            0 if (-2 * LIMIT..=2 * LIMIT).contains(&total) => Ok(Reply::Shown(total)),
            _ if total != 0 => Err(FrameFault::BadReply),
            1 => Ok(Reply::Done),
            2 => Ok(Reply::Penalised),
            3 => Ok(Reply::NoCustomer),
            4 => Ok(Reply::SameCustomer),
            5 => Ok(Reply::Negative),
            6 => Ok(Reply::WouldOverdraw),
            7 => Ok(Reply::OverLimit),
            _ => Err(FrameFault::BadReply),
        }
    }

    fn outcome(&mut self) -> Result<Outcome, FrameFault> {
        let outcome = match self.byte()? {
            0 => return self.reply().map(Outcome::Replied),
            1 => Outcome::Mismatch,
            2 => Outcome::LogFull,
            _ => return Err(FrameFault::BadStatus),
        };
        if self.bytes()? == [0; REPLY] {
            Ok(outcome)
        } else {
            Err(FrameFault::BadReply)
        }
    }
}

#[cfg(test)]
mod tests;
