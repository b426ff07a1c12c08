//! Frames in bytes.

use crate::bank::{Call, LIMIT, Reply};

const ENTRY: u8 = 2;
const ACK: u8 = 3;
const ANSWER: u8 = 4;
const HAVE: u8 = 7;

const PREFIX: usize = 2;
const NAME_BYTES: usize = 20;

/// A frame between the sequencer and a replica.
pub enum Frame<'a> {
    Entry { number: u64, call: Call<'a> },
    Ack { replica: u8, length: u64 },
    Answer { number: u64, reply: Reply },
    Have { replica: u8, length: u64 },
}

impl Frame<'_> {
    /// Appends the frame's bytes.
    pub fn encode(&self, out: &mut Vec<u8>) {
        let start = out.len();
        out.extend_from_slice(&[0; PREFIX]);
        match *self {
            Frame::Entry { number, call } => {
                out.push(ENTRY);
                out.extend_from_slice(&number.to_be_bytes());
                push_call(out, call);
            }
            Frame::Ack { replica, length } => {
                out.extend_from_slice(&[ACK, replica]);
                out.extend_from_slice(&length.to_be_bytes());
            }
            Frame::Answer { number, reply } => {
                out.push(ANSWER);
                out.extend_from_slice(&number.to_be_bytes());
                out.extend_from_slice(&reply_cells(reply));
            }
            Frame::Have { replica, length } => {
                out.extend_from_slice(&[HAVE, replica]);
                out.extend_from_slice(&length.to_be_bytes());
            }
        }
        let length = (out.len() - start - PREFIX) as u16;
        out[start..start + PREFIX].copy_from_slice(&length.to_be_bytes());
    }

    /// The frame that all of these bytes spell.
    pub fn decode(bytes: &[u8]) -> Option<Frame<'_>> {
        let (prefix, body) = bytes.split_first_chunk::<PREFIX>()?;
        if usize::from(u16::from_be_bytes(*prefix)) != body.len() {
            return None;
        }
        let mut fields = Fields { rest: body };
        let frame = match fields.byte()? {
            ENTRY => Frame::Entry {
                number: fields.number()?,
                call: fields.call()?,
            },
            ACK => Frame::Ack {
                replica: fields.byte()?,
                length: fields.number()?,
            },
            ANSWER => Frame::Answer {
                number: fields.number()?,
                reply: reply_of(fields.cells()?)?,
            },
            HAVE => Frame::Have {
                replica: fields.byte()?,
                length: fields.number()?,
            },
            _ => return None,
        };
        fields.rest.is_empty().then_some(frame)
    }
}

fn push_call(out: &mut Vec<u8>, call: Call) {
    let (kind, name) = match call {
        Call::Balance(name) => (1, name),
        Call::Deposit(name, _) => (2, name),
        Call::Savings(name, _) => (3, name),
        Call::Amalgamate(name, _) => (4, name),
        Call::Check(name, _) => (5, name),
        Call::Pay(name, ..) => (6, name),
    };
    out.push(kind);
    push_name(out, name);
    match call {
        Call::Balance(_) => {}
        Call::Deposit(_, amount) | Call::Savings(_, amount) | Call::Check(_, amount) => {
            out.extend_from_slice(&amount.to_be_bytes());
        }
        Call::Amalgamate(_, to) => push_name(out, to),
        Call::Pay(_, to, amount) => {
            push_name(out, to);
            out.extend_from_slice(&amount.to_be_bytes());
        }
    }
}

fn push_name(out: &mut Vec<u8>, name: &[u8]) {
    out.push(name.len() as u8);
    out.extend_from_slice(name);
}

/// The bytes of a reply.
pub const REPLY: usize = 9;

/// A reply as frames and checkpoints have it.
pub fn reply_cells(reply: Reply) -> [u8; REPLY] {
    let (code, total) = match reply {
        Reply::Shown(total) => (0, total),
        Reply::Done => (1, 0),
        Reply::Penalised => (2, 0),
        Reply::NoCustomer => (3, 0),
        Reply::SameCustomer => (4, 0),
        Reply::Negative => (5, 0),
        Reply::WouldOverdraw => (6, 0),
        Reply::OverLimit => (7, 0),
    };
    let mut cells = [code; REPLY];
    cells[1..].copy_from_slice(&total.to_be_bytes());
    cells
}

/// The reply that these bytes spell.
pub fn reply_of(cells: &[u8; REPLY]) -> Option<Reply> {
    let [code, total @ ..] = *cells;
    let total = i64::from_be_bytes(total);
    match code {
        0 if total.abs() <= 2 * LIMIT => Some(Reply::Shown(total)),
        _ if total != 0 => None,
        1 => Some(Reply::Done),
        2 => Some(Reply::Penalised),
        3 => Some(Reply::NoCustomer),
        4 => Some(Reply::SameCustomer),
        5 => Some(Reply::Negative),
        6 => Some(Reply::WouldOverdraw),
        7 => Some(Reply::OverLimit),
        _ => None,
    }
}

/// What is left of a body.
struct Fields<'a> {
    rest: &'a [u8],
}

impl<'a> Fields<'a> {
    fn cells<const N: usize>(&mut self) -> Option<&'a [u8; N]> {
        let (cells, rest) = self.rest.split_first_chunk()?;
        self.rest = rest;
        Some(cells)
    }

    fn byte(&mut self) -> Option<u8> {
        self.cells().map(|[byte]| *byte)
    }

    fn number(&mut self) -> Option<u64> {
        self.cells().map(|cells| u64::from_be_bytes(*cells))
    }

    fn amount(&mut self) -> Option<i64> {
        let amount = i64::from_be_bytes(*self.cells()?);
        (-LIMIT..=LIMIT).contains(&amount).then_some(amount)
    }

    fn name(&mut self) -> Option<&'a [u8]> {
        let length = usize::from(self.byte()?);
        if length == 0 || length > NAME_BYTES {
            return None;
        }
        let (name, rest) = self.rest.split_at_checked(length)?;
        self.rest = rest;
        crate::words::name(name).ok()
    }

    fn call(&mut self) -> Option<Call<'a>> {
        let kind = self.byte()?;
        Some(match kind {
            1 => Call::Balance(self.name()?),
            2 => Call::Deposit(self.name()?, self.amount()?),
            3 => Call::Savings(self.name()?, self.amount()?),
            4 => Call::Amalgamate(self.name()?, self.name()?),
            5 => Call::Check(self.name()?, self.amount()?),
            6 => Call::Pay(self.name()?, self.name()?, self.amount()?),
            _ => return None,
        })
    }
}
