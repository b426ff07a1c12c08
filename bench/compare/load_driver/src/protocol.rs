//! What all stores that are asked have in common.

use crate::ask::{Asked, Call, Client, Key};
use crate::reply::Reply;
use std::io;
use std::net::TcpStream;

/// An answer, and how many bytes it has.
#[derive(Clone, Copy, Debug, PartialEq, Eq)]
pub struct Answer {
    pub reply: Reply,
    pub length: usize,
}

/// The bytes are no answer to the ask, however they go on.
#[derive(Clone, Copy, Debug, PartialEq, Eq)]
pub struct Wrong;

/// How a store is asked, and how it answers.
pub trait Protocol: Sync {
    /// What comes before the first ask. The line still waits for its bytes.
    fn greet(&self, _line: &mut TcpStream, _client: Client) -> io::Result<()> {
        Ok(())
    }

    /// Appends what comes before a batch of asks of these calls.
    fn begin_batch(&self, _calls: &[Call], _out: &mut Vec<u8>) {}

    /// Appends an ask to others.
    fn spell(&self, key: Key, call: &Call, out: &mut Vec<u8>);

    /// Appends what ends a batch of asks, so that they are answered.
    fn end_batch(&self, _out: &mut Vec<u8>) {}

    /// The answer to an ask at the front of these bytes; `None` if it isn't whole yet.
    fn read(&self, bytes: &[u8], asked: Asked) -> Result<Option<Answer>, Wrong>;

    /// Bytes that are wrong, as a person reads them.
    fn told(&self, bytes: &[u8]) -> String {
        const MOST: usize = 200;
        bytes[..bytes.len().min(MOST)].escape_ascii().to_string()
    }

    /// What a client sends before it ends its sending side.
    fn farewell(&self) -> &'static [u8] {
        b""
    }
}
