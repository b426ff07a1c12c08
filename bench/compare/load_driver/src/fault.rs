//! Why a load ends early.

use crate::ask::{Client, Request};
use std::fmt::{self, Display};
use std::io;
use std::time::Duration;

/// How long a client waits for a byte.
#[derive(Clone, Copy, Debug, PartialEq, Eq)]
pub struct Patience(pub Duration);

impl Patience {
    /// How long after the end it waits for all outcomes.
    pub fn drain(self) -> Duration {
        3 * self.0
    }
}

#[derive(Debug)]
pub enum Fault {
    System(io::Error),
    NothingMeasured,
    Of(Client, Trouble),
}

/// What went wrong with a client.
#[derive(Debug)]
pub enum Trouble {
    Connecting(io::Error),
    Broken(io::Error),
    HungUp(Request),
    NoOutcome(Request, String),
    Unasked(String),
    Silent(Request, Patience),
    Unfinished(Request, Patience),
    NoEnd(Patience),
}

impl Display for Fault {
    fn fmt(&self, f: &mut fmt::Formatter<'_>) -> fmt::Result {
        match self {
            Fault::System(error) => write!(f, "{error}"),
            Fault::NothingMeasured => f.write_str("nothing was answered while it was measured"),
            Fault::Of(Client(client), trouble) => write!(f, "client {client}: {trouble}"),
        }
    }
}

impl Display for Trouble {
    fn fmt(&self, f: &mut fmt::Formatter<'_>) -> fmt::Result {
        match self {
            Trouble::Connecting(error) => write!(f, "it can't connect: {error}"),
            Trouble::Broken(error) => write!(f, "the connection broke: {error}"),
            Trouble::HungUp(Request(request)) => {
                write!(
                    f,
                    "the server hung up before the outcome of request {request}"
                )
            }
            Trouble::NoOutcome(Request(request), told) => {
                write!(f, "this is no outcome of request {request}: {told}")
            }
            Trouble::Unasked(told) => write!(f, "nobody asked for this: {told}"),
            Trouble::Silent(Request(request), Patience(time)) => {
                write!(
                    f,
                    "no byte for {time:?} before the outcome of request {request}"
                )
            }
            Trouble::Unfinished(Request(request), patience) => {
                let time = patience.drain();
                write!(f, "no outcome of request {request} {time:?} after the end")
            }
            Trouble::NoEnd(Patience(time)) => {
                write!(f, "the server didn't hang up {time:?} after the client")
            }
        }
    }
}
