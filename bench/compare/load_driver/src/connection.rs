//! A client: its connection, what it asks next, and what it waits for.

use crate::ask::{Asked, Call, Client, Key, Kind, Request};
use crate::fault::{Fault, Patience, Trouble};
use crate::pace::Turn;
use crate::protocol::Protocol;
use crate::random::Random;
use crate::tally::Tally;
use crate::workload::Workload;
use std::io::{self, ErrorKind, Read, Write};
use std::net::{Shutdown, SocketAddr, TcpStream};
use std::time::Instant;

// How many bytes are read at a time, and how many an answer has at most.
const READ: usize = 1 << 16;
const LONGEST_ANSWER: usize = 1 << 14;
/// How many bytes a buffer for reading has.
pub const BUFFER: usize = LONGEST_ANSWER + READ;

/// What came of reading.
#[derive(Clone, Copy, Debug, PartialEq, Eq)]
pub enum Heard {
    /// Nothing, or some outcomes.
    Part,
    /// The last outcome of the batch.
    All,
    /// The end that the client asked for.
    Gone,
}

#[derive(Clone, Copy, PartialEq, Eq)]
enum Stage {
    Asking,
    // It has ended its sending side, or will once all is sent.
    Leaving,
    Gone,
}

/// What a client begins with.
pub struct Beginning {
    pub client: Client,
    /// Its place among all clients.
    pub place: u64,
    pub first: Request,
    pub random: Random,
}

pub struct Connection {
    pub line: TcpStream,
    client: Client,
    place: u64,
    round: u64,
    random: Random,
    stage: Stage,
    // The first request of the batch, what all of them are, and how many are answered.
    first: Request,
    asked: Vec<Kind>,
    answered: usize,
    // What is sent, and how much of it is.
    out: Vec<u8>,
    sent: usize,
    // An answer that isn't whole yet.
    kept: Vec<u8>,
    /// From when on the batch's time counts.
    pub begun: Instant,
    /// When it last asked, or heard a byte.
    pub heard: Instant,
}

impl Connection {
    /// Begins on a line that has been connected.
    pub fn new(line: TcpStream, beginning: Beginning) -> Connection {
        let now = Instant::now();
        Connection {
            line,
            client: beginning.client,
            place: beginning.place,
            round: 0,
            random: beginning.random,
            stage: Stage::Asking,
            first: beginning.first,
            asked: Vec::new(),
            answered: 0,
            out: Vec::new(),
            sent: 0,
            kept: Vec::new(),
            begun: now,
            heard: now,
        }
    }

    pub fn turn(&self) -> Turn {
        Turn {
            place: self.place,
            round: self.round,
        }
    }

    /// Whether it may ask.
    pub fn is_idle(&self) -> bool {
        self.stage == Stage::Asking && !self.is_waiting()
    }

    /// Whether something that is asked isn't answered.
    pub fn is_waiting(&self) -> bool {
        self.answered < self.asked.len()
    }

    /// Whether the line took less than there is to send.
    pub fn is_blocked(&self) -> bool {
        self.sent < self.out.len()
    }

    /// The first request that isn't answered.
    pub fn awaited(&self) -> Request {
        Request(self.first.0.wrapping_add(self.answered as u32))
    }

    /// Draws a batch of calls into the place of others, and spells it.
    pub fn spell<'w>(
        &mut self,
        protocol: &impl Protocol,
        workload: &'w Workload,
        asks: u64,
        calls: &mut Vec<Call<'w>>,
    ) {
        calls.clear();
        calls.extend((0..asks).map(|_| workload.draw(&mut self.random)));
        self.first = self.awaited();
        self.round += 1;
        self.answered = 0;
        self.asked.clear();
        self.begin_sending();
        protocol.begin_batch(calls, &mut self.out);
        let client = self.client;
        for (call, request) in calls.iter().zip(self.first.0..) {
            let request = Request(request);
            protocol.spell(Key { client, request }, call, &mut self.out);
            self.asked.push(call.kind);
        }
        protocol.end_batch(&mut self.out);
    }

    /// Says goodbye; it ends its sending side once that is sent.
    pub fn leave(&mut self, protocol: &impl Protocol) {
        self.stage = Stage::Leaving;
        self.begin_sending();
        self.out.extend_from_slice(protocol.farewell());
    }

    fn begin_sending(&mut self) {
        self.out.clear();
        self.sent = 0;
    }

    /// Sends as much as the line takes.
    pub fn send(&mut self) -> Result<(), Fault> {
        while self.is_blocked() {
            match self.line.write(&self.out[self.sent..]) {
                Ok(count) => self.sent += count,
                Err(error) if error.kind() == ErrorKind::Interrupted => {}
                Err(error) if error.kind() == ErrorKind::WouldBlock => return Ok(()),
                Err(error) => return Err(self.fault(Trouble::Broken(error))),
            }
        }
        if self.stage == Stage::Leaving {
            // If the line broke, then reading says so.
            let _ = self.line.shutdown(Shutdown::Write);
        }
        Ok(())
    }

    /// Reads once, and takes all answers that are whole.
    pub fn hear(
        &mut self,
        buffer: &mut [u8],
        protocol: &impl Protocol,
        tally: &mut Tally,
    ) -> Result<Heard, Fault> {
        let kept = self.kept.len();
        buffer[..kept].copy_from_slice(&self.kept);
        match self.line.read(&mut buffer[kept..kept + READ]) {
            Ok(0) => self.end(),
            Ok(count) => self.take(&buffer[..kept + count], protocol, tally),
            Err(error) if is_in_vain(&error) => Ok(Heard::Part),
            Err(error) => Err(self.fault(Trouble::Broken(error))),
        }
    }

    fn take(
        &mut self,
        bytes: &[u8],
        protocol: &impl Protocol,
        tally: &mut Tally,
    ) -> Result<Heard, Fault> {
        self.kept.clear();
        let mut rest = bytes;
        while self.is_waiting() {
            let read = protocol.read(rest, self.next_asked());
            let Some(answer) = read.map_err(|_| self.no_outcome(protocol.told(rest)))? else {
                return self.keep(rest, protocol);
            };
            tally.count(answer.reply);
            self.answered += 1;
            rest = &rest[answer.length..];
        }
        if rest.is_empty() {
            Ok(Heard::All)
        } else {
            Err(self.fault(Trouble::Unasked(protocol.told(rest))))
        }
    }

    fn next_asked(&self) -> Asked {
        Asked {
            key: Key {
                client: self.client,
                request: self.awaited(),
            },
            kind: self.asked[self.answered],
            is_last: self.answered + 1 == self.asked.len(),
        }
    }

    fn keep(&mut self, rest: &[u8], protocol: &impl Protocol) -> Result<Heard, Fault> {
        if rest.len() > LONGEST_ANSWER {
            return Err(self.no_outcome(protocol.told(rest)));
        }
        self.kept.extend_from_slice(rest);
        Ok(Heard::Part)
    }

    fn end(&mut self) -> Result<Heard, Fault> {
        if self.stage != Stage::Leaving {
            return Err(self.fault(Trouble::HungUp(self.awaited())));
        }
        self.stage = Stage::Gone;
        Ok(Heard::Gone)
    }

    /// Why it has waited too long, if it has.
    pub fn check(&self, now: Instant, end: Instant, patience: Patience) -> Result<(), Fault> {
        let is_silent = now.saturating_duration_since(self.heard) >= patience.0;
        let is_drained = now.saturating_duration_since(end) >= patience.drain();
        let trouble = match self.stage {
            Stage::Asking if !self.is_waiting() => return Ok(()),
            Stage::Asking if is_silent => Trouble::Silent(self.awaited(), patience),
            Stage::Asking if is_drained => Trouble::Unfinished(self.awaited(), patience),
            Stage::Leaving if is_silent => Trouble::NoEnd(patience),
            _ => return Ok(()),
        };
        Err(self.fault(trouble))
    }

    fn no_outcome(&self, told: String) -> Fault {
        self.fault(Trouble::NoOutcome(self.awaited(), told))
    }

    fn fault(&self, trouble: Trouble) -> Fault {
        Fault::Of(self.client, trouble)
    }
}

/// Connects and greets.
pub fn connect(
    server: SocketAddr,
    protocol: &impl Protocol,
    client: Client,
    Patience(time): Patience,
) -> io::Result<TcpStream> {
    let mut line = TcpStream::connect_timeout(&server, time)?;
    line.set_nodelay(true)?;
    line.set_read_timeout(Some(time))?;
    protocol.greet(&mut line, client)?;
    line.set_nonblocking(true)?;
    Ok(line)
}

fn is_in_vain(error: &io::Error) -> bool {
    matches!(error.kind(), ErrorKind::WouldBlock | ErrorKind::Interrupted)
}
