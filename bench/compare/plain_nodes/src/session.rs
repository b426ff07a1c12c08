//! Sessions: what a client asks in frames, and its answers.

use crate::board::Board;
use crate::crew::{Crew, CrewGone};
use crate::frames::{Frame, FrameFault, Outcome, push_frame, read_frame};
use crate::node::Node;
use crate::sequencer::{Asked, Sequencer};
use crate::shared::bank::Bank;
use crate::shared::input::{Call, Key};
use std::io::{ErrorKind, Read, Write};

/// How many bytes a read asks for.
const READ: usize = 64 * 1024;
/// The longest incomplete frame: two bytes of length and 64 of body, less one.
const BEGINNING: usize = 65;

/// Why a session ends before its bytes do.
#[derive(Clone, Copy, Debug, PartialEq, Eq)]
pub enum SessionFault {
    Frame(FrameFault),
    /// A frame that is neither an ask nor a flush.
    Unexpected,
    CrewGone,
    /// A read or a write failed.
    Device,
}

impl SessionFault {
    pub fn number(self) -> u8 {
        match self {
            SessionFault::Frame(_) => 1,
            SessionFault::Unexpected => 2,
            SessionFault::CrewGone => 3,
            SessionFault::Device => 4,
        }
    }
}

impl From<CrewGone> for SessionFault {
    fn from(_: CrewGone) -> Self {
        SessionFault::CrewGone
    }
}

/// The log, and node 0, which executes it.
pub struct Primary<'a> {
    sequencer: Sequencer,
    pub node: Node<'a>,
}

impl<'a> Primary<'a> {
    pub fn open(bank: &Bank<'a>) -> Self {
        Primary {
            sequencer: Sequencer::default(),
            node: Node::open(bank),
        }
    }

    // Numbers an ask, and submits it if it is new.
    fn ask(&mut self, key: Key, call: &Call, crew: &mut impl Crew) -> Result<Asked, CrewGone> {
        let asked = self.sequencer.ask(key, call);
        if let Asked::New(_) = asked {
            self.node.hear(call, crew)?;
        }
        Ok(asked)
    }

    /// Has all numbered asks executed.
    pub fn settle(&mut self, crew: &mut impl Crew) -> Result<(), CrewGone> {
        self.node.settle(crew)
    }
}

// The outcome of an ask, once node 0 is settled.
fn outcome(asked: Asked, board: &Board) -> Option<Outcome> {
    match asked {
        Asked::New(number) | Asked::Repeat(number) => board.reply(number).map(Outcome::Replied),
        Asked::Mismatch => Some(Outcome::Mismatch),
        Asked::Full => Some(Outcome::LogFull),
    }
}

/// Serves a client until its bytes end. At each flush it sends the outcomes of the asks since the
/// last one, in one write. After a fault what was numbered stays.
pub fn serve_session(
    reader: &mut impl Read,
    writer: &mut impl Write,
    primary: &mut Primary,
    crew: &mut impl Crew,
) -> Result<(), SessionFault> {
    primary.settle(crew)?;
    let mut session = Session {
        writer,
        primary,
        crew,
        waiting: Vec::new(),
        told: Vec::new(),
    };
    let mut buffer = vec![0; BEGINNING + READ];
    // How many bytes at the front of the buffer aren't a whole frame yet.
    let mut kept = 0;
    loop {
        let count = read(reader, &mut buffer[kept..kept + READ])?;
        if count == 0 {
            break;
        }
        let end = kept + count;
        kept = session.hear_all(&buffer[..end])?;
        buffer.copy_within(end - kept..end, 0);
    }
    if kept > 0 {
        return Err(SessionFault::Frame(FrameFault::Short));
    }
    Ok(primary.settle(crew)?)
}

fn read(reader: &mut impl Read, buffer: &mut [u8]) -> Result<usize, SessionFault> {
    loop {
        match reader.read(buffer) {
            Ok(count) => return Ok(count),
            Err(error) if error.kind() == ErrorKind::Interrupted => {}
            Err(_) => return Err(SessionFault::Device),
        }
    }
}

struct Session<'s, 'a, W, C> {
    writer: &'s mut W,
    primary: &'s mut Primary<'a>,
    crew: &'s mut C,
    // The asks since the last flush.
    waiting: Vec<(Key, Asked)>,
    told: Vec<u8>,
}

impl<W: Write, C: Crew> Session<'_, '_, W, C> {
    /// Takes all whole frames, and answers how many bytes are left.
    fn hear_all(&mut self, bytes: &[u8]) -> Result<usize, SessionFault> {
        let mut rest = bytes;
        loop {
            match read_frame(rest) {
                Ok((frame, behind)) => {
                    self.hear(&frame)?;
                    rest = behind;
                }
                Err(FrameFault::Short) => return Ok(rest.len()),
                Err(fault) => return Err(SessionFault::Frame(fault)),
            }
        }
    }

    fn hear(&mut self, frame: &Frame) -> Result<(), SessionFault> {
        match frame {
            Frame::Ask { key, call } => {
                let asked = self.primary.ask(*key, call, self.crew)?;
                self.waiting.push((*key, asked));
                Ok(())
            }
            Frame::Flush => self.flush(),
            _ => Err(SessionFault::Unexpected),
        }
    }

    fn flush(&mut self) -> Result<(), SessionFault> {
        self.primary.settle(self.crew)?;
        for (key, asked) in self.waiting.drain(..) {
            if let Some(outcome) = outcome(asked, &self.primary.node.board) {
                push_frame(&mut self.told, &Frame::Outcome { key, outcome });
            }
        }
        let written = self.writer.write_all(&self.told);
        self.told.clear();
        written.map_err(|_| SessionFault::Device)
    }
}

#[cfg(test)]
mod tests;
