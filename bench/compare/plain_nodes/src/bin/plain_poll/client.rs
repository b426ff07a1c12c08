//! A client: what it has asked, and what it is told.

use crate::bank::Bank;
use plain_nodes::epoll::Interest;
use plain_nodes::frames::{Frame, FrameFault, push_frame, read_frame};
use plain_nodes::sequencer::Asked;
use plain_nodes::session::SessionFault;
use plain_nodes::shared::input::Key;
use std::io::{self, ErrorKind, Read, Write};
use std::net::{Shutdown, TcpStream};

// How many bytes it may send in a turn.
const READ: usize = 64 * 1024;
// The longest incomplete frame: two bytes of length and 64 of body, less one.
const BEGINNING: usize = 65;
/// How many bytes a buffer for reading has.
pub const BUFFER: usize = BEGINNING + READ;
// How many bytes of a client at fault are skipped, so that it can read what it was sent.
const PASSED_OVER: usize = 1024 * 1024;

#[derive(Clone, Copy, PartialEq, Eq)]
enum Stage {
    Talking,
    // Its bytes are over, or at fault. What it is told isn't all sent.
    Ending,
    // It was at fault. So many of its bytes are still skipped.
    Skipping(usize),
    Gone,
}

pub struct Client {
    pub line: TcpStream,
    /// What the server waits for at its line.
    pub interest: Interest,
    stage: Stage,
    fault: Option<SessionFault>,
    kept: Vec<u8>,
    // The asks since its last flush.
    waiting: Vec<(Key, Asked)>,
    told: Vec<u8>,
    sent: usize,
}

impl Client {
    pub fn new(line: TcpStream) -> io::Result<Client> {
        line.set_nonblocking(true)?;
        line.set_nodelay(true)?;
        Ok(Client {
            line,
            interest: Interest::Reading,
            stage: Stage::Talking,
            fault: None,
            kept: Vec::new(),
            waiting: Vec::new(),
            told: Vec::new(),
            sent: 0,
        })
    }

    /// Whether it may be told something now, or its session ends.
    pub fn is_owed(&self) -> bool {
        self.sent < self.told.len() || self.stage != Stage::Talking
    }

    /// How its session ended, if it has.
    pub fn ended(&self) -> Option<Result<(), SessionFault>> {
        (self.stage == Stage::Gone).then_some(self.fault.map_or(Ok(()), Err))
    }

    /// What is to be waited for: nobody is heard who doesn't read what it is told.
    pub fn wanted(&self) -> Interest {
        if self.sent < self.told.len() {
            Interest::Writing
        } else {
            Interest::Reading
        }
    }

    /// Reads once, and executes what is asked.
    pub fn hear(&mut self, buffer: &mut [u8], bank: &mut Bank) {
        let kept = self.kept.len();
        buffer[..kept].copy_from_slice(&self.kept);
        let count = match self.line.read(&mut buffer[kept..kept + READ]) {
            Ok(count) => count,
            Err(error) if is_in_vain(&error) => return,
            Err(_) => return self.break_off(),
        };
        match self.stage {
            Stage::Talking if count == 0 => self.end(),
            Stage::Talking => self.take(&buffer[..kept + count], bank),
            Stage::Skipping(left) if count > 0 && count < left => {
                self.stage = Stage::Skipping(left - count);
            }
            Stage::Skipping(_) => self.stage = Stage::Gone,
            Stage::Ending | Stage::Gone => {}
        }
    }

    fn take(&mut self, bytes: &[u8], bank: &mut Bank) {
        self.kept.clear();
        let mut rest = bytes;
        loop {
            let (frame, behind) = match read_frame(rest) {
                Ok(read) => read,
                Err(FrameFault::Short) => return self.kept.extend_from_slice(rest),
                Err(fault) => return self.refuse(SessionFault::Frame(fault)),
            };
            match frame {
                Frame::Ask { key, call } => {
                    let spelled = &rest[..rest.len() - behind.len()];
                    self.waiting.push((key, bank.ask(key, &call, spelled)));
                }
                Frame::Flush => self.flush(bank),
                _ => return self.refuse(SessionFault::Unexpected),
            }
            rest = behind;
        }
    }

    fn flush(&mut self, bank: &Bank) {
        for (key, asked) in self.waiting.drain(..) {
            let outcome = bank.books.outcome(asked);
            push_frame(&mut self.told, &Frame::Outcome { key, outcome });
        }
    }

    fn end(&mut self) {
        if self.kept.is_empty() {
            self.stage = Stage::Ending;
        } else {
            self.refuse(SessionFault::Frame(FrameFault::Short));
        }
    }

    fn refuse(&mut self, fault: SessionFault) {
        self.kept.clear();
        self.fault = Some(fault);
        self.stage = Stage::Ending;
    }

    fn break_off(&mut self) {
        self.fault = self.fault.or(Some(SessionFault::Device));
        self.stage = Stage::Gone;
    }

    /// Sends what the line takes of what it is told, and ends if that was all.
    pub fn tell(&mut self) {
        while self.sent < self.told.len() {
            match self.line.write(&self.told[self.sent..]) {
                Ok(count) => self.sent += count,
                Err(error) if error.kind() == ErrorKind::Interrupted => {}
                Err(error) if is_in_vain(&error) => return,
                Err(_) => return self.break_off(),
            }
        }
        self.told.clear();
        self.sent = 0;
        if self.stage == Stage::Ending {
            self.hang_up();
        }
    }

    fn hang_up(&mut self) {
        let _ = self.line.shutdown(Shutdown::Write);
        self.stage = if self.fault.is_some() {
            Stage::Skipping(PASSED_OVER)
        } else {
            Stage::Gone
        };
    }
}

fn is_in_vain(error: &io::Error) -> bool {
    matches!(error.kind(), ErrorKind::WouldBlock | ErrorKind::Interrupted)
}
