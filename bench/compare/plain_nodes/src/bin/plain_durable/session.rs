//! A session over a bank whose log is kept: nobody is told an outcome before the log has its ask.

use plain_nodes::books::Books;
use plain_nodes::frames::{Frame, FrameFault, push_frame, read_frame};
use plain_nodes::log_file::LogFile;
use plain_nodes::sequencer::Asked;
use plain_nodes::shared::input::Key;
use std::io::{self, Read, Write};

const READ: usize = 64 * 1024;
// The longest incomplete frame: two bytes of length and 64 of body, less one.
const BEGINNING: usize = 65;

/// Why a session ends before its bytes do.
pub enum SessionFault {
    Frame,
    Unexpected,
    Device,
    Log(io::Error),
}

impl SessionFault {
    pub fn number(&self) -> u8 {
        match self {
            SessionFault::Frame => 1,
            SessionFault::Unexpected => 2,
            SessionFault::Device => 4,
            SessionFault::Log(_) => 6,
        }
    }
}

pub struct Session<'s, W> {
    pub writer: W,
    pub books: &'s mut Books,
    pub log: &'s mut LogFile,
    waiting: Vec<(Key, Asked)>,
    told: Vec<u8>,
}

impl<'s, W: Write> Session<'s, W> {
    pub fn new(writer: W, books: &'s mut Books, log: &'s mut LogFile) -> Self {
        Session {
            writer,
            books,
            log,
            waiting: Vec::new(),
            told: Vec::new(),
        }
    }

    /// Serves a client until its bytes end. All that was numbered is kept then, also after a fault.
    pub fn serve(mut self, reader: impl Read) -> Result<(), SessionFault> {
        let served = self.hear(reader);
        if !matches!(served, Err(SessionFault::Log(_))) {
            self.log.save().map_err(SessionFault::Log)?;
        }
        served
    }

    fn hear(&mut self, mut reader: impl Read) -> Result<(), SessionFault> {
        let mut buffer = vec![0; BEGINNING + READ];
        // How many bytes at the front of the buffer aren't a whole frame yet.
        let mut kept = 0;
        loop {
            let count = match reader.read(&mut buffer[kept..kept + READ]) {
                Err(error) if error.kind() == io::ErrorKind::Interrupted => continue,
                read => read.map_err(|_| SessionFault::Device)?,
            };
            if count == 0 {
                break;
            }
            let end = kept + count;
            kept = self.hear_frames(&buffer[..end])?;
            buffer.copy_within(end - kept..end, 0);
        }
        if kept == 0 {
            Ok(())
        } else {
            Err(SessionFault::Frame)
        }
    }

    // Takes all whole frames, and answers how many bytes are left.
    fn hear_frames(&mut self, mut bytes: &[u8]) -> Result<usize, SessionFault> {
        loop {
            let (frame, behind) = match read_frame(bytes) {
                Ok(read) => read,
                Err(FrameFault::Short) => return Ok(bytes.len()),
                Err(_) => return Err(SessionFault::Frame),
            };
            match frame {
                Frame::Ask { key, call } => {
                    let asked = self.books.ask(key, &call);
                    if let Asked::New(_) = asked {
                        // A frame has one spelling, which is the client's.
                        let spelled = &bytes[..bytes.len() - behind.len()];
                        self.log.body().extend_from_slice(spelled);
                    }
                    self.waiting.push((key, asked));
                }
                Frame::Flush => self.flush()?,
                _ => return Err(SessionFault::Unexpected),
            }
            bytes = behind;
        }
    }

    fn flush(&mut self) -> Result<(), SessionFault> {
        self.log.save().map_err(SessionFault::Log)?;
        for (key, asked) in self.waiting.drain(..) {
            let outcome = self.books.outcome(asked);
            push_frame(&mut self.told, &Frame::Outcome { key, outcome });
        }
        let written = self.writer.write_all(&self.told);
        self.told.clear();
        written.map_err(|_| SessionFault::Device)
    }
}
