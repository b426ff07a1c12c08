//! How a bank that keeps a log starts on it.

use crate::books::Books;
use crate::log_file::{Body, LogFault, LogFile};
use crate::shared::input::LineFault;
use std::io::{self, Read, Write};
use std::path::Path;

const BEGIN: &[u8] = b"begin\n";

/// Why a bank doesn't start.
pub enum StartFault {
    Input(LineFault),
    Log(LogFault),
    Device,
}

impl From<io::Error> for StartFault {
    fn from(_: io::Error) -> Self {
        StartFault::Device
    }
}

impl StartFault {
    /// The exit status.
    pub fn status(&self) -> u8 {
        match self {
            StartFault::Input(_) => 1,
            _ => 3,
        }
    }

    /// Tells it on standard error.
    pub fn tell(&self) {
        match self {
            StartFault::Device => eprintln!("smallbank: device"),
            StartFault::Input(LineFault { line, fault }) => {
                eprintln!("smallbank: line {line}: {fault}");
            }
            StartFault::Log(LogFault::InUse) => eprintln!("smallbank: log: in use"),
            StartFault::Log(LogFault::AnotherOpening) => {
                eprintln!("smallbank: log: another opening");
            }
            StartFault::Log(LogFault::Damaged(byte, following)) => {
                eprintln!("smallbank: log: damaged at byte {byte}");
                eprintln!("smallbank: log: {following} bytes follow");
            }
            StartFault::Log(LogFault::System(path, error)) => {
                eprintln!("smallbank: log: {}: {error}", path.display());
            }
        }
    }
}

/// The bank after its log, and the log. Standard input is its opening, if it has none yet.
pub fn open(folder: &Path) -> Result<(Books, LogFile), StartFault> {
    let mut books = None;
    let (mut log, found) = LogFile::open(folder, |body| match body {
        Body::Opening(text) => {
            books = Books::open(text.to_vec())
                .ok()
                .filter(|_| text.ends_with(BEGIN));
            books.is_some()
        }
        Body::Batch(body) => books.as_mut().is_some_and(|books| books.take_batch(body)),
    })
    .map_err(StartFault::Log)?;
    if found.torn > 0 {
        eprintln!(
            "smallbank: log: cut {} bytes of a record that wasn't whole",
            found.torn
        );
    }
    let text = opening()?;
    match (books, found.opening) {
        (Some(books), Some(opening)) => {
            if !text.is_empty() && text != opening {
                return Err(StartFault::Log(LogFault::AnotherOpening));
            }
            Ok((books, log))
        }
        _ => {
            let books = Books::open(text.clone()).map_err(StartFault::Input)?;
            let path = folder.join("log");
            log.begin(&text)
                .map_err(|error| StartFault::Log(LogFault::System(path, error)))?;
            Ok((books, log))
        }
    }
}

/// Standard input, whose last line gets its end if it lacks it.
pub fn opening() -> io::Result<Vec<u8>> {
    let mut text = Vec::new();
    io::stdin().lock().read_to_end(&mut text)?;
    if !text.is_empty() && !text.ends_with(b"\n") {
        text.push(b'\n');
    }
    Ok(text)
}

/// The line that says how long a log is, and which.
pub fn push_digest(out: &mut Vec<u8>, books: &Books, log: &LogFile) -> io::Result<()> {
    write!(out, "log {} ", books.length())?;
    for byte in log.digest() {
        write!(out, "{byte:02x}")?;
    }
    writeln!(out)
}
