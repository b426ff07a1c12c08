//! What `smallbank serve --port P --log FOLDER` does, in plain Rust: one thread, a bank that executes
//! each call as it is numbered, and a log on disk that has each ask before its outcome is told.
//!
//! `plain_durable serve --port P --log FOLDER [--sessions K] < OPENING`. Without `--sessions` it serves
//! without end.

mod session;

use plain_nodes::books::Books;
use plain_nodes::log_file::LogFile;
use plain_nodes::starting::{StartFault, open, push_digest};
use session::{Session, SessionFault};
use std::env;
use std::io::{self, Read, Write};
use std::net::{Ipv4Addr, Shutdown, TcpListener, TcpStream};
use std::path::PathBuf;
use std::process::ExitCode;

// How many bytes of a client at fault are skipped, so that it can read what it was sent.
const PASSED_OVER: u64 = 1024 * 1024;

enum Fault {
    Start(StartFault),
    // A session had told it already.
    Session,
    Device,
}

impl From<io::Error> for Fault {
    fn from(_: io::Error) -> Self {
        Fault::Device
    }
}

struct Words {
    port: u16,
    folder: PathBuf,
    sessions: usize,
}

impl Words {
    // `None` if they are wrong.
    fn read(mut words: impl Iterator<Item = String>) -> Option<Words> {
        let (mut port, mut folder, mut sessions) = (None, None, usize::MAX);
        if words.next()? != "serve" {
            return None;
        }
        while let Some(word) = words.next() {
            let (option, value) = match word.split_once('=') {
                Some((option, value)) => (option.to_owned(), value.to_owned()),
                None => (word, words.next()?),
            };
            match option.as_str() {
                "--port" => port = Some(value.parse().ok()?),
                "--log" => folder = Some(PathBuf::from(value)),
                "--sessions" => sessions = value.parse().ok().filter(|count| *count > 0)?,
                _ => return None,
            }
        }
        Some(Words {
            port: port?,
            folder: folder?,
            sessions,
        })
    }
}

fn print(bytes: &[u8]) -> io::Result<()> {
    let mut stdout = io::stdout().lock();
    stdout.write_all(bytes)?;
    stdout.flush()
}

fn serve(words: &Words) -> Result<(), Fault> {
    let (mut books, mut log) = open(&words.folder).map_err(Fault::Start)?;
    let listener = TcpListener::bind((Ipv4Addr::LOCALHOST, words.port))?;
    let mut out = Vec::new();
    push_digest(&mut out, &books, &log)?;
    writeln!(out, "listening {}", listener.local_addr()?)?;
    print(&out)?;
    for number in 1..=words.sessions {
        let (stream, _) = listener.accept()?;
        let served = serve_client(&stream, &mut books, &mut log);
        match &served {
            Ok(()) => print(format!("session {number} ok\n").as_bytes())?,
            Err(fault) => print(format!("session {number} fault {}\n", fault.number()).as_bytes())?,
        }
        if let Err(SessionFault::Log(error)) = served {
            eprintln!(
                "smallbank: log: {}: {error}",
                words.folder.join("log").display()
            );
            return Err(Fault::Session);
        }
    }
    let mut out = Vec::new();
    push_digest(&mut out, &books, &log)?;
    books.push_state(&mut out);
    Ok(print(&out)?)
}

fn serve_client(
    stream: &TcpStream,
    books: &mut Books,
    log: &mut LogFile,
) -> Result<(), SessionFault> {
    stream.set_nodelay(true).map_err(|_| SessionFault::Device)?;
    let served = Session::new(stream, books, log).serve(stream);
    if let Err(SessionFault::Frame | SessionFault::Unexpected) = served {
        hang_up(stream);
    }
    served
}

// Ends the sending side, and skips what the client still sends: if that stayed unread, what the
// client was sent could get lost on the way.
fn hang_up(stream: &TcpStream) {
    let _ = stream.shutdown(Shutdown::Write);
    let _ = io::copy(&mut stream.take(PASSED_OVER), &mut io::sink());
}

// The exit status, once it is told.
fn tell(fault: &Fault) -> u8 {
    match fault {
        Fault::Session => {}
        Fault::Device => eprintln!("smallbank: device"),
        Fault::Start(fault) => {
            fault.tell();
            return fault.status();
        }
    }
    3
}

fn main() -> ExitCode {
    let Some(words) = Words::read(env::args().skip(1)) else {
        eprintln!("usage: plain_durable serve --port P --log FOLDER [--sessions K] < OPENING");
        return ExitCode::from(2);
    };
    match serve(&words) {
        Ok(()) => ExitCode::SUCCESS,
        Err(fault) => ExitCode::from(tell(&fault)),
    }
}
