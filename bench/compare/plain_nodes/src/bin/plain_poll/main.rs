//! What `smallbank serve --port P --clients N [--log FOLDER]` does, in plain Rust: one thread that in
//! turns hears whoever has sent something, and tells outcomes once their asks are on disk. It hangs up
//! on a client too many.
//!
//! `plain_poll serve --port P --clients N [--log FOLDER] [--sessions K] < OPENING`. Without
//! `--sessions` it serves without end.

mod bank;
mod client;
mod server;

use bank::Bank;
use plain_nodes::books::Books;
use plain_nodes::starting::{StartFault, open, opening};
use server::{Server, ServerFault};
use std::env;
use std::io::{self, Write};
use std::net::{Ipv4Addr, TcpListener};
use std::path::PathBuf;
use std::process::ExitCode;

enum Fault {
    Start(StartFault),
    Server(ServerFault),
}

impl From<StartFault> for Fault {
    fn from(fault: StartFault) -> Self {
        Fault::Start(fault)
    }
}

impl From<io::Error> for Fault {
    fn from(_: io::Error) -> Self {
        Fault::Start(StartFault::Device)
    }
}

struct Words {
    port: u16,
    clients: usize,
    folder: Option<PathBuf>,
    sessions: u64,
}

impl Words {
    // `None` if they are wrong.
    fn read(mut words: impl Iterator<Item = String>) -> Option<Words> {
        let (mut port, mut clients, mut folder, mut sessions) = (None, None, None, u64::MAX);
        if words.next()? != "serve" {
            return None;
        }
        while let Some(word) = words.next() {
            let (option, value) = match word.split_once('=') {
                Some((option, value)) => (option.to_owned(), value.to_owned()),
                None => (word, words.next()?),
            };
            match option.as_str() {
                "--port" => port = Some(value.parse().ok()?),
                "--clients" => clients = value.parse().ok().filter(|count| *count > 0),
                "--log" => folder = Some(PathBuf::from(value)),
                "--sessions" => sessions = value.parse().ok().filter(|count| *count > 0)?,
                _ => return None,
            }
        }
        Some(Words {
            port: port?,
            clients: clients?,
            folder,
            sessions,
        })
    }
}

fn start(words: &Words) -> Result<Bank, StartFault> {
    let (books, log) = match &words.folder {
        Some(folder) => {
            let (books, log) = open(folder)?;
            (books, Some(log))
        }
        None => (Books::open(opening()?).map_err(StartFault::Input)?, None),
    };
    Ok(Bank { books, log })
}

fn serve(words: &Words) -> Result<(), Fault> {
    let mut bank = start(words)?;
    let listener = TcpListener::bind((Ipv4Addr::LOCALHOST, words.port))?;
    let mut out = Vec::new();
    bank.push_digest(&mut out)?;
    writeln!(out, "listening {}", listener.local_addr()?)?;
    print(&out)?;
    Server::new(listener, &mut bank, words.clients, words.sessions)?
        .run()
        .map_err(Fault::Server)?;
    let mut out = Vec::new();
    bank.push_digest(&mut out)?;
    bank.books.push_state(&mut out);
    Ok(print(&out)?)
}

fn print(bytes: &[u8]) -> io::Result<()> {
    let mut stdout = io::stdout().lock();
    stdout.write_all(bytes)?;
    stdout.flush()
}

fn main() -> ExitCode {
    let Some(words) = Words::read(env::args().skip(1)) else {
        eprintln!(
            "usage: plain_poll serve --port P --clients N [--log FOLDER] [--sessions K] < OPENING"
        );
        return ExitCode::from(2);
    };
    match serve(&words) {
        Ok(()) => ExitCode::SUCCESS,
        Err(Fault::Start(fault)) => {
            fault.tell();
            ExitCode::from(fault.status())
        }
        Err(Fault::Server(fault)) => {
            eprintln!("smallbank: {fault}");
            ExitCode::from(3)
        }
    }
}
