//! What `smallbank serve --port P --sessions K --workers W` does, in plain Rust.
//!
//! `plain_serve --port P [--sessions K] [--workers W] < OPENING`. It serves clients one after the
//! other. This thread is the dispatcher; workers, if there are any, are threads.

use plain_nodes::crew::{Bench, Crew, InPlace, Threads};
use plain_nodes::running::{Fault, push_state};
use plain_nodes::session::{Primary, SessionFault, serve_session};
use plain_nodes::shared::bank::Bank;
use plain_nodes::shared::input::{self, LineFault, lines};
use std::env;
use std::io::{self, Read, Write};
use std::net::{Ipv4Addr, Shutdown, TcpListener, TcpStream};
use std::process::ExitCode;
use std::thread;

// How many bytes of a client at fault are skipped, so that it can read what it was sent.
const PASSED_OVER: u64 = 1024 * 1024;

struct Words {
    port: u16,
    sessions: usize,
    workers: usize,
}

impl Words {
    // `None` if they are wrong.
    fn read(mut words: impl Iterator<Item = String>) -> Option<Words> {
        let (mut port, mut sessions, mut workers) = (None, 1, 0);
        while let Some(word) = words.next() {
            let (option, value) = match word.split_once('=') {
                Some((option, value)) => (option.to_owned(), value.to_owned()),
                None => (word, words.next()?),
            };
            match option.as_str() {
                "--port" => port = Some(value.parse().ok()?),
                "--sessions" => sessions = value.parse().ok()?,
                "--workers" => workers = value.parse().ok()?,
                _ => return None,
            }
        }
        let is_known = (1..=1_000).contains(&sessions) && workers <= 16;
        is_known.then_some(Words {
            port: port?,
            sessions,
            workers,
        })
    }
}

// An opening with nothing after it.
fn opening(text: &[u8]) -> Result<Bank<'_>, LineFault> {
    let mut lines = lines(text).zip(1..);
    let bank = Bank::read(&mut lines)?;
    match lines.next() {
        None => Ok(bank),
        Some((_, line)) => Err(LineFault {
            line,
            fault: input::Fault::BadLine,
        }),
    }
}

fn serve(words: &Words) -> Result<(), Fault> {
    let mut text = Vec::new();
    io::stdin().lock().read_to_end(&mut text)?;
    let bank = opening(&text)?;
    let mut primary = Primary::open(&bank);
    let listener = TcpListener::bind((Ipv4Addr::LOCALHOST, words.port))?;
    let mut stdout = io::stdout().lock();
    writeln!(stdout, "listening {}", listener.local_addr()?)?;
    let bench = Bench::default();
    thread::scope(|scope| {
        let (out, bank) = (&mut stdout, &mut primary);
        if words.workers == 0 {
            serve_all(&listener, out, words.sessions, bank, &mut InPlace)
        } else {
            let mut crew = Threads::start(scope, &bench, words.workers)?;
            serve_all(&listener, out, words.sessions, bank, &mut crew)
        }
    })?;
    let mut output = Vec::new();
    push_state(&mut output, &bank, &primary.node.board);
    stdout.write_all(&output)?;
    Ok(stdout.flush()?)
}

fn serve_all(
    listener: &TcpListener,
    stdout: &mut impl Write,
    sessions: usize,
    primary: &mut Primary,
    crew: &mut impl Crew,
) -> Result<(), Fault> {
    for session in 1..=sessions {
        let (stream, _) = listener.accept()?;
        let served = serve_client(stream, primary, crew);
        let ends = matches!(served, Err(SessionFault::CrewGone));
        if !ends {
            primary.settle(crew)?;
        }
        match served {
            Ok(()) => writeln!(stdout, "session {session} ok")?,
            Err(fault) => writeln!(stdout, "session {session} fault {}", fault.number())?,
        }
        if ends {
            return Err(Fault::CrewGone);
        }
    }
    Ok(())
}

fn serve_client(
    stream: TcpStream,
    primary: &mut Primary,
    crew: &mut impl Crew,
) -> Result<(), SessionFault> {
    stream.set_nodelay(true).map_err(|_| SessionFault::Device)?;
    let served = serve_session(&mut &stream, &mut &stream, primary, crew);
    if let Err(SessionFault::Frame(_) | SessionFault::Unexpected) = served {
        hang_up(&stream);
    }
    served
}

// Ends the sending side, and skips what the client still sends: if that stayed unread, what the
// client was sent could get lost on the way.
fn hang_up(stream: &TcpStream) {
    let _ = stream.shutdown(Shutdown::Write);
    let _ = io::copy(&mut stream.take(PASSED_OVER), &mut io::sink());
}

fn main() -> ExitCode {
    let Some(words) = Words::read(env::args().skip(1)) else {
        eprintln!("usage: plain_serve --port P [--sessions 1..1000] [--workers 0..16] < OPENING");
        return ExitCode::from(2);
    };
    match serve(&words) {
        Ok(()) => ExitCode::SUCCESS,
        Err(fault) => {
            eprintln!("smallbank: {fault}");
            ExitCode::from(fault.status())
        }
    }
}
