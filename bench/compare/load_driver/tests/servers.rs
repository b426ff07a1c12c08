//! The driver beside servers that answer well, and that don't.

mod running;

use running::ended;
use std::io::{Read, Write};
use std::net::{Shutdown, TcpListener, TcpStream};
use std::thread;

/// How a server answers the asks up to a flush.
#[derive(Clone, Copy)]
enum Manner {
    Well,
    Swapped,
    /// Without the first of them.
    Dropped,
    /// Without the last of them, and then silence.
    Short,
    /// The last one twice.
    Twice,
    OfAnotherClient,
    Garbage,
    /// Half an outcome, and then the end.
    HangsUp,
    /// Well, but it never ends its side.
    Stays,
}

const OUTCOME: usize = 21;
const KEY: std::ops::Range<usize> = 1..9;
const KIND: usize = 9;

/// A frame's body, or the client's end.
fn body(line: &mut TcpStream) -> Option<Vec<u8>> {
    let mut length = [0; 2];
    line.read_exact(&mut length).ok()?;
    let mut body = vec![0; usize::from(u16::from_be_bytes(length))];
    line.read_exact(&mut body).expect("a whole frame");
    Some(body)
}

/// The right outcome of an ask, in a bank where all goes well.
fn outcome(ask: &[u8]) -> [u8; OUTCOME] {
    let mut told = [0; OUTCOME];
    told[..3].copy_from_slice(&[0, 19, 5]);
    told[3..11].copy_from_slice(&ask[KEY]);
    told[12] = u8::from(ask[KIND] != 1);
    told
}

fn answer(manner: Manner, outcomes: &[[u8; OUTCOME]]) -> Vec<u8> {
    let mut told = outcomes.concat();
    let last = told.len() - OUTCOME;
    match manner {
        Manner::Well | Manner::Stays => {}
        Manner::Swapped => told.rotate_left(OUTCOME),
        Manner::Dropped => drop(told.drain(..OUTCOME)),
        Manner::Short => told.truncate(last),
        Manner::Twice => told.extend_from_within(last..),
        Manner::OfAnotherClient => told[last + 6] ^= 1,
        Manner::Garbage => told[0] = b'G',
        Manner::HangsUp => told.truncate(last + 10),
    }
    told
}

fn serve(mut line: TcpStream, manner: Manner) {
    let mut asked = Vec::new();
    while let Some(body) = body(&mut line) {
        if body[0] == 1 {
            asked.push(outcome(&body));
            continue;
        }
        // The driver hangs up once it has seen enough.
        let _ = line.write_all(&answer(manner, &asked));
        asked.clear();
        if let Manner::HangsUp = manner {
            let _ = line.shutdown(Shutdown::Write);
        }
    }
    if let Manner::Stays = manner {
        thread::park();
    }
}

/// The driver's status, output and error text beside a server of this manner.
fn load(manner: Manner, words: &[&str]) -> (Option<i32>, String, String) {
    let listener = TcpListener::bind("127.0.0.1:0").expect("a free port");
    let port = listener.local_addr().expect("it listens").port();
    thread::spawn(move || {
        for line in listener.incoming() {
            let line = line.expect("a client");
            thread::spawn(move || serve(line, manner));
        }
    });
    ended(&[&["--port", &port.to_string(), "--warm-up", "0"], words].concat())
}

fn is_caught(manner: Manner, expected: &str) {
    let words = [
        "--clients",
        "2",
        "--flush",
        "3",
        "--first-client",
        "8",
        "--patience",
        "1",
    ];
    let (status, output, error) = load(manner, &words);
    assert_eq!((status, &output[..]), (Some(1), ""), "{error}");
    assert!(
        error.contains(expected) && error.lines().count() == 1,
        "{error}"
    );
}

/// The heads and values of a line of values.
fn cells(output: &str) -> Vec<(&str, &str)> {
    let (heads, values) = output.split_once('\n').expect("two lines");
    heads.split(',').zip(values.trim_end().split(',')).collect()
}

fn cell(output: &str, name: &str) -> f64 {
    let found = cells(output).into_iter().find(|(head, _)| *head == name);
    found
        .and_then(|(_, value)| value.parse().ok())
        .expect("a number")
}

#[test]
fn all_asks_are_answered_and_counted() {
    for flush in ["1", "8", "500"] {
        for threads in ["1", "3"] {
            let words = [
                "--clients",
                "7",
                "--flush",
                flush,
                "--threads",
                threads,
                "--asks",
                "4000",
                "--csv",
            ];
            let (status, output, error) = load(Manner::Well, &words);
            assert_eq!((status, &error[..]), (Some(0), ""));
            let (shown, done) = (cell(&output, "shown"), cell(&output, "done"));
            assert_eq!(shown + done, 4_000.0, "{output}");
            assert!(cell(&output, "asks") <= 4_000.0 && cell(&output, "asks_a_second") > 0.0);
            assert!(cell(&output, "p50_us") <= cell(&output, "most_us"));
        }
    }
}

#[test]
fn a_rate_is_kept() {
    let words = [
        "--clients",
        "5",
        "--flush",
        "4",
        "--rate",
        "2000",
        "--seconds",
        "1",
        "--csv",
    ];
    let (status, output, error) = load(Manner::Well, &words);
    assert_eq!((status, &error[..]), (Some(0), ""));
    let all = cell(&output, "shown") + cell(&output, "done") + cell(&output, "not_asked");
    assert_eq!(all, 2_000.0, "{output}");
}

#[test]
fn what_a_client_asks_depends_on_its_seed_and_number() {
    let mixed = |words: &[&str]| {
        let asks = ["--asks", "300", "--csv"];
        let (status, output, _) = load(Manner::Well, &[&asks[..], words].concat());
        assert_eq!(status, Some(0));
        cell(&output, "shown")
    };
    let first = mixed(&[]);
    assert_eq!(mixed(&["--flush", "10"]), first);
    assert_ne!(mixed(&["--seed", "21"]), first);
    assert_ne!(mixed(&["--first-client", "2"]), first);
}

#[test]
fn outcomes_in_another_order() {
    is_caught(Manner::Swapped, "this is no outcome of request 1: ");
}

#[test]
fn an_outcome_is_missing() {
    is_caught(Manner::Dropped, "this is no outcome of request 1: ");
}

#[test]
fn the_last_outcome_is_missing() {
    is_caught(
        Manner::Short,
        "no byte for 1s before the outcome of request 3",
    );
}

#[test]
fn an_outcome_that_nobody_asked_for() {
    is_caught(Manner::Twice, "nobody asked for this: ");
}

#[test]
fn an_outcome_of_another_client() {
    is_caught(Manner::OfAnotherClient, "this is no outcome of request 3: ");
}

#[test]
fn garbage() {
    is_caught(
        Manner::Garbage,
        "this is no outcome of request 1: 471305000000",
    );
}

#[test]
fn a_server_that_hangs_up() {
    is_caught(
        Manner::HangsUp,
        "the server hung up before the outcome of request 3",
    );
}

#[test]
fn a_server_that_stays() {
    let (status, _, error) = load(Manner::Stays, &["--seconds", "0.1", "--patience", "1"]);
    let expected = "load: client 1: the server didn't hang up 1s after the client\n";
    assert_eq!((status, &error[..]), (Some(1), expected));
}
