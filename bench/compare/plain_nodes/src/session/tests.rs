//! Sessions over memory, worked out by hand.

use super::*;
use crate::crew::InPlace;
use crate::frames::OUTCOME_FRAME;
use crate::shared::input::{asking, lines};
use std::io;

const OPENING: &[u8] = b"alice 100.00 50.00\nbob 0.00 20.00\ncarol 10.00 0.00\nbegin\n";
const FLUSH: &[u8] = &[0, 1, 6];

fn bank() -> Bank<'static> {
    Bank::read(&mut lines(OPENING).zip(1..)).unwrap_or_else(|_| panic!("an opening"))
}

/// An ask of client 7 by its line.
fn ask(request: u32, line: &str) -> Vec<u8> {
    let (_, call) = asking(line.as_bytes()).expect("a call");
    let mut bytes = Vec::new();
    let key = (7, request);
    push_frame(&mut bytes, &Frame::Ask { key, call });
    bytes
}

/// A balance, a deposit, a flush, the balance again, a flush.
fn asked_again() -> Vec<u8> {
    let (balance, deposit) = (ask(1, "balance alice"), ask(2, "deposit bob 5.00"));
    [&balance, &deposit[..], FLUSH, &balance, FLUSH].concat()
}

const SHOWN: [u8; OUTCOME_FRAME] = [
    0, 0x13, 5, 0, 0, 0, 7, 0, 0, 0, 1, 0, 0, 0, 0, 0, 0, 0, 0, 0x3a, 0x98,
];
const DONE: [u8; OUTCOME_FRAME] = [
    0, 0x13, 5, 0, 0, 0, 7, 0, 0, 0, 2, 0, 1, 0, 0, 0, 0, 0, 0, 0, 0,
];

/// Hands out at most this many bytes at a time.
struct Pieces<'a> {
    bytes: &'a [u8],
    most: usize,
}

impl Read for Pieces<'_> {
    fn read(&mut self, buffer: &mut [u8]) -> io::Result<usize> {
        let count = self.most.min(buffer.len());
        self.bytes.read(&mut buffer[..count])
    }
}

/// Serves these bytes, and answers how the session ended and what was written.
fn serve(primary: &mut Primary, bytes: &[u8], most: usize) -> (Result<(), SessionFault>, Vec<u8>) {
    let mut written = Vec::new();
    let mut pieces = Pieces { bytes, most };
    let ended = serve_session(&mut pieces, &mut written, primary, &mut InPlace);
    (ended, written)
}

#[test]
fn a_session_in_pieces_of_any_size() {
    let bank = bank();
    let expected = [SHOWN, DONE, SHOWN].concat();
    assert_eq!(expected.len(), 63);
    for most in [1, 2, 3, 17, 64, 1_000] {
        let mut primary = Primary::open(&bank);
        let (ended, written) = serve(&mut primary, &asked_again(), most);
        assert_eq!((ended, &written), (Ok(()), &expected));
        assert_eq!(
            primary.node.board.balances(),
            [10_000, 5_000, 0, 2_500, 1_000, 0]
        );
    }
}

#[test]
fn another_call_under_a_key_of_an_earlier_session() {
    let bank = bank();
    let mut primary = Primary::open(&bank);
    let (ended, _) = serve(&mut primary, &asked_again(), 1);
    assert_eq!(ended, Ok(()));
    let other = [&ask(1, "deposit alice 1.00"), FLUSH].concat();
    let mut mismatch = [0; OUTCOME_FRAME];
    mismatch[..11].copy_from_slice(&SHOWN[..11]);
    mismatch[11] = 1;
    assert_eq!(serve(&mut primary, &other, 1), (Ok(()), mismatch.to_vec()));
    assert_eq!(primary.node.board.length(), 2);
}

#[test]
fn faults() {
    let bank = bank();
    let entry = [
        0, 0x10, 2, 0, 0, 0, 0, 0, 0, 0, 1, 1, 5, b'a', b'l', b'i', b'c', b'e',
    ];
    let have = [0, 0xa, 7, 1, 0, 0, 0, 0, 0, 0, 0, 2];
    let half = &ask(1, "balance alice")[..17];
    for (bytes, fault) in [
        (&entry[..], SessionFault::Unexpected),
        (&have, SessionFault::Unexpected),
        (half, SessionFault::Frame(FrameFault::Short)),
        (&[0], SessionFault::Frame(FrameFault::Short)),
        (&[0, 0], SessionFault::Frame(FrameFault::BadLength)),
        (&[0, 1, 9], SessionFault::Frame(FrameFault::UnknownTag)),
    ] {
        let mut primary = Primary::open(&bank);
        assert_eq!(serve(&mut primary, bytes, 1), (Err(fault), Vec::new()));
        // What came before the fault is answered and kept, and what waits is kept.
        let rest = [&asked_again(), &ask(3, "deposit bob 1.00"), bytes].concat();
        let told = [SHOWN, DONE, SHOWN].concat();
        assert_eq!(serve(&mut primary, &rest, 1_000), (Err(fault), told));
        assert_eq!(primary.node.board.length(), 3);
    }
}

#[test]
fn asks_after_the_last_flush() {
    let bank = bank();
    let mut primary = Primary::open(&bank);
    let asks = [ask(1, "deposit alice 1.00"), ask(2, "deposit bob 1.00")].concat();
    assert_eq!(serve(&mut primary, &asks, 7), (Ok(()), Vec::new()));
    assert_eq!(
        primary.node.board.balances(),
        [10_000, 5_100, 0, 2_100, 1_000, 0]
    );
    assert_eq!(serve(&mut primary, FLUSH, 7), (Ok(()), Vec::new()));
}

#[test]
fn more_asks_than_a_board_has_open() {
    let bank = bank();
    let mut primary = Primary::open(&bank);
    let mut bytes = Vec::new();
    for request in 0..5_000 {
        bytes.extend_from_slice(&ask(request, "deposit alice 0.01"));
    }
    bytes.extend_from_slice(FLUSH);
    let (ended, written) = serve(&mut primary, &bytes, 1_000_000);
    assert_eq!((ended, written.len()), (Ok(()), 5_000 * OUTCOME_FRAME));
    assert_eq!(primary.node.board.balances()[1], 10_000);
}

#[test]
fn payments() {
    let bank = bank();
    let calls = [
        ("pay bob alice 20.00", 1),
        ("pay alice bob 70.01", 6),
        ("pay bob carol 0.01", 6),
        ("pay zed zed 1.00", 3),
        ("pay bob bob -1.00", 4),
        ("pay alice bob -0.01", 5),
        ("deposit carol 10000000000.00", 1),
        ("pay alice carol 0.01", 7),
        ("pay carol bob 10000000000.00", 1),
    ];
    let mut bytes = Vec::new();
    for (request, (line, _)) in (1..).zip(calls) {
        bytes.extend_from_slice(&ask(request, line));
    }
    bytes.extend_from_slice(FLUSH);
    let mut primary = Primary::open(&bank);
    let (ended, written) = serve(&mut primary, &bytes, 1_000);
    // The code follows the length, the tag, the key and the status.
    let codes: Vec<u8> = written.chunks(OUTCOME_FRAME).map(|told| told[12]).collect();
    assert_eq!((ended, codes), (Ok(()), calls.map(|(_, code)| code).into()));
    assert_eq!(
        primary.node.board.balances(),
        [10_000, 7_000, 0, 1_000_000_000_000, 1_000, 0]
    );
}
