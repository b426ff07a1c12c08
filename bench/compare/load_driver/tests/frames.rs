//! Asks and outcomes as frames, byte by byte.

use load_driver::ask::{Asked, Call, Client, Key, Kind, Request};
use load_driver::customers::Name;
use load_driver::frames::Frames;
use load_driver::protocol::{Answer, Protocol, Wrong};
use load_driver::reply::Reply;

const KEY: Key = Key {
    client: Client(7),
    request: Request(1),
};

/// The bytes of a hexadecimal text. Its spaces are only separators.
fn bytes(text: &str) -> Vec<u8> {
    let digits: Vec<u8> = text.bytes().filter(|byte| *byte != b' ').collect();
    let value = |digit: u8| (digit as char).to_digit(16).expect("a digit") as u8;
    digits
        .chunks(2)
        .map(|pair| value(pair[0]) << 4 | value(pair[1]))
        .collect()
}

fn asked(kind: Kind) -> Asked {
    let is_last = true;
    Asked {
        key: KEY,
        kind,
        is_last,
    }
}

fn read(kind: Kind, text: &str) -> Result<Option<Answer>, Wrong> {
    Frames.read(&bytes(text), asked(kind))
}

fn is_wrong(kind: Kind, text: &str) {
    assert_eq!(read(kind, text), Err(Wrong), "{kind:?}, {text}");
}

#[test]
fn all_kinds_are_spelled() {
    let (giver, taker) = (Name::of(0), Name::of(65_535));
    for (kind, expected) in [
        (
            Kind::Balance,
            "0015 01 00000007 00000001 01 0a 637573746f6d65725f30",
        ),
        (
            Kind::Deposit,
            "001d 01 00000007 00000001 02 0a 637573746f6d65725f30 0000000000000082",
        ),
        (
            Kind::Savings,
            "001d 01 00000007 00000001 03 0a 637573746f6d65725f30 00000000000007e4",
        ),
        (
            Kind::Amalgamate,
            "0024 01 00000007 00000001 04 0a 637573746f6d65725f30 0e 637573746f6d65725f3635353335",
        ),
        (
            Kind::Check,
            "001d 01 00000007 00000001 05 0a 637573746f6d65725f30 00000000000001f4",
        ),
        (
            Kind::Pay,
            "002c 01 00000007 00000001 06 0a 637573746f6d65725f30 0e 637573746f6d65725f3635353335 00000000000001f4",
        ),
    ] {
        let call = Call {
            kind,
            giver: &giver,
            taker: kind.has_taker().then_some(&taker),
        };
        let mut out = b"before".to_vec();
        Frames.spell(KEY, &call, &mut out);
        Frames.end_batch(&mut out);
        let expected = [b"before", &bytes(expected)[..], &bytes("0001 06")].concat();
        assert_eq!(out, expected, "{kind:?}");
    }
}

#[test]
fn all_replies_are_read() {
    for (kind, text, reply) in [
        (Kind::Balance, "00 00 0000000000003a98", Reply::Shown),
        (Kind::Balance, "00 00 fffffe2ee52f7000", Reply::Shown),
        (Kind::Deposit, "00 01 0000000000000000", Reply::Done),
        (Kind::Check, "00 02 0000000000000000", Reply::Penalised),
        (Kind::Balance, "00 03 0000000000000000", Reply::NoCustomer),
        (Kind::Pay, "00 04 0000000000000000", Reply::SameCustomer),
        (
            Kind::Savings,
            "00 06 0000000000000000",
            Reply::WouldOverdraw,
        ),
        (Kind::Amalgamate, "00 07 0000000000000000", Reply::OverLimit),
        (Kind::Balance, "01 00 0000000000000000", Reply::Mismatch),
        (Kind::Deposit, "02 00 0000000000000000", Reply::LogFull),
    ] {
        let text = format!("0013 05 00000007 00000001 {text} 0013");
        let length = 21;
        assert_eq!(
            read(kind, &text),
            Ok(Some(Answer { reply, length })),
            "{text}"
        );
    }
}

#[test]
fn each_beginning_of_an_outcome_waits_for_more() {
    let whole = bytes("0013 05 00000007 00000001 00 00 0000000000003a98");
    for length in 0..whole.len() {
        let told = Frames.read(&whole[..length], asked(Kind::Balance));
        assert_eq!(told, Ok(None));
    }
}

#[test]
fn outcomes_of_other_asks_are_wrong() {
    // Another client, another request, and an outcome of neither that isn't whole yet.
    is_wrong(
        Kind::Deposit,
        "0013 05 00000006 00000001 00 01 0000000000000000",
    );
    is_wrong(
        Kind::Deposit,
        "0013 05 00000007 00000002 00 01 0000000000000000",
    );
    is_wrong(Kind::Deposit, "0013 05 00000007 00000002");
    // A reply that calls of this kind don't get.
    is_wrong(
        Kind::Balance,
        "0013 05 00000007 00000001 00 01 0000000000000000",
    );
    is_wrong(
        Kind::Deposit,
        "0013 05 00000007 00000001 00 00 0000000000000000",
    );
    is_wrong(
        Kind::Deposit,
        "0013 05 00000007 00000001 00 05 0000000000000000",
    );
    is_wrong(
        Kind::Check,
        "0013 05 00000007 00000001 00 04 0000000000000000",
    );
}

#[test]
fn what_is_no_outcome_is_wrong() {
    for text in [
        // Other lengths and tags.
        "0014",
        "01",
        "0013 04",
        "0001 06",
        // A status, a code, totals.
        "0013 05 00000007 00000001 03 00 0000000000000000",
        "0013 05 00000007 00000001 00 08 0000000000000000",
        "0013 05 00000007 00000001 00 00 000001d1a94a2001",
        "0013 05 00000007 00000001 00 03 0000000000000001",
        "0013 05 00000007 00000001 01 00 0000000000000001",
        "0013 05 00000007 00000001 02 01 0000000000000000",
    ] {
        is_wrong(Kind::Balance, text);
    }
}
