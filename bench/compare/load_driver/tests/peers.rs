//! Asks and answers of Redis and PostgreSQL.

use load_driver::ask::{Asked, Call, Client, Key, Kind, Request};
use load_driver::customers::Name;
use load_driver::postgres::Postgres;
use load_driver::protocol::{Answer, Protocol, Wrong};
use load_driver::redis::{Counters, Procedure};
use load_driver::reply::Reply;

const KEY: Key = Key {
    client: Client(7),
    request: Request(12),
};
const COUNTERS: Counters = Counters { from: Request(1) };

fn spelled(protocol: &impl Protocol) -> Vec<u8> {
    let call = Call {
        kind: Kind::Pay,
        giver: &Name::of(0),
        taker: Some(&Name::of(19)),
    };
    let mut out = Vec::new();
    protocol.spell(KEY, &call, &mut out);
    out
}

fn asked(kind: Kind) -> Asked {
    Asked {
        key: KEY,
        kind,
        is_last: true,
    }
}

/// Reads this with something behind it, and each beginning of it, which waits for more.
fn is_read(protocol: &impl Protocol, kind: Kind, text: &[u8], reply: Reply) {
    let length = text.len();
    let followed = [text, b"behind"].concat();
    let told = protocol.read(&followed, asked(kind));
    assert_eq!(told, Ok(Some(Answer { reply, length })));
    for length in 0..length {
        assert_eq!(protocol.read(&text[..length], asked(kind)), Ok(None));
    }
}

fn is_wrong(protocol: &impl Protocol, kind: Kind, text: &[u8]) {
    let told = protocol.read(text, asked(kind));
    assert_eq!(told, Err(Wrong), "{}", text.escape_ascii());
}

#[test]
fn counters() {
    assert_eq!(spelled(&COUNTERS), b"*2\r\n$4\r\nINCR\r\n$6\r\nload:7\r\n");
    is_read(&COUNTERS, Kind::Pay, b":12\r\n", Reply::Done);
    for text in [
        &b":11\r\n"[..],
        b":13\r\n",
        b":x\r\n",
        b"-ERR\r\n",
        b":000000000000000000000012",
    ] {
        is_wrong(&COUNTERS, Kind::Pay, text);
    }
}

#[test]
fn a_procedure() {
    let procedure = Procedure {
        digest: "abcd".to_owned(),
    };
    assert_eq!(
        spelled(&procedure),
        b"*9\r\n$7\r\nEVALSHA\r\n$4\r\nabcd\r\n$1\r\n0\r\n$1\r\n7\r\n$2\r\n12\r\n$3\r\npay\r\n\
          $10\r\ncustomer_0\r\n$11\r\ncustomer_19\r\n$3\r\n500\r\n"
    );
    is_read(
        &procedure,
        Kind::Pay,
        b"$14\r\nwould overdraw\r\n",
        Reply::WouldOverdraw,
    );
    is_read(
        &procedure,
        Kind::Balance,
        b"$9\r\nshown -20\r\n",
        Reply::Shown,
    );
    for text in [
        &b"-NOSCRIPT\r\n"[..],
        b"$4\r\ndone__",
        b"$4\r\nnone\r\n",
        b"$-1\r\n",
    ] {
        is_wrong(&procedure, Kind::Pay, text);
    }
    is_wrong(&procedure, Kind::Balance, b"$7\r\nshown x\r\n");
    is_wrong(&procedure, Kind::Balance, b"$4\r\ndone\r\n");
}

const BOUND: &[u8] = b"2\0\0\0\x04";
const DONE: &[u8] = b"D\0\0\0\x0e\0\x01\0\0\0\x04done";
const LOCKED: &[u8] = b"D\0\0\0\x0a\0\x01\0\0\0\0";
const COMPLETE: &[u8] = b"C\0\0\0\x0dSELECT 1\0";
const READY: &[u8] = b"Z\0\0\0\x05I";

const ALONE: Postgres = Postgres { is_alone: true };
const BATCH: Postgres = Postgres { is_alone: false };

#[test]
fn a_statement() {
    let expected =
        b"B\0\0\0\x48\0asking\0\0\0\0\x06\0\0\0\x017\0\0\0\x0212\0\0\0\x03pay\0\0\0\x0acustomer_0\
                     \0\0\0\x0bcustomer_19\0\0\0\x03500\0\0E\0\0\0\x09\0\0\0\0\0";
    assert_eq!(spelled(&ALONE), expected);
    // By the lengths that its two messages say.
    assert_eq!(expected.len(), 1 + 0x48 + 1 + 9);
    let text = [BOUND, DONE, COMPLETE, READY].concat();
    is_read(&ALONE, Kind::Pay, &text, Reply::Done);
    // No row, two of them, a row that is too short, a fault, a message of no kind.
    is_wrong(&ALONE, Kind::Pay, &[BOUND, COMPLETE, READY].concat());
    is_wrong(&ALONE, Kind::Pay, &[BOUND, DONE, DONE].concat());
    is_wrong(&ALONE, Kind::Pay, b"D\0\0\0\x0e\0\x01\0\0\0\x05done");
    is_wrong(&ALONE, Kind::Pay, b"E\0\0\0\x05\0");
    is_wrong(&ALONE, Kind::Pay, b"D\0\0\0\x03");
    is_wrong(&ALONE, Kind::Balance, &text);
}

#[test]
fn a_batch_of_statements_locks_its_rows_first() {
    let (giver, taker) = (Name::of(0), Name::of(19));
    let call = |kind: Kind| Call {
        kind,
        giver: &giver,
        taker: kind.has_taker().then_some(&taker),
    };
    let locks = |calls: &[Call]| {
        let (mut out, mut end) = (Vec::new(), Vec::new());
        BATCH.begin_batch(calls, &mut out);
        BATCH.end_batch(&mut end);
        assert_eq!(end, b"S\0\0\0\x04");
        out
    };
    let calls = [call(Kind::Pay), call(Kind::Balance), call(Kind::Check)];
    let expected =
        b"B\0\0\0\x3a\0locking\0\0\0\0\x01\0\0\0\x23{customer_0,customer_19,customer_0}\0\0\
                     E\0\0\0\x09\0\0\0\0\0";
    assert_eq!(locks(&calls), expected);
    assert_eq!(expected.len(), 1 + 0x3a + 1 + 9);
    let expected = b"B\0\0\0\x19\0locking\0\0\0\0\x01\0\0\0\x02{}\0\0E\0\0\0\x09\0\0\0\0\0";
    assert_eq!(locks(&calls[1..2]), expected);
}

#[test]
fn only_the_last_of_a_batch_waits_until_all_is_committed() {
    let first = Asked {
        is_last: false,
        ..asked(Kind::Pay)
    };
    let told = [BOUND, LOCKED, COMPLETE, BOUND, DONE, COMPLETE].concat();
    let all = [&told[..], BOUND, DONE, COMPLETE, READY].concat();
    let (reply, length) = (Reply::Done, told.len());
    assert_eq!(BATCH.read(&all, first), Ok(Some(Answer { reply, length })));
    assert_eq!(BATCH.read(&told[..length - 1], first), Ok(None));
    is_read(&BATCH, Kind::Pay, &all[length..], Reply::Done);
    // It is over too early.
    let early = [BOUND, DONE, READY].concat();
    assert_eq!(BATCH.read(&early, first), Err(Wrong));
}
