//! The vectors of the formats, and each fault.

use super::FrameFault::*;
use super::*;

/// The bytes of a hexadecimal text. Its spaces are only separators.
fn bytes(text: &str) -> Vec<u8> {
    let digits: Vec<u8> = text.bytes().filter(|byte| *byte != b' ').collect();
    let value = |digit: u8| (digit as char).to_digit(16).expect("a digit") as u8;
    digits
        .chunks(2)
        .map(|pair| value(pair[0]) << 4 | value(pair[1]))
        .collect()
}

fn vectors() -> [(Frame<'static>, &'static str); 10] {
    let balance = Call::Balance(b"alice");
    let deposit = Call::Deposit(b"bob", 500);
    let shown = Outcome::Replied(Reply::Shown(15_000));
    let done = Outcome::Replied(Reply::Done);
    let ask = |request, call| Frame::Ask {
        key: (7, request),
        call,
    };
    let told = |request, outcome| Frame::Outcome {
        key: (7, request),
        outcome,
    };
    let entry = Frame::Entry {
        number: 1,
        call: balance,
    };
    let payment = Frame::Entry {
        number: 1,
        call: Call::Pay(b"bob", b"alice", 2_000),
    };
    let ack = Frame::Ack {
        replica: 1,
        length: 2,
    };
    let answer = Frame::Answer {
        number: 2,
        reply: Reply::Done,
    };
    let have = Frame::Have {
        replica: 1,
        length: 2,
    };
    [
        (
            ask(1, balance),
            "0010 01 00000007 00000001 01 05 616c696365",
        ),
        (
            ask(2, deposit),
            "0016 01 00000007 00000002 02 03 626f62 00000000000001f4",
        ),
        (entry, "0010 02 0000000000000001 01 05 616c696365"),
        (
            payment,
            "001c 02 0000000000000001 06 03 626f62 05 616c696365 00000000000007d0",
        ),
        (ack, "000a 03 01 0000000000000002"),
        (answer, "0012 04 0000000000000002 01 0000000000000000"),
        (
            told(1, shown),
            "0013 05 00000007 00000001 00 00 0000000000003a98",
        ),
        (
            told(2, done),
            "0013 05 00000007 00000002 00 01 0000000000000000",
        ),
        (Frame::Flush, "0001 06"),
        (have, "000a 07 01 0000000000000002"),
    ]
}

fn check_fault(text: &str, fault: FrameFault) {
    assert_eq!(read_frame(&bytes(text)), Err(fault), "{text}");
}

#[test]
fn vectors_both_ways() {
    for (frame, text) in vectors() {
        let expected = bytes(text);
        let mut written = b"before".to_vec();
        push_frame(&mut written, &frame);
        assert_eq!(written, [b"before", &expected[..]].concat());
        let mut followed = expected;
        followed.extend_from_slice(b"behind");
        assert_eq!(read_frame(&followed), Ok((frame, &b"behind"[..])));
    }
}

#[test]
fn each_beginning_of_a_frame_is_short() {
    for (_, text) in vectors() {
        let whole = bytes(text);
        for length in 0..whole.len() {
            assert_eq!(read_frame(&whole[..length]), Err(Short));
        }
    }
}

#[test]
fn an_outcome_has_its_bytes() {
    for (frame, text) in vectors() {
        if matches!(frame, Frame::Outcome { .. }) {
            assert_eq!(bytes(text).len(), OUTCOME_FRAME);
        }
    }
}

#[test]
fn other_outcomes_have_no_reply() {
    for (status, outcome) in [("01", Outcome::Mismatch), ("02", Outcome::LogFull)] {
        let frame = Frame::Outcome {
            key: (7, 1),
            outcome,
        };
        let mut written = Vec::new();
        push_frame(&mut written, &frame);
        let text = format!("0013 05 00000007 00000001 {status} 00 0000000000000000");
        assert_eq!(written, bytes(&text));
        assert_eq!(read_frame(&written), Ok((frame, &b""[..])));
        for reply in ["01 0000000000000000", "00 0000000000000001"] {
            check_fault(
                &format!("0013 05 00000007 00000001 {status} {reply}"),
                BadReply,
            );
        }
    }
}

#[test]
fn faults_have_their_numbers() {
    let faults = [
        Short, BadLength, UnknownTag, BadName, BadAmount, BadReply, BadStatus,
    ];
    assert_eq!(faults.map(|fault| fault as u8), [1, 2, 3, 4, 5, 6, 7]);
}

#[test]
fn lengths() {
    check_fault("0000", BadLength);
    check_fault("0041", BadLength);
    check_fault("0040", Short);
    // The length is judged before the body is there, the tag only afterwards.
    check_fault("0002 09", Short);
    check_fault("0001 09", UnknownTag);
    check_fault("0001 08", UnknownTag);
    check_fault("0001 00", UnknownTag);
    // One byte more, and one less.
    check_fault("000b 03 01 0000000000000002 00", BadLength);
    check_fault("0009 03 01 00000000000000", BadLength);
    check_fault("0002 06 00", BadLength);
    // An amount behind a balance.
    check_fault(
        "0018 01 00000007 00000001 01 05 616c696365 0000000000000000",
        BadLength,
    );
}

#[test]
fn calls() {
    check_fault("0010 01 00000007 00000001 00 05 616c696365", UnknownTag);
    check_fault("0010 01 00000007 00000001 07 05 616c696365", UnknownTag);
    check_fault("0009 01 00000007 00000001", BadLength);
    // A name's length is judged before its bytes, and these before what follows.
    check_fault("000b 01 00000007 00000001 01 00", BadName);
    check_fault("000b 01 00000007 00000001 01 15", BadName);
    check_fault("000b 01 00000007 00000001 01 14", BadLength);
    check_fault("0010 01 00000007 00000001 01 05 416c696365", BadName);
    check_fault("000c 01 00000007 00000001 02 01 41", BadName);
    check_fault("000c 01 00000007 00000001 02 01 61", BadLength);
    check_fault("000e 01 00000007 00000001 04 01 61 01 2d", BadName);
    check_fault("000e 01 00000007 00000001 06 01 61 01 2d", BadName);
    check_fault("000e 01 00000007 00000001 06 01 61 01 62", BadLength);
    check_fault(
        "0016 01 00000007 00000001 06 01 61 01 62 000000e8d4a51001",
        BadAmount,
    );
    check_fault(
        "0017 01 00000007 00000001 06 01 61 01 62 0000000000000001 00",
        BadLength,
    );
}

#[test]
fn the_longest_body_has_60_bytes() {
    let name = [b'z'; NAME];
    let call = Call::Pay(&name, &name, -LIMIT);
    let mut written = Vec::new();
    let key = (u32::MAX, u32::MAX);
    push_frame(&mut written, &Frame::Ask { key, call });
    assert_eq!((written[1], written.len()), (60, 62));
    let read = read_frame(&written);
    assert_eq!(read, Ok((Frame::Ask { key, call }, &b""[..])));
}

#[test]
fn amounts() {
    let deposit = "0014 01 00000007 00000002 02 01 61";
    check_fault(&format!("{deposit} 000000e8d4a51001"), BadAmount);
    check_fault(&format!("{deposit} ffffff172b5aefff"), BadAmount);
    check_fault(&format!("{deposit} 8000000000000000"), BadAmount);
    for (amount, text) in [
        (LIMIT, "000000e8d4a51000"),
        (-LIMIT, "ffffff172b5af000"),
        (0, "0000000000000000"),
    ] {
        let frame = Frame::Ask {
            key: (7, 2),
            call: Call::Deposit(b"a", amount),
        };
        let whole = bytes(&format!("{deposit} {text}"));
        assert_eq!(read_frame(&whole), Ok((frame, &b""[..])));
    }
}

#[test]
fn replies() {
    let answer = "0012 04 0000000000000002";
    for code in 1..=7 {
        let whole = bytes(&format!("{answer} 0{code} 0000000000000000"));
        let Ok((frame @ Frame::Answer { number: 2, .. }, &[])) = read_frame(&whole) else {
            panic!("no answer: {whole:?}");
        };
        let mut written = Vec::new();
        push_frame(&mut written, &frame);
        assert_eq!(written, whole);
        check_fault(&format!("{answer} 0{code} 0000000000000001"), BadReply);
    }
    check_fault(&format!("{answer} 08 0000000000000000"), BadReply);
    check_fault(&format!("{answer} 00 000001d1a94a2001"), BadReply);
    check_fault(&format!("{answer} 00 fffffe2e56b5dfff"), BadReply);
    check_fault(&format!("{answer} 00 8000000000000000"), BadReply);
    check_fault("0011 04 0000000000000002 08 00000000000000", BadLength);
    for (total, text) in [
        (2 * LIMIT, "000001d1a94a2000"),
        (-2 * LIMIT, "fffffe2e56b5e000"),
    ] {
        let reply = Reply::Shown(total);
        let frame = Frame::Answer { number: 2, reply };
        let whole = bytes(&format!("{answer} 00 {text}"));
        assert_eq!(read_frame(&whole), Ok((frame, &b""[..])));
    }
}

#[test]
fn a_status_comes_before_its_reply() {
    check_fault(
        "0013 05 00000007 00000001 03 09 0000000000000001",
        BadStatus,
    );
    check_fault("000a 05 00000007 00000001 03", BadStatus);
    check_fault("0012 05 00000007 00000001 00 08 00000000000001", BadLength);
}
