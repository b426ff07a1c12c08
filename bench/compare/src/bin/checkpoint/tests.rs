//! The vector of the formats in both layouts, and what is refused.

use super::*;

const CENTS: i64 = 18_000;

/// The vector, of a bank that opened with 180.00, and both layouts of it.
fn vector() -> (Checkpoint, Vec<u8>, Vec<u8>) {
    let mut replies = vec![Reply::Done; 5];
    replies[0] = Reply::Shown(15_000);
    let checkpoint = Checkpoint {
        savings: vec![0, 0, 0],
        checking: vec![0, 2_500, 0],
        replies,
    };
    let head = [0, 0, 0, 0, 0, 0, 0, 5, 0, 0, 0, 3];
    let amount = |cents: i64| cents.to_be_bytes();
    let columns = [0, 0, 0, 0, 2_500, 0, 2_500].map(amount).concat();
    let mut cells = vec![0];
    cells.extend(amount(15_000));
    for _ in 0..4 {
        cells.extend([1, 0, 0, 0, 0, 0, 0, 0, 0]);
    }
    let first = [&b"SBCKPT01"[..], &head, &columns, &cells].concat();
    let second = [&b"SBCKPT02"[..], &head, &columns, &amount(CENTS), &cells].concat();
    (checkpoint, first, second)
}

/// The fault of these bytes, for a bank that opened with this total.
fn fault(bytes: &[u8], cents: i64) -> Option<Fault> {
    read(bytes, 3, cents).err()
}

fn with(bytes: &[u8], place: usize, others: &[u8]) -> Vec<u8> {
    let mut changed = bytes.to_vec();
    changed[place..place + others.len()].copy_from_slice(others);
    changed
}

#[test]
fn the_second_layout_is_written_and_both_are_read() {
    let (checkpoint, first, second) = vector();
    assert_eq!((first.len(), second.len()), (121, 129));
    assert_eq!(write(&checkpoint, CENTS), second);
    assert_eq!(read(&second, 3, CENTS), Ok(vector().0));
    for cents in [CENTS, CENTS + 1, i64::MIN, i64::MAX] {
        assert_eq!(read(&first, 3, cents), Ok(vector().0));
    }
}

#[test]
fn each_beginning_is_short() {
    let (_, first, second) = vector();
    for whole in [first, second] {
        for length in 0..whole.len() {
            assert_eq!(fault(&whole[..length], CENTS), Some(Fault::Short));
        }
    }
}

#[test]
fn the_first_fault_counts() {
    let (_, first, second) = vector();
    // Bytes of the magic, the length, the customers, the first savings balance, the total.
    let before: [(usize, &[u8], Fault); 6] = [
        (7, b"0", Fault::BadMagic),
        (15, &[6], Fault::Short),
        (19, &[2], Fault::WrongCustomers),
        (22, &[1], Fault::OutOfRange),
        (20, &[0xff; 8], Fault::NegativeSavings),
        (75, &[0], Fault::WrongTotal),
    ];
    for (place, others, expected) in before {
        let changed = with(&second, place, others);
        assert_eq!(fault(&changed, CENTS), Some(expected));
        // Another opening total is found later.
        assert_eq!(fault(&changed, CENTS + 1), Some(expected));
    }
    // A reply, the length, a byte more.
    let longer = [&second[..], &[0]].concat();
    for (changed, expected) in [
        (second.clone(), None),
        (with(&second, 93, &[8]), Some(Fault::BadReply)),
        (with(&second, 15, &[4]), Some(Fault::Long)),
        (longer, Some(Fault::Long)),
    ] {
        assert_eq!(fault(&changed, CENTS), expected);
        assert_eq!(fault(&changed, CENTS + 1), Some(Fault::WrongOpening));
    }
    // One layout's bytes under the other's magic.
    assert_eq!(fault(&with(&first, 7, b"2"), CENTS), Some(Fault::Short));
    assert_eq!(fault(&with(&second, 7, b"1"), CENTS), Some(Fault::Long));
}

#[test]
fn flipped_bits_of_the_second_layout() {
    let (_, _, second) = vector();
    let mut told = Vec::new();
    for place in 0..second.len() {
        let flipped = with(&second, place, &[second[place] ^ 1]);
        told.push(fault(&flipped, CENTS));
    }
    let count = |answer| told.iter().filter(|each| **each == answer).count();
    let faults = [
        (Fault::BadMagic, 8),
        (Fault::Short, 10),
        (Fault::WrongCustomers, 1),
        (Fault::OutOfRange, 18),
        (Fault::NegativeSavings, 0),
        (Fault::WrongTotal, 38),
        (Fault::WrongOpening, 8),
        (Fault::BadReply, 35),
        (Fault::Long, 1),
    ];
    for (fault, times) in faults {
        assert_eq!(count(Some(fault)), times, "{fault}");
    }
    assert_eq!(count(None), 10);
}
