//! Small inputs, most of them at fault: each fault of the formats, one or several in an input.

use crate::random::Random;
use crate::workload::Workload;

// Lines that no opening may have. `customer_0` is in each opening.
const OPENING_LINES: [&str; 28] = [
    "",
    "a",
    "a 0.00",
    "a 0.00 0.00 0.00",
    "a  0.00 0.00",
    "a 0.00 0.00 ",
    " a 0.00 0.00",
    "begin ",
    "BEGIN",
    "A 0.00 0.00",
    " 0.00 0.00",
    "a-b 0.00 0.00",
    "a23456789012345678901 0.00 0.00",
    "customer_0 0.00 0.00",
    "customer_0 x y",
    "a 0 0.00",
    "a 0.00 00.00",
    "a -0.00 0.00",
    "a 0.00 -0.00",
    "a 1.0 0.00",
    "a .00 0.00",
    "a - 0.00",
    "a 0.00 1.000",
    "a 0.00 1..00",
    "a 0.00 10000000000.01",
    "a 0.00 -99999999999999999999.00",
    "a -0.01 0.00",
    "a -0.01 0.00\r",
];

// Lines that no call may have.
const CALL_LINES: [&str; 45] = [
    "",
    " ",
    "paid customer_0 customer_1 1.00",
    "Balance customer_0",
    "balance",
    "balance ",
    "balance customer_0 ",
    "balance customer_0 customer_1",
    "balance Customer_0",
    "balance customer_0\r",
    " balance customer_0",
    "deposit customer_0",
    "deposit customer_0 1.00 1.00",
    "deposit  1.00",
    "deposit customer_0 1",
    "deposit CUSTOMER 1",
    "savings customer_0 -0.00",
    "savings customer_0 10000000000.01",
    "check customer_0 01.00",
    "check customer_0 1.-0",
    "amalgamate customer_0",
    "amalgamate customer_0 Customer_1",
    "amalgamate customer_0 customer_1 customer_2",
    "pay customer_0 customer_1",
    "pay customer_0 1.00",
    "pay customer_0 customer_1 1.00 1.00",
    "pay customer_0 Customer_1 1",
    "pay customer_0  1.00",
    "pay customer_0 customer_1 1",
    "pay customer_0 customer_1 -0.00",
    "ask",
    "ask 1",
    "ask x",
    "ask 1 1",
    "ask 0 1 balance customer_0",
    "ask 01 1 balance customer_0",
    "ask 1 01 balance customer_0",
    "ask 4294967296 1 balance customer_0",
    "ask 1 4294967296 balance customer_0",
    "ask 1 99999999999999999999999 balance customer_0",
    "ask -1 1 balance customer_0",
    "ask 1  balance customer_0",
    "ask 1 1 paid customer_0",
    "ask 1 1 balance customer_0 x",
    "ask 1 1 ask 1 1 balance customer_0",
];

/// An input from a seed.
pub fn input(seed: u64) -> Vec<u8> {
    let mut random = Random::new(seed);
    match seed % 8 {
        0 => too_long(&mut random, seed),
        1 | 2 => with_other_bytes(&mut random, small(seed)),
        _ => with_faults(&mut random, &small(seed)),
    }
}

fn small(seed: u64) -> Vec<u8> {
    let customers = 1 + (seed % 7) as u32;
    let mut text = Vec::new();
    Workload {
        asked: 50,
        repeated: 50,
        changed: 50,
        mix: [25, 20, 20, 15, 5, 15],
        ..Workload::new(seed, customers, 20)
    }
    .write(&mut text)
    .expect("a vector takes what is written");
    text
}

// Inserts one or two lines at fault, and at times drops `begin` and what follows.
fn with_faults(random: &mut Random, text: &[u8]) -> Vec<u8> {
    let mut lines: Vec<&[u8]> = text.split_inclusive(|byte| *byte == b'\n').collect();
    let begin = lines
        .iter()
        .position(|line| *line == b"begin\n")
        .unwrap_or(0);
    for _ in 0..1 + random.below(2) {
        let is_opening = random.percent(40);
        let (faulty, from, to) = if is_opening {
            (random.pick(&OPENING_LINES), 1, begin)
        } else {
            (random.pick(&CALL_LINES), begin + 1, lines.len())
        };
        let place = from + random.below((to - from) as u32 + 1) as usize;
        lines.insert(place, b"\n");
        lines.insert(place, faulty.as_bytes());
    }
    if random.percent(5) {
        lines.truncate(begin);
    }
    lines.concat()
}

// Changes some bytes, or cuts the end off.
fn with_other_bytes(random: &mut Random, mut text: Vec<u8>) -> Vec<u8> {
    for _ in 0..random.below(4) {
        let place = random.below(text.len() as u32) as usize;
        text[place] = *random.pick(b" \n\r0a-._9\x00\xff");
    }
    if random.percent(50) {
        let length = random.below(text.len() as u32 + 1) as usize;
        text.truncate(length);
    }
    text
}

// Gives it one customer more than a bank takes, or just as many as it takes.
fn too_long(random: &mut Random, seed: u64) -> Vec<u8> {
    if !seed.is_multiple_of(80) {
        return small(seed);
    }
    let mut text = Vec::new();
    for customer in 0..65_536 + random.below(2) {
        text.extend_from_slice(format!("c{customer} 0.00 0.00\n").as_bytes());
    }
    text.extend_from_slice(b"begin\nbalance c65535\n");
    text
}
