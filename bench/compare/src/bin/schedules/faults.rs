//! Lines that a schedule may not have, with the fault of each.

use crate::random::Random;

type Faulty = (&'static str, &'static str);

const HEADS: [&str; 18] = [
    "",
    "nodes 1 workers",
    "nodes 1 workers 1 1",
    "nodes 0 workers 1",
    "nodes 17 workers 1",
    "nodes 1 workers 0",
    "nodes 1 workers 17",
    "nodes 01 workers 1",
    "nodes 1 workers 01",
    "nodes 1  workers 1",
    " nodes 1 workers 1",
    "nodes 1 workers 1 ",
    "nodes 1 workers 1\r",
    "Nodes 1 workers 1",
    "workers 1 nodes 1",
    "nodes x workers 1",
    "nodes -1 workers 1",
    "nodes 4294967297 workers 1",
];

const OPENING_LINES: [Faulty; 22] = [
    ("", "bad line"),
    ("x", "bad line"),
    ("x 0.00", "bad line"),
    ("x 0.00 0.00 0.00", "bad line"),
    ("x  0.00 0.00", "bad line"),
    ("x 0.00 0.00 ", "bad line"),
    ("begin ", "bad line"),
    ("BEGIN", "bad line"),
    ("X 0.00 0.00", "bad name"),
    (" 0.00 0.00", "bad name"),
    ("x-y z z", "bad name"),
    ("x23456789012345678901 0.00 0.00", "bad name"),
    ("x 0 0.00", "bad money"),
    ("x 0.00 00.00", "bad money"),
    ("x -0.00 0.00", "bad money"),
    ("x .00 0.00", "bad money"),
    ("x 0.00 1.000", "bad money"),
    ("x 0.00 10000000000.01", "bad money"),
    ("x -0.01 0.00\r", "bad money"),
    ("x -0.01 +1.00", "bad money"),
    ("x -0.01 0.00", "negative savings"),
    ("x -10000000000.00 0.00", "negative savings"),
];

const EVENT_LINES: [Faulty; 115] = [
    ("", "unknown event"),
    (" ", "unknown event"),
    (" ack 0", "unknown event"),
    ("Ack 0", "unknown event"),
    ("ack\r", "unknown event"),
    ("balance c0", "unknown event"),
    ("nodes 1 workers 1", "unknown event"),
    ("begin", "unknown event"),
    ("settle 0", "unknown event"),
    ("cuts 0", "unknown event"),
    ("donors 1", "unknown event"),
    ("gives 0 1", "unknown event"),
    ("appends 1 1 balance c0", "unknown event"),
    ("synced", "unknown event"),
    ("sync\r", "unknown event"),
    ("crashes 0", "unknown event"),
    ("send", "wrong words"),
    ("send 0", "wrong words"),
    ("send x", "wrong words"),
    ("send 0 1 1", "wrong words"),
    ("send 0 1 ", "wrong words"),
    ("send 0  1", "wrong words"),
    ("resend", "wrong words"),
    ("resend 0 1", "wrong words"),
    ("to 0", "wrong words"),
    ("to 0 1 x", "wrong words"),
    ("ack", "wrong words"),
    ("ack 0 0", "wrong words"),
    ("answer 0", "wrong words"),
    ("from 0 1 1", "wrong words"),
    ("take 0 1", "wrong words"),
    ("take 0 1 0 0", "wrong words"),
    ("finish 0", "wrong words"),
    ("mark 0", "wrong words"),
    ("mark 0 ok ok", "wrong words"),
    ("mark ok", "wrong words"),
    ("restart", "wrong words"),
    ("restart 0 0", "wrong words"),
    ("cut", "wrong words"),
    ("cut 0 0", "wrong words"),
    ("next", "wrong words"),
    ("next 0 0", "wrong words"),
    ("audit 0", "wrong words"),
    ("audit 0 0 0", "wrong words"),
    ("have", "wrong words"),
    ("have 0 0", "wrong words"),
    ("donor", "wrong words"),
    ("donor 0 1", "wrong words"),
    ("give 0", "wrong words"),
    ("give 0 1 1", "wrong words"),
    ("adopt 0", "wrong words"),
    ("adopt 0 1 ok", "wrong words"),
    ("sync ", "wrong words"),
    ("sync 0", "wrong words"),
    ("crash", "wrong words"),
    ("crash 0 1", "wrong words"),
    ("crash 0 ", "wrong words"),
    ("send 00 1", "bad number"),
    ("send 0 01", "bad number"),
    ("resend ", "bad number"),
    ("resend -1", "bad number"),
    ("to 0 x", "bad number"),
    ("to 4294967296 1", "bad number"),
    ("ack 0\r", "bad number"),
    ("answer 0 99999999999999999999999", "bad number"),
    ("from +0 1", "bad number"),
    ("take 0 1 0.0", "bad number"),
    ("take 0  0", "bad number"),
    ("finish 0 w", "bad number"),
    ("mark 0 OK", "bad number"),
    ("mark 0 both", "bad number"),
    ("mark x ok", "bad number"),
    ("restart 010", "bad number"),
    ("cut x", "bad number"),
    ("next x", "bad number"),
    ("audit 0 one", "bad number"),
    ("have x", "bad number"),
    ("have 00", "bad number"),
    ("donor 4294967296", "bad number"),
    ("give 0 01", "bad number"),
    ("give all 1", "bad number"),
    ("give 0 4294967296", "bad number"),
    ("adopt x 1", "bad number"),
    ("adopt 0 -1", "bad number"),
    ("crash ", "bad number"),
    ("crash x", "bad number"),
    ("crash 00", "bad number"),
    ("crash -1", "bad number"),
    ("crash 4294967296", "bad number"),
    ("ask", "wrong words"),
    ("ask x", "wrong words"),
    ("ask x 1", "bad number"),
    ("ask 1 01 balance c0", "bad number"),
    ("ask 1 4294967296 balance c0", "bad number"),
    ("ask 1 1", "unknown verb"),
    ("ask 1 1 ", "unknown verb"),
    ("ask 0 1 ask 1 1 balance c0", "unknown verb"),
    ("ask 1 1 paid c0 c1 1.00", "unknown verb"),
    ("ask 1 1 balance c0 c1", "wrong words"),
    ("ask 1 1 pay c0 1.00", "wrong words"),
    ("ask 1 1 deposit C0 x", "bad name"),
    ("ask 1 1 amalgamate c0 ", "bad name"),
    ("ask 1 1 pay c0 C1 1", "bad name"),
    ("ask 1 1 check c0 1.5", "bad money"),
    ("ask 1 1 pay c0 c1 1", "bad money"),
    ("ask 1 1 pay c0 c0 -0.00", "bad money"),
    ("append", "wrong words"),
    ("append 1", "wrong words"),
    ("append 01 1 balance c0", "bad number"),
    ("append 1 x", "bad number"),
    ("append 1 1", "unknown verb"),
    ("append 1 1 append 1 1 balance c0", "unknown verb"),
    ("append 1 1 check c0", "wrong words"),
    ("append 1 1 balance c-0", "bad name"),
    ("append 1 1 savings c0 0.0", "bad money"),
];

/// A schedule's text with one fault in it, and the expected error text.
pub fn spoil(random: &mut Random, mut lines: Vec<String>, customers: usize) -> (String, String) {
    let (index, fault) = match random.below(12) {
        0 => {
            lines[0] = (*random.pick(&HEADS)).to_owned();
            (0, "bad head")
        }
        1 => {
            lines.truncate(random.below(customers as u32 + 2) as usize);
            let fault = if lines.is_empty() {
                "bad head"
            } else {
                "no begin"
            };
            (lines.len(), fault)
        }
        2 if customers > 0 => {
            let again = lines[1 + random.below(customers as u32) as usize].clone();
            lines.insert(customers + 1, again);
            (customers + 1, "double name")
        }
        2..=4 => {
            let index = 1 + random.below(customers as u32 + 1) as usize;
            put(random.pick(&OPENING_LINES), index, &mut lines)
        }
        _ => {
            let events = lines.len() - customers - 2;
            let index = customers + 2 + random.below(events as u32 + 1) as usize;
            put(random.pick(&EVENT_LINES), index, &mut lines)
        }
    };
    let text = lines.iter().map(|line| format!("{line}\n")).collect();
    (text, format!("smallbank: line {}: {fault}\n", index + 1))
}

fn put(faulty: &Faulty, index: usize, lines: &mut Vec<String>) -> (usize, &'static str) {
    let (line, fault) = *faulty;
    lines.insert(index, line.to_owned());
    (index, fault)
}

/// A schedule with a customer more than a bank takes.
pub fn too_many() -> (String, String) {
    let customers = 0..65_537;
    let opening: String = customers.map(|it| format!("c{it} 0.00 0.00\n")).collect();
    (
        format!("nodes 1 workers 1\n{opening}begin\n"),
        "smallbank: line 65538: too many customers\n".to_owned(),
    )
}
