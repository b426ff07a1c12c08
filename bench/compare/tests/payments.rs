//! Payments, worked out by hand, as the plain program and the plain player execute them.

use std::io::Write;
use std::process::{Command, Stdio};

const OPENING: &str = "alice 100.00 50.00\nbob 0.00 20.00\ncarol 10.00 0.00\nbegin\n";
const OTHERS: &str = "a 0.00 0.01\nb 0.00 10000000000.00\nbegin\n";

/// The status, the output and the error text of a program for an input.
fn ended(program: &str, input: &str) -> (Option<i32>, String, String) {
    let mut child = Command::new(program)
        .stdin(Stdio::piped())
        .stdout(Stdio::piped())
        .stderr(Stdio::piped())
        .spawn()
        .expect("the program starts");
    let mut pipe = child.stdin.take().expect("its input is a pipe");
    pipe.write_all(input.as_bytes()).expect("it reads");
    drop(pipe);
    let ended = child.wait_with_output().expect("it ends");
    let text = |bytes| String::from_utf8(bytes).expect("it writes text");
    (ended.status.code(), text(ended.stdout), text(ended.stderr))
}

/// Runs these calls with the plain program, and plays them on a replica. Both must have the same
/// replies and rows.
fn check(opening: &str, calls: &[(&str, &str)], rows: &str) {
    let mut lines = opening.to_owned();
    let mut events = format!("nodes 1 workers 1\n{opening}");
    let (mut replies, mut notes) = (String::new(), String::new());
    for (number, (call, reply)) in (1..).zip(calls) {
        lines += &format!("{call}\n");
        replies += &format!("{number} {reply}\n");
        events += &format!("ask 1 {number} {call}\nsend 0 {number}\nto 0 {number}\n");
        events += "take 0 1 0\nfinish 0 1\n";
        notes += &format!("new {number}\nsent {number}\naccepted {number}\n");
        notes += &format!("took {number}\nfinished {number} {reply}\n");
    }
    let state = format!("replica 0 length {} idle\n{rows}", calls.len());
    let ran = ended(env!("CARGO_BIN_EXE_plain"), &lines);
    assert_eq!(ran, (Some(0), replies + rows, String::new()));
    let played = ended(env!("CARGO_BIN_EXE_player"), &events);
    assert_eq!(played, (Some(0), notes + &state, String::new()));
}

#[test]
fn the_first_case_that_holds_counts() {
    check(
        OPENING,
        &[
            ("pay bob alice 20.00", "done"),
            ("pay alice bob 70.01", "would overdraw"),
            ("pay bob carol 0.01", "would overdraw"),
            ("pay zed zed 1.00", "no customer"),
            ("pay bob zed -1.00", "no customer"),
            ("pay bob bob -1.00", "same customer"),
            ("pay alice bob -0.01", "negative"),
        ],
        "alice 100.00 70.00\nbob 0.00 0.00\ncarol 10.00 0.00\ntotal 180.00\n",
    );
}

#[test]
fn a_payment_moves_all_of_checking_and_nothing_of_savings() {
    check(
        OPENING,
        &[
            ("pay alice bob 50.01", "would overdraw"),
            ("pay alice bob 50.00", "done"),
            ("pay carol bob 0.00", "done"),
            ("pay bob carol 70.00", "done"),
        ],
        "alice 100.00 0.00\nbob 0.00 0.00\ncarol 10.00 70.00\ntotal 180.00\n",
    );
}

#[test]
fn nobody_gets_more_than_the_limit() {
    check(
        OTHERS,
        &[
            ("pay a b 0.01", "over limit"),
            ("pay a b 0.02", "would overdraw"),
            ("pay b a 9999999999.99", "done"),
            ("pay a b 0.01", "done"),
        ],
        "a 0.00 9999999999.99\nb 0.00 0.02\ntotal 10000000000.01\n",
    );
}

#[test]
fn lines_at_fault() {
    for (call, fault) in [
        ("pay", "wrong words"),
        ("pay alice Bob", "wrong words"),
        ("pay alice 1.00", "wrong words"),
        ("pay alice bob 1.00 ", "wrong words"),
        ("pay alice Bob 1", "bad name"),
        ("pay  bob 1.00", "bad name"),
        ("pay alice bob 1", "bad money"),
        ("pay alice bob 10000000000.01", "bad money"),
        ("paid alice bob 1.00", "unknown verb"),
    ] {
        let told = |line| format!("smallbank: line {line}: {fault}\n");
        let ran = ended(env!("CARGO_BIN_EXE_plain"), &format!("{OPENING}{call}\n"));
        assert_eq!(ran, (Some(1), String::new(), told(5)), "{call}");
        let schedule = format!("nodes 1 workers 1\n{OPENING}ask 1 1 {call}\n");
        let played = ended(env!("CARGO_BIN_EXE_player"), &schedule);
        assert_eq!(played, (Some(1), String::new(), told(6)), "{call}");
    }
}

/// A payment waits for what comes before it at each of the two checking balances, and at no
/// savings.
#[test]
fn a_payment_waits_at_two_balances() {
    let schedule = format!(
        "nodes 1 workers 2\n{OPENING}ask 1 1 deposit bob 1.00\nask 1 2 pay alice bob 1.00\nask 1 3 savings alice 1.00\n\
         ask 1 4 deposit alice 1.00\nresend 0\nto 0 1\nto 0 2\nto 0 3\nto 0 4\ntake 0 1 1\ntake 0 2 1\nfinish 0 1\n\
         take 0 1 0\nfinish 0 1\ntake 0 1 1\ntake 0 1 0\nfinish 0 1\ntake 0 1 0\nfinish 0 1\n"
    );
    let notes = "new 1\nnew 2\nnew 3\nnew 4\nresent 4\naccepted 1\naccepted 2\naccepted 3\naccepted 4\n\
         took 3\nnothing\nfinished 3 done\ntook 1\nfinished 1 done\nnothing\ntook 2\nfinished 2 done\n\
         took 4\nfinished 4 done\n";
    let state = "replica 0 length 4 idle\nalice 101.00 50.00\nbob 0.00 22.00\ncarol 10.00 0.00\ntotal 183.00\n";
    let played = ended(env!("CARGO_BIN_EXE_player"), &schedule);
    assert_eq!(played, (Some(0), format!("{notes}{state}"), String::new()));
}
