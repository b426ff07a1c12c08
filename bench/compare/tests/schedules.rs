//! Small schedules, worked out by hand, and what the plain player answers.

use std::fs;
use std::io::Write;
use std::path::Path;
use std::process::{Command, Stdio};

const OPENING: &str = "alice 100.00 50.00\nbob 0.00 20.00\ncarol 10.00 0.00\nbegin\n";

/// The player's status, output and error text for a schedule.
fn played(schedule: &str) -> (Option<i32>, String, String) {
    let mut player = Command::new(env!("CARGO_BIN_EXE_player"))
        .stdin(Stdio::piped())
        .stdout(Stdio::piped())
        .stderr(Stdio::piped())
        .spawn()
        .expect("the player starts");
    let mut input = player.stdin.take().expect("its input is a pipe");
    input
        .write_all(schedule.as_bytes())
        .expect("it reads its input");
    drop(input);
    let ended = player.wait_with_output().expect("it ends");
    let text = |bytes| String::from_utf8(bytes).expect("it writes text");
    (ended.status.code(), text(ended.stdout), text(ended.stderr))
}

fn lines_of(events: &str) -> String {
    events
        .split(" / ")
        .map(|event| format!("{event}\n"))
        .collect()
}

/// All that is written for these events over the three customers, separated by ` / `.
fn output(head: &str, events: &str) -> Vec<String> {
    let (status, output, error) = played(&format!("{head}\n{OPENING}{}", lines_of(events)));
    assert_eq!((status, error.as_str()), (Some(0), ""));
    output.lines().map(str::to_owned).collect()
}

/// Plays these events over one replica with two workers, and compares the notes and the final rows.
fn check(events: &str, notes: &str, state: &str) {
    let expected = format!("{notes} / {state}");
    assert_eq!(output("nodes 1 workers 2", events).join(" / "), expected);
}

fn check_fault(schedule: &str, fault: &str) {
    let error = format!("smallbank: {fault}\n");
    assert_eq!(played(schedule), (Some(1), String::new(), error));
}

const ALICE_HAS_ONE_MORE: &str = "replica 0 length 1 idle / alice 100.00 51.00 / bob 0.00 20.00 \
     / carol 10.00 0.00 / total 181.00";

// Jobs are taken out of their order.
const FOUR_CALLS: &str = "ask 1 1 deposit alice 1.00 / ask 1 2 deposit bob 1.00 / ask 1 3 amalgamate alice bob \
     / ask 1 4 balance alice / send 0 1 / send 0 2 / send 0 3 / send 0 4 / to 0 1 / to 0 2 / to 0 3 / to 0 4 \
     / take 0 1 1 / take 0 2 0 / finish 0 1 / take 0 1 0 / finish 0 2 / take 0 1 0 / take 0 2 0 \
     / finish 0 1 / take 0 1 0 / finish 0 1";
const FOUR_NOTES: &str = "new 1 / new 2 / new 3 / new 4 / sent 1 / sent 2 / sent 3 / sent 4 \
     / accepted 1 / accepted 2 / accepted 3 / accepted 4 \
     / took 2 / took 1 / finished 2 done / nothing / finished 1 done / took 3 / nothing \
     / finished 3 done / took 4 / finished 4 shown 0.00";
const ALL_IS_WITH_BOB: &str =
    "replica 0 length 4 idle / alice 0.00 0.00 / bob 0.00 172.00 / carol 10.00 0.00 / total 182.00";

#[test]
fn jobs_taken_out_of_order() {
    check(FOUR_CALLS, FOUR_NOTES, ALL_IS_WITH_BOB);
}

#[test]
fn a_crash_at_every_place_takes_nothing_that_is_synced() {
    let events: Vec<&str> = FOUR_CALLS.split(" / ").collect();
    let notes: Vec<&str> = FOUR_NOTES.split(" / ").collect();
    assert_eq!((events.len(), notes.len()), (22, 22));
    for place in 0..=events.len() {
        // The first four events are asks.
        let crashed = format!("crashed {}", place.min(4));
        let with = |lines: &[&str], line: &str| {
            let (before, after) = lines.split_at(place);
            [before, &[line], after].concat().join(" / ")
        };
        check(
            &with(&events, "crash 0"),
            &with(&notes, &crashed),
            ALL_IS_WITH_BOB,
        );
    }
}

#[test]
fn a_number_that_is_lost_is_given_again() {
    check(
        "ask 1 1 deposit alice 1.00 / append 1 2 deposit alice 2.00 / send 0 2 / send 0 1 / crash 1 \
         / ask 1 3 deposit bob 3.00 / append 1 2 deposit alice 2.00 / ask 1 1 deposit alice 1.00 / sync / resend 0 \
         / to 0 1 / to 0 2 / to 0 3 / to 0 4",
        "new 1 / new 2 / nothing / sent 1 / crashed 1 \
         / new 2 / new 3 / repeat 1 / synced 3 / resent 3 \
         / accepted 1 / repeat 1 / accepted 2 / accepted 3",
        "replica 0 length 3 busy",
    );
}

#[test]
fn a_crash_forgets_what_was_recorded_and_kept() {
    check(
        "append 1 1 deposit alice 1.00 / crash 0 / append 1 1 deposit alice 2.00 / sync / send 0 1 / to 0 1 \
         / take 0 1 0 / finish 0 1 / ack 0 / answer 0 1 / from 0 1 / from 0 2 / crash 0 \
         / append 1 1 deposit alice 2.00 / resend 0 / from 0 2 / from 0 1 / resend 0",
        "new 1 / crashed 0 / new 1 / synced 1 / sent 1 / accepted 1 \
         / took 1 / finished 1 done / sent 1 / sent 2 / recorded 1 / kept 1 / crashed 1 \
         / repeat 1 / resent 1 / kept 1 / recorded 1 / resent 0",
        "replica 0 length 1 idle / alice 100.00 52.00 / bob 0.00 20.00 / carol 10.00 0.00 / total 182.00",
    );
}

#[test]
fn a_crash_keeps_a_beginning_of_what_is_not_synced() {
    check(
        "append 1 1 deposit alice 1.00 / append 1 2 deposit bob 1.00 / append 1 3 balance alice / crash 2 \
         / append 1 3 balance bob / append 1 2 deposit bob 2.00 / crash 4294967295 / crash 0 / append 1 4 balance bob \
         / resend 0 / send 0 4 / append 1 4 balance bob / ask 1 4 balance carol / send 0 4",
        "new 1 / new 2 / new 3 / crashed 2 \
         / new 3 / mismatch 2 / crashed 3 / crashed 3 / new 4 \
         / resent 3 / nothing / repeat 4 / mismatch 4 / sent 4",
        "replica 0 length 0 idle / alice 100.00 50.00 / bob 0.00 20.00 / carol 10.00 0.00 / total 180.00",
    );
}

#[test]
fn a_crash_forgets_the_checkpoints_of_donors() {
    check_both(
        &format!(
            "{ONE_IS_KEPT} / have 0 / from 0 1 / donor 1 / crash 0 / donor 1 / from 0 1 / donor 1 / crash 1"
        ),
        &format!(
            "{ONE_WAS_MARKED} / sent 1 / has 1 / donor 0 1 / crashed 1 / nothing / has 1 / donor 0 1 / crashed 1"
        ),
        [ALICE_HAS_ONE_MORE, SECOND_AT_THE_OPENING],
    );
}

#[test]
fn frames_out_of_order_and_repeated() {
    check(
        "ask 1 1 deposit alice 1.00 / ask 1 2 deposit bob 1.00 / send 0 1 / send 0 2 \
         / to 0 2 / to 0 1 / to 0 1 / to 0 2",
        "new 1 / new 2 / sent 1 / sent 2 / held 2 / accepted 1 / repeat 1 / accepted 2",
        "replica 0 length 2 busy",
    );
}

#[test]
fn what_is_held_is_taken_once_it_is_next() {
    check(
        "ask 1 1 deposit alice 1.00 / ask 1 2 deposit bob 1.00 / send 0 1 / send 0 2 \
         / to 0 2 / next 0 / to 0 1 / next 0 / next 0",
        "new 1 / new 2 / sent 1 / sent 2 / held 2 / nothing / accepted 1 / accepted 2 / nothing",
        "replica 0 length 2 busy",
    );
}

#[test]
fn an_entry_is_held_up_to_64_ahead() {
    let mut events = Vec::new();
    let mut notes = Vec::new();
    for number in 1..=65 {
        events.push(format!(
            "ask 1 {number} deposit alice 0.01 / send 0 {number}"
        ));
        notes.push(format!("new {number} / sent {number}"));
    }
    check(
        &format!(
            "{} / to 0 65 / to 0 64 / to 0 1 / to 0 65 / restart 0 / to 0 1 / next 0",
            events.join(" / ")
        ),
        &format!(
            "{} / gap 0 / held 64 / accepted 1 / held 65 / restarted 0 / accepted 1 / nothing",
            notes.join(" / ")
        ),
        "replica 0 length 1 busy",
    );
}

#[test]
fn a_job_is_done_again_after_a_restart() {
    check(
        "ask 1 1 deposit alice 1.00 / send 0 1 / to 0 1 / take 0 1 0 / restart 0 / to 0 1 / take 0 2 0 \
         / finish 0 1 / finish 0 2",
        "new 1 / sent 1 / accepted 1 / took 1 / restarted 0 / accepted 1 / took 1 / finished 1 done / stranger 1",
        ALICE_HAS_ONE_MORE,
    );
}

#[test]
fn a_job_from_before_a_restart_is_a_stranger_while_its_number_is_not_out() {
    check(
        "ask 1 1 deposit alice 1.00 / send 0 1 / to 0 1 / take 0 1 0 / restart 0 / to 0 1 / finish 0 1 \
         / take 0 2 0 / finish 0 2",
        "new 1 / sent 1 / accepted 1 / took 1 / restarted 0 / accepted 1 / stranger 1 / took 1 / finished 1 done",
        ALICE_HAS_ONE_MORE,
    );
}

const MARKED_WHILE_OUT: &str =
    "ask 1 1 deposit alice 1.00 / send 0 1 / to 0 1 / take 0 1 0 / mark 0 ok / finish 0 1";
const BUSY_THEN_FINISHED: &str = "new 1 / sent 1 / accepted 1 / took 1 / busy / finished 1 done";

#[test]
fn a_mark_that_leaves_the_old_bytes() {
    check(
        &format!("{MARKED_WHILE_OUT} / mark 0 old / restart 0 / to 0 1 / take 0 1 0 / finish 0 1"),
        &format!(
            "{BUSY_THEN_FINISHED} / store fault / restarted 0 / accepted 1 / took 1 / finished 1 done"
        ),
        ALICE_HAS_ONE_MORE,
    );
}

#[test]
fn a_mark_that_leaves_the_new_bytes() {
    check(
        &format!("{MARKED_WHILE_OUT} / mark 0 new / restart 0 / to 0 1"),
        &format!("{BUSY_THEN_FINISHED} / store fault / restarted 1 / repeat 1"),
        ALICE_HAS_ONE_MORE,
    );
}

#[test]
fn a_mark_of_a_cut_while_a_later_entry_is_out() {
    check(
        "ask 1 1 deposit alice 1.00 / ask 1 2 deposit alice 2.00 / send 0 1 / send 0 2 / to 0 1 / cut 0 / cut 0 \
         / mark 0 ok / to 0 2 / take 0 1 0 / finish 0 1 / take 0 1 0 / mark 0 ok / finish 0 1 / restart 0",
        "new 1 / new 2 / sent 1 / sent 2 / accepted 1 / cut 1 / pending 1 \
         / busy / accepted 2 / took 1 / finished 1 done / took 2 / marked 1 / finished 2 done / restarted 1",
        ALICE_HAS_ONE_MORE,
    );
}

const TWO_DEPOSITS: &str =
    "ask 1 1 deposit alice 1.00 / ask 1 2 deposit bob 1.00 / send 0 1 / send 0 2 / to 0 1";
const BOTH_SENT: &str = "new 1 / new 2 / sent 1 / sent 2 / accepted 1";

#[test]
fn a_later_entry_that_is_finished_first_is_not_in_the_cut() {
    check(
        &format!(
            "{TWO_DEPOSITS} / cut 0 / to 0 2 / take 0 1 1 / finish 0 1 / mark 0 ok \
             / take 0 1 0 / finish 0 1 / mark 0 ok / restart 0"
        ),
        &format!(
            "{BOTH_SENT} / cut 1 / accepted 2 / took 2 / finished 2 done / busy \
             / took 1 / finished 1 done / marked 1 / restarted 1"
        ),
        ALICE_HAS_ONE_MORE,
    );
}

#[test]
fn a_cut_stays_until_a_put_works() {
    check(
        &format!(
            "{TWO_DEPOSITS} / cut 0 / take 0 1 0 / finish 0 1 / to 0 2 / mark 0 old / mark 0 new / cut 0 \
             / mark 0 ok / cut 0 / mark 0 ok / restart 0 / cut 0"
        ),
        &format!(
            "{BOTH_SENT} / cut 1 / took 1 / finished 1 done / accepted 2 / store fault / store fault / pending 1 \
             / marked 1 / cut 2 / busy / restarted 1 / cut 1"
        ),
        ALICE_HAS_ONE_MORE,
    );
}

#[test]
fn a_replica_with_1024_unfinished_is_busy() {
    let mut events = Vec::new();
    let mut notes = Vec::new();
    for number in 1..=1_025 {
        events.push(format!(
            "ask 1 {number} deposit alice 0.01 / send 0 {number} / to 0 {number}"
        ));
        let heard = match number {
            1_025 => "busy 1024".to_owned(),
            _ => format!("accepted {number}"),
        };
        notes.push(format!("new {number} / sent {number} / {heard}"));
    }
    check(
        &format!(
            "{} / take 0 1 0 / finish 0 1 / to 0 1025",
            events.join(" / ")
        ),
        &format!(
            "{} / took 1 / finished 1 done / accepted 1025",
            notes.join(" / ")
        ),
        "replica 0 length 1025 busy",
    );
}

#[test]
fn audits_of_two_replicas() {
    let output = output(
        "nodes 2 workers 1",
        "ask 1 1 deposit alice 1.00 / send 0 1 / send 1 1 / to 0 1 / audit 0 1 / take 0 1 0 / finish 0 1 / audit 0 1 \
         / to 1 1 / take 1 1 0 / finish 1 1 / audit 0 1",
    );
    assert_eq!(
        (&*output[4], &*output[7], &*output[11]),
        ("busy 0", "apart 1 0", "same 181.00 0")
    );
}

#[test]
fn answers_and_acknowledgements() {
    let output = output(
        "nodes 1 workers 1",
        "ask 1 1 deposit alice 1.00 / resend 0 / to 0 1 / answer 0 1 / take 0 1 0 / finish 0 1 / ack 0 / answer 0 1 \
         / from 0 1 / from 0 2 / from 0 2 / resend 0",
    );
    assert_eq!(
        output[..12].join(" / "),
        "new 1 / resent 1 / accepted 1 / nothing / took 1 / finished 1 done / sent 1 / sent 2 \
         / recorded 1 / kept 1 / repeat 1 / resent 0"
    );
}

const ONE_IS_KEPT: &str =
    "ask 1 1 deposit alice 1.00 / send 0 1 / to 0 1 / take 0 1 0 / finish 0 1 / mark 0 ok";
const ONE_WAS_MARKED: &str = "new 1 / sent 1 / accepted 1 / took 1 / finished 1 done / marked 1";

// Plays these events over two replicas with a worker each, and compares the notes and the final
// state of both.
fn check_both(events: &str, notes: &str, states: [&str; 2]) {
    let expected = format!("{notes} / {} / {}", states[0], states[1]);
    assert_eq!(output("nodes 2 workers 1", events).join(" / "), expected);
}

const SECOND_AT_THE_OPENING: &str = "replica 1 length 0 idle / alice 100.00 50.00 / bob 0.00 20.00 / carol 10.00 0.00 / total 180.00";
const SECOND_HAS_ONE_MORE: &str = "replica 1 length 1 idle / alice 100.00 51.00 / bob 0.00 20.00 / carol 10.00 0.00 / total 181.00";

#[test]
fn a_state_is_adopted_and_is_not_kept() {
    check_both(
        &format!(
            "{ONE_IS_KEPT} / have 0 / from 0 1 / donor 1 / give 0 1 / adopt 1 1 / adopt 1 1 / audit 0 1 / restart 1"
        ),
        &format!(
            "{ONE_WAS_MARKED} / sent 1 / has 1 / donor 0 1 / gave 1 / adopted 1 / behind 1 / same 181.00 0 / restarted 0"
        ),
        [ALICE_HAS_ONE_MORE, SECOND_AT_THE_OPENING],
    );
}

#[test]
fn a_state_of_no_more_changes_nothing() {
    check_both(
        &format!(
            "{ONE_IS_KEPT} / ask 1 2 deposit bob 1.00 / send 1 1 / send 1 2 / to 1 2 / to 1 1 / take 1 1 0 / cut 1 \
             / give 0 1 / adopt 1 1 / next 1 / finish 1 1 / mark 1 ok / cut 1 / to 1 1 / restart 1"
        ),
        &format!(
            "{ONE_WAS_MARKED} / new 2 / sent 1 / sent 2 / held 2 / accepted 1 / took 1 / cut 1 \
             / gave 1 / behind 1 / accepted 2 / finished 1 done / marked 1 / cut 2 / repeat 1 / restarted 1"
        ),
        [ALICE_HAS_ONE_MORE, SECOND_HAS_ONE_MORE],
    );
}

#[test]
fn an_adoption_lets_go_what_was_held_and_cut() {
    check_both(
        &format!(
            "{ONE_IS_KEPT} / ask 1 2 deposit bob 1.00 / send 1 2 / to 1 1 / cut 1 / give 0 1 / adopt 1 1 / next 1 / mark 1 ok"
        ),
        &format!(
            "{ONE_WAS_MARKED} / new 2 / sent 1 / held 2 / cut 0 / gave 1 / adopted 1 / nothing / marked 1"
        ),
        [ALICE_HAS_ONE_MORE, SECOND_HAS_ONE_MORE],
    );
}

#[test]
fn a_job_from_before_an_adoption_is_a_stranger() {
    check_both(
        &format!(
            "{ONE_IS_KEPT} / ask 1 2 deposit bob 1.00 / send 0 2 / to 0 2 / take 0 1 0 / finish 0 1 / mark 0 ok \
             / send 1 1 / to 1 1 / take 1 1 0 / give 0 1 / adopt 1 1 / finish 1 1 / answer 1 1"
        ),
        &format!(
            "{ONE_WAS_MARKED} / new 2 / sent 2 / accepted 2 / took 2 / finished 2 done / marked 2 \
             / sent 1 / accepted 1 / took 1 / gave 1 / adopted 2 / stranger 1 / sent 1"
        ),
        [
            "replica 0 length 2 idle / alice 100.00 51.00 / bob 0.00 21.00 / carol 10.00 0.00 / total 182.00",
            "replica 1 length 2 idle / alice 100.00 51.00 / bob 0.00 21.00 / carol 10.00 0.00 / total 182.00",
        ],
    );
}

#[test]
fn states_that_are_not_there() {
    check_both(
        &format!(
            "give 0 1 / mark 0 ok / give 0 1 / adopt 1 1 / {ONE_IS_KEPT} / give 0 0 / adopt 0 1 / give 0 2 / give 2 0 \
             / give 0 1 / adopt 1 0 / adopt 1 2 / adopt 2 1 / have 2 / donor 2 / donor 1"
        ),
        &format!(
            "nothing / marked 0 / nothing / nothing / {ONE_WAS_MARKED} / gave 1 / behind 1 / nothing / nothing \
             / gave 1 / nothing / nothing / nothing / nothing / nothing / nothing"
        ),
        [ALICE_HAS_ONE_MORE, SECOND_AT_THE_OPENING],
    );
}

#[test]
fn a_donor_has_the_longest_checkpoint() {
    let step = |number: u32, replica: u32, place: u32| {
        format!(
            "send {replica} {number} / to {replica} {place} / take {replica} 1 0 / finish {replica} 1"
        )
    };
    let told = |replica: u32, place: u32| {
        format!("mark {replica} ok / have {replica} / from {replica} {place}")
    };
    let asks = "ask 1 1 deposit alice 1.00 / ask 1 2 deposit bob 1.00";
    let output = output(
        "nodes 4 workers 1",
        &[
            asks.to_owned(),
            step(1, 1, 1),
            told(1, 1),
            step(1, 2, 1),
            told(2, 1),
            "donor 0 / donor 1 / donor 2".to_owned(),
            step(2, 2, 2),
            told(2, 2),
            "donor 0 / donor 1 / donor 2 / ack 1 / from 1 2 / donor 1 / from 2 1 / donor 1 / donor 3".to_owned(),
        ]
        .join(" / "),
    );
    assert_eq!(
        output[16..19].join(" / "),
        "donor 1 1 / donor 2 1 / donor 1 1"
    );
    assert_eq!(
        output[26..35].join(" / "),
        "donor 2 2 / donor 2 2 / donor 1 1 / sent 2 / recorded 1 / donor 2 2 / has 1 / nothing / donor 1 1"
    );
}

#[test]
fn the_first_fault_counts_and_nothing_is_written() {
    check_fault("", "line 1: bad head");
    check_fault("nodes 17 workers 1\nbegin\n", "line 1: bad head");
    check_fault("nodes 1 workers 1\na 0.00 0.00\n", "line 3: no begin");
    let after = |event: &str| format!("nodes 1 workers 1\n{OPENING}ack 0\n{event}\nack x\n");
    check_fault(&after(""), "line 7: unknown event");
    check_fault(&after("to 0 x y"), "line 7: wrong words");
    check_fault(&after("to 0 4294967296"), "line 7: bad number");
    check_fault(&after("mark 0 no"), "line 7: bad number");
    check_fault(&after("cut 0 1"), "line 7: wrong words");
    check_fault(&after("next 0 1"), "line 7: wrong words");
    check_fault(&after("have"), "line 7: wrong words");
    check_fault(&after("donor 0 1"), "line 7: wrong words");
    check_fault(&after("give 0"), "line 7: wrong words");
    check_fault(&after("adopt 0 1 1"), "line 7: wrong words");
    check_fault(&after("give 0 01"), "line 7: bad number");
    check_fault(&after("donors 0"), "line 7: unknown event");
    check_fault(&after("sync 0"), "line 7: wrong words");
    check_fault(&after("sync "), "line 7: wrong words");
    check_fault(&after("crash"), "line 7: wrong words");
    check_fault(&after("crash 01"), "line 7: bad number");
    check_fault(&after("append 1"), "line 7: wrong words");
    check_fault(&after("append 0 1 ask"), "line 7: unknown verb");
    check_fault(&after("ask 1"), "line 7: wrong words");
    check_fault(&after("ask 01 1"), "line 7: bad number");
    check_fault(&after("ask 0 1"), "line 7: unknown verb");
    check_fault(&after("ask 0 1 balance"), "line 7: wrong words");
    check_fault(&after("ask 0 1 balance Bob"), "line 7: bad name");
}

#[test]
fn the_stories_of_the_examples() {
    let folder = Path::new(env!("CARGO_MANIFEST_DIR")).join("../../examples");
    for story in [
        "lost_and_repeated",
        "a_job_outlives_its_replica",
        "marks_that_fail",
        "a_replica_far_behind",
        "a_sequencer_restarts",
    ] {
        let text = |ending| fs::read_to_string(folder.join(format!("{story}.{ending}")));
        let schedule = text("schedule").expect("the story is there");
        let output = text("output").expect("its output is there");
        assert_eq!(played(&schedule), (Some(0), output, String::new()));
    }
}
