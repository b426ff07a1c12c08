//! A sequencer that crashes at every place of a schedule.

use crate::event::Event;
use crate::machine::Machine;
use crate::restarts::{play, settle, with};
use std::collections::HashSet;

/// A schedule with a crash, and the same without it. Both have to end with the same states.
pub struct Pair {
    pub crashed: Vec<Event>,
    pub without: Vec<Event>,
}

/// The events with a crash at each place. None of them is an append, so that each call is synced
/// and no crash takes one. The machine is at its opening.
///
/// A crash leaves the log, the replicas, and all that was sent. It takes the lengths and the
/// answers that the sequencer was told. The answers, and the lengths of checkpoints, go into notes
/// alone. But by the length of a replica's log a resend chooses what it sends. After a crash it
/// begins at entry 1 again, so that other frames stand in the list to the replica from there on.
/// While no later line names one of these by its position, each replica does what it did without
/// the crash, and ends where it did. Else the two runs deliver different entries, as if a network
/// had lost different ones, and may end anywhere in the log. Then both go on until each replica is
/// idle with the whole log: where that leads, no crash may matter.
pub fn everywhere(events: &[Event], machine: &Machine) -> Vec<Pair> {
    let pair = |place| {
        let crashed = with(events, place, &[Event::Crash(0)]);
        let without = events.to_vec();
        match names_resent(&events[place..]) {
            false => Pair { crashed, without },
            true => Pair {
                crashed: to_the_end(crashed, machine.clone()),
                without: to_the_end(without, machine.clone()),
            },
        }
    };
    (0..=events.len()).map(pair).collect()
}

// Whether a frame to a replica is named after a resend to it.
fn names_resent(events: &[Event]) -> bool {
    let mut resent = HashSet::new();
    events.iter().any(|event| match event {
        Event::Resend(replica) => {
            resent.insert(*replica);
            false
        }
        Event::To(replica, _) => resent.contains(replica),
        _ => false,
    })
}

// The events, and then each replica gets what it lacks of the log and finishes all.
fn to_the_end(mut events: Vec<Event>, mut machine: Machine) -> Vec<Event> {
    for event in &events {
        machine.step(*event);
    }
    for replica in 0..machine.nodes.len() as u32 {
        settle(replica, &mut machine, &mut events);
        while machine.nodes[replica as usize].length < machine.synced {
            deliver_next(replica, &mut machine, &mut events);
            settle(replica, &mut machine, &mut events);
        }
    }
    events
}

// The next entry is sent to a replica that is idle, and comes.
fn deliver_next(replica: u32, machine: &mut Machine, events: &mut Vec<Event>) {
    let next = machine.nodes[replica as usize].length + 1;
    play(&[Event::Send(replica, next)], machine, events);
    let last = machine.nodes[replica as usize].to.len() as u32;
    play(&[Event::To(replica, last)], machine, events);
}
