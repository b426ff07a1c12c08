//! How often each event had each note.

use crate::event::{Event, Key};
use crate::machine::{Machine, Node, Note};
use std::collections::BTreeMap;
use std::fmt;

/// How often each event had each note, and what was going on when a state was adopted, when the
/// sequencer crashed, and when a lost ask came again.
#[derive(Default)]
pub struct Tally {
    times: BTreeMap<(String, String), u32>,
}

impl Tally {
    /// Takes the step, and counts its note.
    pub fn step(&mut self, machine: &mut Machine, event: Event) -> Note {
        let before = match event {
            Event::Adopt(replica, _) => lost_at(machine, replica),
            Event::Crash(kept) => crashed_at(machine, kept),
            Event::Ask(key, _) | Event::Append(key, _) => again_at(machine, key),
            _ => Vec::new(),
        };
        let note = machine.step(event);
        let words = note.words();
        self.count(event, words.to_owned());
        if matches!(words, "adopted" | "crashed" | "new") {
            for what in before {
                self.count(event, format!("{words}, {what}"));
            }
        }
        note
    }

    /// Adds what another one counted.
    pub fn add(&mut self, other: Tally) {
        for (line, times) in other.times {
            *self.times.entry(line).or_default() += times;
        }
    }

    fn count(&mut self, event: Event, note: String) {
        let line = event.to_string();
        let verb = line.split(' ').next().unwrap_or_default().to_owned();
        *self.times.entry((verb, note)).or_default() += 1;
    }
}

// What a replica has to let go of when it adopts a state.
fn lost_at(machine: &Machine, replica: u32) -> Vec<&'static str> {
    let Some(node) = machine.nodes.get(replica as usize) else {
        return Vec::new();
    };
    let Node {
        open, held, hands, ..
    } = node;
    those(&[
        (!open.is_empty(), "some unfinished"),
        (!held.is_empty(), "some held"),
        (node.cut.is_some(), "with a cut"),
        (hands.iter().any(Option::is_some), "a hand full"),
        (node.kept > 0, "a checkpoint kept"),
    ])
}

// What a sequencer loses and keeps when it crashes.
fn crashed_at(machine: &Machine, kept: u32) -> Vec<&'static str> {
    let left = machine.left(kept);
    let nodes = &machine.nodes;
    those(&[
        (left < machine.length(), "some asks lost"),
        (left > machine.synced, "some kept that weren't synced"),
        (nodes.iter().any(|it| it.recorded > 0), "lengths recorded"),
        (nodes.iter().any(|it| it.checkpoint > 0), "checkpoints told"),
        (!machine.answered.is_empty(), "answers kept"),
    ])
}

// Whether a crash took the key, and the number that it gets now was given before.
fn again_at(machine: &Machine, key: Key) -> Vec<&'static str> {
    let was_lost = machine.lost.iter().any(|(lost, _)| *lost == key);
    let number = machine.length() + 1;
    those(&[
        (was_lost, "lost before"),
        (number <= machine.longest, "its number given again"),
    ])
}

fn those(all: &[(bool, &'static str)]) -> Vec<&'static str> {
    let had = all.iter().filter(|(is_there, _)| *is_there);
    had.map(|(_, what)| *what).collect()
}

impl fmt::Display for Tally {
    fn fmt(&self, f: &mut fmt::Formatter<'_>) -> fmt::Result {
        for ((verb, note), times) in &self.times {
            writeln!(f, "| {verb} | {note} | {times} |")?;
        }
        Ok(())
    }
}
