//! Replicas that restart, or adopt states, at every place of a schedule.

use crate::event::{Event, How};
use crate::machine::Machine;
use crate::random::Random;

/// The events with others inserted before a place.
pub fn with(events: &[Event], place: usize, more: &[Event]) -> Vec<Event> {
    [&events[..place], more, &events[place..]].concat()
}

/// The events with a restart of a replica at each place: alone, after a mark that ends in each way,
/// and after a cut there with a mark at some later place. Also with states that go from each
/// replica to all at each place, and that after a restart too, and with a crash of the sequencer
/// that keeps some of what isn't synced. The machine is at its opening.
pub fn everywhere(
    events: &[Event],
    mut machine: Machine,
    replica: u32,
    random: &mut Random,
) -> Vec<Vec<Event>> {
    let restart = Event::Restart(replica);
    let marked = |how| [Event::Mark(replica, how), restart];
    let mut all = Vec::new();
    for place in 0..=events.len() {
        all.push(with(events, place, &[restart]));
        for how in [How::Ok, How::Old, How::New] {
            all.push(with(events, place, &marked(how)));
        }
        let later = place + random.below((events.len() - place) as u32 + 1) as usize;
        let ended = with(events, later, &marked(How::Ok));
        all.push(with(&ended, place, &[Event::Cut(replica)]));
        for first in [&[][..], &[restart]] {
            all.push(with(events, place, &adoptions(&machine, first)));
        }
        let kept = random.below(machine.length() + 1);
        all.push(with(events, place, &[Event::Crash(kept)]));
        if let Some(event) = events.get(place) {
            machine.step(*event);
        }
    }
    all
}

// After the first events every replica becomes idle and marks, and all adopt its state.
fn adoptions(machine: &Machine, first: &[Event]) -> Vec<Event> {
    let mut machine = machine.clone();
    let mut all = Vec::new();
    play(first, &mut machine, &mut all);
    let count = machine.nodes.len() as u32;
    for donor in 0..count {
        settle(donor, &mut machine, &mut all);
        play(&[Event::Mark(donor, How::Ok)], &mut machine, &mut all);
        for replica in 0..count {
            play(&[Event::Give(donor, replica)], &mut machine, &mut all);
            let last = machine.nodes[replica as usize].states.len() as u32;
            play(&[Event::Adopt(replica, last)], &mut machine, &mut all);
        }
    }
    all
}

/// The machine takes these events, which then stand behind all others.
pub fn play(events: &[Event], machine: &mut Machine, all: &mut Vec<Event>) {
    for event in events {
        machine.step(*event);
    }
    all.extend(events);
}

/// A replica's workers finish what they hold, and one of them finishes all that is left.
pub fn settle(replica: u32, machine: &mut Machine, all: &mut Vec<Event>) {
    let workers = machine.nodes[replica as usize].hands.len() as u32;
    for worker in 1..=workers {
        play(&[Event::Finish(replica, worker)], machine, all);
    }
    while !machine.nodes[replica as usize].open.is_empty() {
        let once = [Event::Take(replica, 1, 0), Event::Finish(replica, 1)];
        play(&once, machine, all);
    }
}
