//! One long schedule without fault. Replicas keep up, lose some frames, and restart now and then.

use crate::event::{Event, How, money, name};
use crate::machine::{Machine, Node};
use crate::making::Maker;
use std::io::{self, Write};

const CUSTOMERS: usize = 1_000;
const WORKERS: u32 = 4;

// How far a replica runs ahead of its workers.
const OPEN: usize = 24;
// How many rare events there are in all.
const TURNS: u32 = 40;

/// Writes a schedule of this many events.
pub fn write(out: &mut impl Write, maker: &mut Maker, events: u32, nodes: u32) -> io::Result<()> {
    writeln!(out, "nodes {nodes} workers {WORKERS}")?;
    write_opening(out, maker)?;
    let mut machine = Machine::open(CUSTOMERS, nodes, WORKERS);
    let mut seldom = Seldom::default();
    let period = (events / TURNS).max(1);
    for number in 1..=events {
        if number % period == 0 {
            seldom.plan(number / period, maker.random.below(nodes));
        }
        let event = seldom.event(&machine);
        let event = event.unwrap_or_else(|| next(maker, &machine, number));
        machine.step(event);
        writeln!(out, "{event}")?;
    }
    Ok(())
}

fn write_opening(out: &mut impl Write, maker: &mut Maker) -> io::Result<()> {
    for customer in 0..CUSTOMERS {
        let savings = money(i64::from(maker.random.below(10_000_000)));
        let checking = money(i64::from(maker.random.below(10_000_000)));
        writeln!(out, "{} {savings} {checking}", name(customer))?;
    }
    writeln!(out, "begin")
}

/// The rare events, the next one last: restarts and cuts at any time, marks of a cut once it has
/// settled, and other marks, with audits, of a replica that becomes idle first.
#[derive(Default)]
struct Seldom {
    planned: Vec<Event>,
}

impl Seldom {
    fn plan(&mut self, turn: u32, replica: u32) {
        let how = match turn % 8 {
            0 => How::Ok,
            2 => How::Old,
            4 => {
                let mark = Event::Mark(replica, How::Ok);
                return self.planned.extend([mark, Event::Cut(replica)]);
            }
            6 => How::New,
            _ => return self.planned.push(Event::Restart(replica)),
        };
        let audit = Event::Audit(replica, replica);
        self.planned.extend([audit, Event::Mark(replica, how)]);
    }

    fn event(&mut self, machine: &Machine) -> Option<Event> {
        let planned = *self.planned.last()?;
        if let Event::Mark(replica, _) = planned {
            let node = &machine.nodes[replica as usize];
            if !node.is_settled() {
                // A replica with a cut goes on as ever.
                return node.cut.is_none().then(|| working(node, replica));
            }
        }
        self.planned.pop()
    }
}

fn next(maker: &mut Maker, machine: &Machine, number: u32) -> Event {
    let replica = maker.random.below(machine.nodes.len() as u32);
    let node = &machine.nodes[replica as usize];
    match maker.random.below(100) {
        0..8 if machine.length() < node.length + 200 => {
            let key = (1 + maker.random.below(1_000), number);
            Event::Ask(key, maker.call(CUSTOMERS))
        }
        8..9 if machine.length() > 0 => {
            let (key, call) = *maker.random.pick(&machine.log);
            Event::Ask(key, call)
        }
        9..11 => Event::Ack(replica),
        11..16 if node.length > 0 => {
            let latest = node.length - maker.random.below(node.length.min(50));
            Event::Answer(replica, latest)
        }
        16..24 if !node.from.is_empty() => {
            let count = node.from.len() as u32;
            Event::From(replica, count - maker.random.below(count.min(50)))
        }
        24..62 => running(maker, machine, replica),
        _ => hearing(maker, machine, replica),
    }
}

// The workers of a replica work, or it hears of more if there is no work for them.
fn running(maker: &mut Maker, machine: &Machine, replica: u32) -> Event {
    let node = &machine.nodes[replica as usize];
    let hand = maker.random.below(WORKERS);
    if node.hands[hand as usize].is_some() {
        return Event::Finish(replica, hand + 1);
    }
    let ready = machine.ready(node).len() as u32;
    if ready == 0 {
        return hearing(maker, machine, replica);
    }
    Event::Take(replica, hand + 1, maker.random.below(ready.min(4)))
}

// A replica hears its next entry, or that entry is sent, or the replica hears an old or a far one.
fn hearing(maker: &mut Maker, machine: &Machine, replica: u32) -> Event {
    let node = &machine.nodes[replica as usize];
    if !node.to.is_empty() && maker.random.percent(8) {
        let count = node.to.len() as u32;
        return Event::To(replica, count - maker.random.below(count.min(100)));
    }
    if node.open.len() >= OPEN {
        return working(node, replica);
    }
    if node.holds_next() {
        return Event::Next(replica);
    }
    match place_of_next(node) {
        Some(place) => Event::To(replica, place),
        None if node.length < machine.length() => sending(maker, machine, replica),
        None => Event::Ask((0, machine.length()), maker.call(CUSTOMERS)),
    }
}

// One step towards an idle replica.
fn working(node: &Node, replica: u32) -> Event {
    match node.hands.iter().position(Option::is_some) {
        Some(hand) => Event::Finish(replica, hand as u32 + 1),
        None => Event::Take(replica, 1, 0),
    }
}

fn sending(maker: &mut Maker, machine: &Machine, replica: u32) -> Event {
    let node = &machine.nodes[replica as usize];
    match node.recorded == node.length && maker.random.percent(30) {
        true => Event::Resend(replica),
        false => Event::Send(replica, node.length + 1),
    }
}

// The place of the next entry among those sent last.
fn place_of_next(node: &Node) -> Option<u32> {
    let recent = node.to.len().saturating_sub(64);
    let index = node.to[recent..]
        .iter()
        .rposition(|number| *number == node.length + 1)?;
    Some((recent + index) as u32 + 1)
}
