//! Random events; most of them do something in the machine's present state.

use crate::event::{Call, Customer, Event, How, Key};
use crate::machine::{Machine, Node};
use crate::random::Random;

const KINDS: usize = 21;

// How often each kind of event comes: ask, send, resend, to, ack, answer, from, take, finish, mark,
// restart, cut, next, audit, have, donor, give, adopt, append, sync, crash. A crash is rare here: it
// takes what the sequencer was told, and a log that loses its calls stays short.
const USUAL: [u32; KINDS] = [
    14, 14, 5, 24, 4, 5, 8, 16, 16, 5, 3, 4, 8, 4, 5, 3, 5, 6, 3, 2, 1,
];

// The same for replicas that are often idle and get states from one another.
const CALM: [u32; KINDS] = [
    5, 10, 3, 20, 3, 5, 14, 30, 30, 14, 2, 3, 6, 3, 10, 8, 10, 14, 2, 1, 1,
];

// The same for a sequencer that often loses asks, and gives their numbers again.
const LOSING: [u32; KINDS] = [
    2, 12, 10, 24, 6, 6, 14, 16, 16, 5, 2, 3, 8, 4, 6, 4, 5, 5, 24, 8, 6,
];

const ASK: usize = 0;
const TO: usize = 3;
const APPEND: usize = 18;

const AMOUNTS: [i64; 8] = [0, 1, 100, 1_000, 12_345, 999_999, 1_000_000_000_000, -1];

/// The maker of one schedule's events.
pub struct Maker {
    pub random: Random,
    shares: [u32; KINDS],
    // Of 100 choices, how many are made without looking at the machine.
    blind: u32,
    // Most events are of this many first replicas.
    favoured: u32,
    // How many kinds of calls there are.
    calls: u32,
}

impl Maker {
    pub fn new(mut random: Random) -> Self {
        let usual = *random.pick(&[USUAL, USUAL, USUAL, CALM, CALM, LOSING]);
        let mut shares = usual.map(|usual| usual * random.pick(&[0, 1, 1, 2, 2, 3]));
        // Without these two nothing is ever heard.
        for kind in [ASK, TO] {
            shares[kind] = shares[kind].max(usual[kind]);
        }
        Maker {
            shares,
            blind: *random.pick(&[0, 5, 20]),
            favoured: 1 + random.below(3),
            calls: 6,
            random,
        }
    }

    /// Every new call is synced at once.
    pub fn without_appends(mut self) -> Self {
        self.shares[APPEND] = 0;
        self
    }

    /// Leaves payments out.
    pub fn without_payments(self) -> Self {
        Maker { calls: 5, ..self }
    }

    /// This many asks, each sent to the first replica.
    pub fn burst(&mut self, customers: usize, count: u32) -> Vec<Event> {
        let both = |number| {
            let call = self.call(customers);
            [Event::Ask((1, number), call), Event::Send(0, number)]
        };
        (1..=count).flat_map(both).collect()
    }

    pub fn event(&mut self, machine: &Machine) -> Event {
        let r = self.replica(machine);
        let node = machine.nodes.get(r as usize).unwrap_or(&machine.nodes[0]);
        match self.fitting_kind(machine, r, node) {
            ASK => {
                let (key, call) = self.asked(machine);
                Event::Ask(key, call)
            }
            1 => Event::Send(r, self.sent(machine, node)),
            2 => Event::Resend(r),
            TO => Event::To(r, self.place_to(node)),
            4 => Event::Ack(r),
            5 => Event::Answer(r, self.near(node.length)),
            6 => Event::From(r, self.near(node.from.len() as u32)),
            7 => {
                let ready = machine.ready(node).len() as u32;
                let worker = self.worker(node, false);
                Event::Take(r, worker, self.index(ready))
            }
            8 => Event::Finish(r, self.worker(node, true)),
            9 => Event::Mark(
                r,
                *self.random.pick(&[How::Ok, How::Ok, How::Old, How::New]),
            ),
            10 => Event::Restart(r),
            11 => Event::Cut(r),
            12 => Event::Next(r),
            13 => Event::Audit(r, self.replica(machine)),
            14 => Event::Have(r),
            15 => Event::Donor(r),
            16 => self.give(machine, r),
            17 => self.adopt(machine, r),
            APPEND => {
                let (key, call) = self.asked(machine);
                Event::Append(key, call)
            }
            19 => Event::Sync,
            _ => Event::Crash(self.kept(machine)),
        }
    }

    // A kind of event that does something, if some draws give one.
    fn fitting_kind(&mut self, machine: &Machine, r: u32, node: &Node) -> usize {
        let mut kind = self.kind();
        for _ in 0..4 {
            let is_vain = match kind {
                1 | 2 => machine.synced == 0,
                TO => node.to.is_empty(),
                4 | 5 => node.length == 0,
                6 => node.from.is_empty(),
                7 => machine.ready(node).is_empty(),
                8 => node.hands.iter().all(Option::is_none),
                9 => !node.is_settled() || node.marked() == 0,
                11 => node.cut.is_some(),
                12 => !node.holds_next(),
                14 => node.kept == 0,
                15 => machine.donor(r).is_none(),
                16 => machine.nodes.iter().all(|donor| donor.kept == 0),
                17 => machine.nodes.iter().all(|node| node.states.is_empty()),
                19 => machine.synced == machine.length(),
                20 => machine.log.is_empty(),
                _ => false,
            };
            if !is_vain || self.is_blind() {
                break;
            }
            kind = self.kind();
        }
        kind
    }

    fn kind(&mut self) -> usize {
        let mut left = self.random.below(self.shares.iter().sum());
        let chosen = self.shares.iter().position(|share| {
            let is_this = left < *share;
            left = left.saturating_sub(*share);
            is_this
        });
        chosen.unwrap_or_default()
    }

    fn is_blind(&mut self) -> bool {
        self.random.percent(self.blind)
    }

    fn replica(&mut self, machine: &Machine) -> u32 {
        let count = machine.nodes.len() as u32;
        if self.is_blind() && self.random.percent(20) {
            return *self.random.pick(&[count, 9, u32::MAX]);
        }
        match self.random.percent(85) {
            true => self.random.below(count.min(self.favoured)),
            false => self.random.below(count),
        }
    }

    // A number from 1 to a last one, or now and then one outside this range.
    fn near(&mut self, last: u32) -> u32 {
        match last == 0 || self.is_blind() {
            true => *self.random.pick(&[0, last, last + 1, u32::MAX]),
            false => 1 + self.random.below(last),
        }
    }

    fn sent(&mut self, machine: &Machine, node: &Node) -> u32 {
        let behind = node.to.last().map_or(1, |last| last + 1);
        match behind <= machine.synced && self.random.percent(60) {
            true => behind,
            false => self.near(machine.length()),
        }
    }

    // The place of the next entry, if it was sent, or any.
    fn place_to(&mut self, node: &Node) -> u32 {
        let next = node
            .to
            .iter()
            .rposition(|number| *number == node.length + 1);
        match next {
            Some(index) if self.random.percent(70) => index as u32 + 1,
            _ => self.near(node.to.len() as u32),
        }
    }

    // A state for a replica that has less, for this one if possible, or any.
    fn give(&mut self, machine: &Machine, replica: u32) -> Event {
        let donors = machine.nodes.iter().zip(0..);
        let more = donors.flat_map(|(donor, number)| {
            let others = machine.nodes.iter().zip(0..);
            let behind = others.filter(|(other, _)| other.length < donor.kept);
            behind.map(move |(_, other)| (other, Event::Give(number, other)))
        });
        let any = Event::Give(self.replica(machine), replica);
        self.one_at(replica, more.collect(), any)
    }

    // A state of more than its replica has, of this one if possible, or any.
    fn adopt(&mut self, machine: &Machine, replica: u32) -> Event {
        let nodes = machine.nodes.iter().zip(0..);
        let more = nodes.flat_map(|(node, number)| {
            let states = node.states.iter().zip(1..);
            let longer = states.filter(|(size, _)| **size > node.length);
            longer.map(move |(_, place)| (number, Event::Adopt(number, place)))
        });
        let node = machine.nodes.get(replica as usize);
        let any = self.near(node.map_or(0, |node| node.states.len() as u32));
        self.one_at(replica, more.collect(), Event::Adopt(replica, any))
    }

    // Mostly one of those that do something, at this replica if there are any.
    fn one_at(&mut self, replica: u32, mut fitting: Vec<(u32, Event)>, any: Event) -> Event {
        if fitting.iter().any(|(at, _)| *at == replica) {
            fitting.retain(|(at, _)| *at == replica);
        }
        match fitting.is_empty() || self.random.percent(30) {
            true => any,
            false => self.random.pick(&fitting).1,
        }
    }

    // A worker whose hand is full, or one whose hand is empty.
    fn worker(&mut self, node: &Node, is_full: bool) -> u32 {
        let count = node.hands.len() as u32;
        let fitting: Vec<u32> = (1..=count)
            .filter(|worker| node.hands[*worker as usize - 1].is_some() == is_full)
            .collect();
        if fitting.is_empty() || self.is_blind() {
            self.near(count)
        } else {
            *self.random.pick(&fitting)
        }
    }

    fn index(&mut self, ready: u32) -> u32 {
        match ready == 0 || self.is_blind() {
            true => *self.random.pick(&[0, ready, u32::MAX]),
            false if self.random.percent(50) => 0,
            false => self.random.below(ready),
        }
    }

    // A number after which a crash takes what isn't synced: any of those, or now and then another.
    fn kept(&mut self, machine: &Machine) -> u32 {
        match self.random.percent(80) {
            true => machine.synced + self.random.below(machine.length() - machine.synced + 1),
            false => self.near(machine.length()),
        }
    }

    // A request. It may be one of the log's or a lost one, with its call or with another.
    fn asked(&mut self, machine: &Machine) -> (Key, Call) {
        let earlier = match self.random.percent(50) && !machine.lost.is_empty() {
            true => &machine.lost,
            false => &machine.log,
        };
        if earlier.is_empty() || !self.random.percent(20) {
            return (self.key(), self.call(machine.customers));
        }
        let (key, call) = *self.random.pick(earlier);
        match self.random.percent(50) {
            true => (key, call),
            false => (key, self.call(machine.customers)),
        }
    }

    fn key(&mut self) -> Key {
        let client = *self.random.pick(&[0, 1, 2, 3, u32::MAX]);
        let request = self.random.below(100);
        match self.random.percent(5) {
            true => (client, u32::MAX - request % 2),
            false => (client, request),
        }
    }

    pub fn call(&mut self, customers: usize) -> Call {
        let owner = self.customer(customers);
        let amount = self.amount();
        match self.random.below(self.calls) {
            0 => Call::Balance(owner),
            1 => Call::Deposit(owner, amount),
            2 if self.random.percent(40) => Call::Savings(owner, -amount),
            2 => Call::Savings(owner, amount),
            3 => Call::Check(owner, amount),
            4 => Call::Amalgamate(owner, self.customer(customers)),
            _ => Call::Pay(owner, self.customer(customers), amount),
        }
    }

    fn customer(&mut self, customers: usize) -> Customer {
        match self.random.percent(4) {
            true => customers,
            false => self.random.below(customers.max(1) as u32) as usize,
        }
    }

    /// An amount, at times one at an end of its range.
    pub fn amount(&mut self) -> i64 {
        match self.random.percent(30) {
            true => *self.random.pick(&AMOUNTS),
            false => i64::from(self.random.below(20_000)),
        }
    }
}
