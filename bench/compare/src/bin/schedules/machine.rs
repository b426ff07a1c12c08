//! What a schedule does, in numbers alone: no rows, queues, jobs or bytes.

use crate::event::{Call, Customer, Event, How, Key};
use crate::ledger::Ledger;
use std::collections::{BTreeSet, HashMap, HashSet};

const OPEN: usize = 1_024;
const RESENT: u32 = 16;
const HELD: u32 = 64;

/// The note on an event. Replies and sums are the ledger's.
pub enum Note {
    Words(&'static str),
    Number(&'static str, u32),
    Numbers(&'static str, u32, u32),
    Finished(u32),
    Same(u32),
}

impl Note {
    /// The words before its numbers.
    pub fn words(&self) -> &'static str {
        match *self {
            Note::Words(words) | Note::Number(words, _) | Note::Numbers(words, ..) => words,
            Note::Finished(_) => "finished",
            Note::Same(_) => "same",
        }
    }

    pub fn text(&self, ledger: &Ledger) -> String {
        match *self {
            Note::Words(words) => words.to_owned(),
            Note::Number(word, number) => format!("{word} {number}"),
            Note::Numbers(word, first, second) => format!("{word} {first} {second}"),
            Note::Finished(number) => format!("finished {number} {}", ledger.reply(number)),
            Note::Same(length) => {
                let total = crate::event::money(ledger.total(length));
                format!("same {total} {}", ledger.overdrawn(length))
            }
        }
    }
}

/// A frame from a replica.
#[derive(Clone, Copy)]
pub enum Told {
    Ack(u32),
    Answer(u32),
    Have(u32),
}

#[derive(Clone)]
pub struct Node {
    pub length: u32,
    /// The numbers up to the length that aren't finished.
    pub open: BTreeSet<u32>,
    pub out: BTreeSet<u32>,
    /// The numbers after the length that already came.
    pub held: BTreeSet<u32>,
    pub hands: Vec<Option<u32>>,
    /// The length of the stored checkpoint, 0 for none.
    pub kept: u32,
    pub cut: Option<u32>,
    /// The last length that the sequencer heard of.
    pub recorded: u32,
    /// The last length of its checkpoint that the sequencer heard of.
    pub checkpoint: u32,
    /// The numbers of all entries sent to it.
    pub to: Vec<u32>,
    pub from: Vec<Told>,
    /// The lengths of all states that were sent to it.
    pub states: Vec<u32>,
}

#[derive(Clone)]
pub struct Machine {
    pub customers: usize,
    pub log: Vec<(Key, Call)>,
    /// How many of these no crash takes. Replicas get no others.
    pub synced: u32,
    /// The asks that crashes took.
    pub lost: Vec<(Key, Call)>,
    /// The last number that was ever given.
    pub longest: u32,
    numbers: HashMap<Key, u32>,
    /// The numbers whose reply the sequencer keeps.
    pub answered: HashSet<u32>,
    pub nodes: Vec<Node>,
}

const NOTHING: Note = Note::Words("nothing");

// The balances that a call touches: a customer and whether it is checking.
fn touches(call: Call, customers: usize) -> Vec<(Customer, bool)> {
    let all = match call {
        Call::Balance(n) | Call::Check(n, _) => vec![(n, false), (n, true)],
        Call::Deposit(n, _) => vec![(n, true)],
        Call::Savings(n, _) => vec![(n, false)],
        Call::Amalgamate(from, to) | Call::Pay(from, to, _) if from == to => vec![],
        Call::Amalgamate(from, to) => vec![(from, false), (from, true), (to, true)],
        Call::Pay(from, to, _) => vec![(from, true), (to, true)],
    };
    let is_known = all.iter().all(|(customer, _)| *customer < customers);
    if is_known { all } else { vec![] }
}

impl Machine {
    pub fn open(customers: usize, nodes: u32, workers: u32) -> Self {
        let node = |_| Node {
            length: 0,
            open: BTreeSet::new(),
            out: BTreeSet::new(),
            held: BTreeSet::new(),
            hands: vec![None; workers as usize],
            kept: 0,
            cut: None,
            recorded: 0,
            checkpoint: 0,
            to: Vec::new(),
            from: Vec::new(),
            states: Vec::new(),
        };
        Machine {
            customers,
            log: Vec::new(),
            synced: 0,
            lost: Vec::new(),
            longest: 0,
            numbers: HashMap::new(),
            answered: HashSet::new(),
            nodes: (0..nodes).map(node).collect(),
        }
    }

    pub fn length(&self) -> u32 {
        self.log.len() as u32
    }

    /// The ready numbers of a node: open and not out, with no smaller open number that touches the
    /// same balance.
    pub fn ready(&self, node: &Node) -> Vec<u32> {
        let mut taken = HashSet::new();
        let mut ready = Vec::new();
        for number in &node.open {
            let touched = touches(self.log[*number as usize - 1].1, self.customers);
            let is_first = touched.iter().all(|balance| !taken.contains(balance));
            if is_first && !node.out.contains(number) {
                ready.push(*number);
            }
            taken.extend(touched);
        }
        ready
    }

    pub fn step(&mut self, event: Event) -> Note {
        self.try_step(event).unwrap_or(NOTHING)
    }

    fn try_step(&mut self, event: Event) -> Option<Note> {
        match event {
            Event::Ask(key, call) => {
                let note = self.append(key, call);
                self.sync();
                Some(note)
            }
            Event::Append(key, call) => Some(self.append(key, call)),
            Event::Sync => Some(self.sync()),
            Event::Crash(kept) => Some(self.crash(kept)),
            Event::Send(replica, number) => self.send(replica, number),
            Event::Resend(replica) => self.resend(replica),
            Event::To(replica, place) => self.node(replica)?.hear(place),
            Event::Ack(replica) => {
                let node = self.node(replica)?;
                Some(node.tell(Told::Ack(node.length)))
            }
            Event::Answer(replica, number) => {
                let node = self.node(replica)?;
                let is_held = (1..=node.length).contains(&number) && !node.open.contains(&number);
                is_held.then(|| node.tell(Told::Answer(number)))
            }
            Event::From(replica, place) => self.told(replica, place),
            Event::Take(replica, worker, index) => self.take(replica, worker, index),
            Event::Finish(replica, worker) => self.node(replica)?.finish(worker),
            Event::Mark(replica, how) => Some(self.node(replica)?.mark(how)),
            Event::Restart(replica) => Some(self.node(replica)?.restart()),
            Event::Cut(replica) => Some(self.node(replica)?.make_cut()),
            Event::Next(replica) => self.node(replica)?.next(),
            Event::Audit(first, second) => self.audit(first, second),
            Event::Have(replica) => {
                let node = self.node(replica)?;
                Some(node.tell(Told::Have(node.kept)))
            }
            Event::Donor(replica) => {
                let (donor, length) = self.donor(replica)?;
                Some(Note::Numbers("donor", donor, length))
            }
            Event::Give(donor, replica) => self.give(donor, replica),
            Event::Adopt(replica, place) => self.node(replica)?.adopt(place),
        }
    }

    fn node(&mut self, replica: u32) -> Option<&mut Node> {
        self.nodes.get_mut(replica as usize)
    }

    fn append(&mut self, key: Key, call: Call) -> Note {
        match self.numbers.get(&key) {
            Some(number) if self.log[*number as usize - 1].1 == call => {
                Note::Number("repeat", *number)
            }
            Some(number) => Note::Number("mismatch", *number),
            None => {
                self.log.push((key, call));
                self.longest = self.longest.max(self.length());
                self.numbers.insert(key, self.length());
                Note::Number("new", self.length())
            }
        }
    }

    fn sync(&mut self) -> Note {
        self.synced = self.length();
        Note::Number("synced", self.synced)
    }

    /// How long the log is after a crash that keeps numbers up to this one.
    pub fn left(&self, kept: u32) -> u32 {
        self.length().min(self.synced.max(kept))
    }

    fn crash(&mut self, kept: u32) -> Note {
        let lost = self.log.split_off(self.left(kept) as usize);
        for (key, _) in &lost {
            self.numbers.remove(key);
        }
        self.lost.extend(lost);
        self.synced = self.length();
        self.answered.clear();
        for node in &mut self.nodes {
            node.recorded = 0;
            node.checkpoint = 0;
        }
        Note::Number("crashed", self.synced)
    }

    fn send(&mut self, replica: u32, number: u32) -> Option<Note> {
        let is_there = (1..=self.synced).contains(&number);
        let node = self.node(replica)?;
        is_there.then(|| {
            node.to.push(number);
            Note::Number("sent", node.to.len() as u32)
        })
    }

    fn resend(&mut self, replica: u32) -> Option<Note> {
        let synced = self.synced;
        let node = self.node(replica)?;
        let last = synced.min(node.recorded + RESENT);
        node.to.extend(node.recorded + 1..=last);
        Some(Note::Number("resent", last.saturating_sub(node.recorded)))
    }

    fn told(&mut self, replica: u32, place: u32) -> Option<Note> {
        let node = self.nodes.get_mut(replica as usize)?;
        Some(match *node.from.get((place as usize).checked_sub(1)?)? {
            Told::Ack(length) => {
                node.recorded = length;
                Note::Number("recorded", length)
            }
            Told::Have(length) => {
                node.checkpoint = length;
                Note::Number("has", length)
            }
            Told::Answer(number) => match self.answered.insert(number) {
                true => Note::Number("kept", number),
                false => Note::Number("repeat", number),
            },
        })
    }

    /// The replica that another one gets a state from, and its length.
    pub fn donor(&self, replica: u32) -> Option<(u32, u32)> {
        let recorded = self.nodes.get(replica as usize)?.recorded;
        let mut best = None;
        let mut longest = recorded;
        for (node, donor) in self.nodes.iter().zip(0..) {
            if donor != replica && node.checkpoint > longest {
                longest = node.checkpoint;
                best = Some((donor, longest));
            }
        }
        best
    }

    fn give(&mut self, donor: u32, replica: u32) -> Option<Note> {
        let kept = self.nodes.get(donor as usize)?.kept;
        let states = &mut self.node(replica)?.states;
        (kept > 0).then(|| {
            states.push(kept);
            Note::Number("gave", states.len() as u32)
        })
    }

    fn take(&mut self, replica: u32, worker: u32, index: u32) -> Option<Note> {
        let node = self.nodes.get(replica as usize)?;
        let hand = (worker as usize).checked_sub(1)?;
        if node.hands.get(hand)?.is_some() {
            return Some(Note::Words("hand full"));
        }
        let number = *self.ready(node).get(index as usize)?;
        let node = self.node(replica)?;
        node.out.insert(number);
        node.hands[hand] = Some(number);
        Some(Note::Number("took", number))
    }

    fn audit(&self, first: u32, second: u32) -> Option<Note> {
        let (one, other) = (
            self.nodes.get(first as usize)?,
            self.nodes.get(second as usize)?,
        );
        Some(if !one.open.is_empty() {
            Note::Number("busy", first)
        } else if !other.open.is_empty() {
            Note::Number("busy", second)
        } else if one.length != other.length {
            Note::Numbers("apart", one.length, other.length)
        } else {
            Note::Same(one.length)
        })
    }
}

impl Node {
    fn hear(&mut self, place: u32) -> Option<Note> {
        let number = *self.to.get((place as usize).checked_sub(1)?)?;
        Some(if number <= self.length {
            Note::Number("repeat", number)
        } else if number > self.length + HELD {
            Note::Number("gap", self.length)
        } else if number > self.length + 1 {
            self.held.insert(number);
            Note::Number("held", number)
        } else {
            self.accept()
        })
    }

    // The next number comes.
    fn accept(&mut self) -> Note {
        if self.open.len() == OPEN {
            return Note::Number("busy", self.length);
        }
        self.length += 1;
        self.open.insert(self.length);
        self.held.remove(&self.length);
        Note::Number("accepted", self.length)
    }

    /// Whether its next number came already.
    pub fn holds_next(&self) -> bool {
        self.held.contains(&(self.length + 1))
    }

    fn next(&mut self) -> Option<Note> {
        self.holds_next().then(|| self.accept())
    }

    fn tell(&mut self, told: Told) -> Note {
        self.from.push(told);
        Note::Number("sent", self.from.len() as u32)
    }

    fn finish(&mut self, worker: u32) -> Option<Note> {
        let hand = self.hands.get_mut((worker as usize).checked_sub(1)?)?;
        let number = hand.take()?;
        if self.out.remove(&number) {
            self.open.remove(&number);
            Some(Note::Finished(number))
        } else {
            Some(Note::Number("stranger", number))
        }
    }

    /// How many numbers a mark covers.
    pub fn marked(&self) -> u32 {
        self.cut.unwrap_or(self.length)
    }

    /// Whether nothing that a mark covers is open.
    pub fn is_settled(&self) -> bool {
        self.open.range(..=self.marked()).next().is_none()
    }

    fn make_cut(&mut self) -> Note {
        match self.cut {
            Some(length) => Note::Number("pending", length),
            None => {
                self.cut = Some(self.length);
                Note::Number("cut", self.length)
            }
        }
    }

    fn mark(&mut self, how: How) -> Note {
        if !self.is_settled() {
            return Note::Words("busy");
        }
        let length = self.marked();
        if how != How::Old {
            self.kept = length;
        }
        match how {
            How::Ok => {
                self.cut = None;
                Note::Number("marked", length)
            }
            How::Old | How::New => Note::Words("store fault"),
        }
    }

    fn adopt(&mut self, place: u32) -> Option<Note> {
        let size = *self.states.get((place as usize).checked_sub(1)?)?;
        Some(if size <= self.length {
            Note::Number("behind", self.length)
        } else {
            self.begin_at(size);
            Note::Number("adopted", size)
        })
    }

    fn restart(&mut self) -> Note {
        self.begin_at(self.kept);
        Note::Number("restarted", self.kept)
    }

    // Goes to this length: all up to there is finished, and nothing else is there.
    fn begin_at(&mut self, size: u32) {
        self.length = size;
        self.open.clear();
        self.out.clear();
        self.held.clear();
        self.cut = None;
    }
}
