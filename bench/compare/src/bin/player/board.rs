//! The board of a replica: its log of ops. It hands out those whose balances are free.
//!
//! Each balance knows the last unfinished op that touches it. Each unfinished op knows the next op
//! at each of its balances, and at how many of them it isn't first. Ops submitted before a cut
//! write into the cut's balances too.

use crate::bank::{Op, Reply, TOUCHED, Touched, Values};
use std::collections::{BTreeMap, VecDeque};

const OPEN: usize = 1_024;
const LOG_OPS: u64 = 1_000_000;
// An entry is held back up to this far after the length.
const HELD: u64 = 64;

// A place in the table of unfinished ops, or nobody.
type Slot = u16;
const NOBODY: Slot = Slot::MAX;

/// What a worker executes: an op, and what its balances held when it was taken.
pub struct Job {
    pub number: u64,
    op: Op,
    held: Values,
}

/// A job that was executed.
pub struct Done {
    job: Job,
    reply: Reply,
    left: Values,
}

impl Job {
    pub fn run(self) -> Done {
        let (reply, left) = self.op.perform(self.held);
        Done {
            job: self,
            reply,
            left,
        }
    }
}

/// The answer to an entry.
pub enum Offered {
    Next,
    Repeat,
    Gap,
    Held,
    Busy,
}

#[derive(Clone, Copy)]
enum State {
    Open(Slot),
    Finished(Reply),
}

struct Unfinished {
    op: Op,
    touched: Touched,
    // The next op at each of its balances.
    next: [Slot; TOUCHED],
    // At how many of its balances another op comes before it.
    waits_for: u8,
    number: u64,
    is_out: bool,
}

// The balances after a beginning of the log, which later ops leave alone.
struct Cut {
    length: u64,
    balances: Vec<i64>,
    // How many ops of this beginning aren't finished.
    unfinished: usize,
}

/// The balances and replies after a finished beginning of the log.
#[derive(Clone, Copy)]
pub struct Settled<'a> {
    pub balances: &'a [i64],
    states: &'a [State],
}

pub struct Board {
    balances: Vec<i64>,
    states: Vec<State>,
    unfinished: Vec<Unfinished>,
    free: Vec<Slot>,
    // The last unfinished op at each balance.
    last: Vec<Slot>,
    // Rising numbers.
    ready: VecDeque<u64>,
    cut: Option<Cut>,
    // The entries that came before their turn, by number.
    held: BTreeMap<u64, Op>,
}

impl Settled<'_> {
    pub fn length(&self) -> u64 {
        self.states.len() as u64
    }

    pub fn replies(&self) -> impl ExactSizeIterator<Item = Reply> {
        self.states.iter().map(|state| match state {
            State::Finished(reply) => *reply,
            State::Open(_) => unreachable!("all of this beginning is finished"),
        })
    }
}

impl Board {
    /// A board over these balances, after entries with these replies.
    pub fn open(balances: Vec<i64>, replies: Vec<Reply>) -> Self {
        Board {
            last: vec![NOBODY; balances.len()],
            balances,
            states: replies.into_iter().map(State::Finished).collect(),
            unfinished: Vec::new(),
            free: Vec::new(),
            ready: VecDeque::new(),
            cut: None,
            held: BTreeMap::new(),
        }
    }

    pub fn length(&self) -> u64 {
        self.states.len() as u64
    }

    pub fn reply(&self, number: u64) -> Option<Reply> {
        match self.states.get(index(number)?)? {
            State::Finished(reply) => Some(*reply),
            State::Open(_) => None,
        }
    }

    /// The balances and replies after the whole log, if all of it is finished.
    pub fn settled(&self) -> Option<Settled<'_>> {
        (self.unfinished_count() == 0).then_some(Settled {
            balances: &self.balances,
            states: &self.states,
        })
    }

    /// The balances and replies after the log up to the cut, or after the whole log without a cut,
    /// if all of that is finished.
    pub fn settled_cut(&self) -> Option<Settled<'_>> {
        let Some(cut) = &self.cut else {
            return self.settled();
        };
        (cut.unfinished == 0).then_some(Settled {
            balances: &cut.balances,
            states: &self.states[..cut.length as usize],
        })
    }

    /// Makes a cut at the log's length, and answers that length. If there is a cut already, its
    /// length is the error.
    pub fn cut(&mut self) -> Result<u64, u64> {
        if let Some(pending) = &self.cut {
            return Err(pending.length);
        }
        let length = self.length();
        self.cut = Some(Cut {
            length,
            balances: self.balances.clone(),
            unfinished: self.unfinished_count(),
        });
        Ok(length)
    }

    pub fn drop_cut(&mut self) {
        self.cut = None;
    }

    fn unfinished_count(&self) -> usize {
        self.unfinished.len() - self.free.len()
    }

    /// Takes an entry if it is the next one, and holds it if it comes a little early.
    pub fn offer(&mut self, number: u64, op: Op) -> Offered {
        let length = self.length();
        if number <= length {
            Offered::Repeat
        } else if number > length + HELD || number > LOG_OPS {
            Offered::Gap
        } else if number > length + 1 {
            self.held.insert(number, op);
            Offered::Held
        } else if self.unfinished_count() == OPEN {
            Offered::Busy
        } else {
            self.held.remove(&number);
            self.append(number, op);
            Offered::Next
        }
    }

    /// Takes what is held for the next number, as if it came now.
    pub fn offer_held(&mut self) -> Option<Offered> {
        let next = self.length() + 1;
        let op = *self.held.get(&next)?;
        Some(self.offer(next, op))
    }

    fn append(&mut self, number: u64, op: Op) {
        let touched = op.touched();
        let mut newest = Unfinished {
            op,
            touched,
            next: [NOBODY; TOUCHED],
            waits_for: 0,
            number,
            is_out: false,
        };
        let slot = self.free.pop().unwrap_or(self.unfinished.len() as Slot);
        for balance in touched.as_slice() {
            let before = std::mem::replace(&mut self.last[*balance as usize], slot);
            if before != NOBODY {
                self.unfinished[usize::from(before)].put_next(*balance, slot);
                newest.waits_for += 1;
            }
        }
        if newest.waits_for == 0 {
            self.ready.push_back(number);
        }
        self.states.push(State::Open(slot));
        match self.unfinished.get_mut(usize::from(slot)) {
            Some(freed) => *freed = newest,
            None => self.unfinished.push(newest),
        }
    }

    /// Hands out the ready op that has this many ready ones before it.
    pub fn take_at(&mut self, before: usize) -> Option<Job> {
        let number = self.ready.remove(before)?;
        let slot = self.slot(number)?;
        let taken = &mut self.unfinished[usize::from(slot)];
        taken.is_out = true;
        let (op, touched) = (taken.op, taken.touched);
        Some(Job {
            number,
            op,
            held: self.held(touched),
        })
    }

    /// Takes a result back if its number is out with an equal op over equal values, and answers the
    /// reply.
    pub fn finish(&mut self, done: Done) -> Option<Reply> {
        let Done { job, reply, left } = done;
        let slot = self.slot(job.number)?;
        let this = &self.unfinished[usize::from(slot)];
        let (touched, next) = (this.touched, this.next);
        if !this.is_out || this.op != job.op || self.held(touched) != job.held {
            return None;
        }
        if let Some(cut) = &mut self.cut
            && job.number <= cut.length
        {
            cut.write(touched, left);
        }
        for ((balance, value), next) in touched.as_slice().iter().zip(left).zip(next) {
            self.balances[*balance as usize] = value;
            if next == NOBODY {
                self.last[*balance as usize] = NOBODY;
            } else {
                self.move_up(next);
            }
        }
        self.states[job.number as usize - 1] = State::Finished(reply);
        self.free.push(slot);
        Some(reply)
    }

    // One op fewer comes before this one.
    fn move_up(&mut self, slot: Slot) {
        let waiting = &mut self.unfinished[usize::from(slot)];
        waiting.waits_for -= 1;
        if waiting.waits_for == 0 {
            let number = waiting.number;
            let at = self.ready.partition_point(|ready| *ready < number);
            self.ready.insert(at, number);
        }
    }

    fn slot(&self, number: u64) -> Option<Slot> {
        match self.states.get(index(number)?)? {
            State::Open(slot) => Some(*slot),
            State::Finished(_) => None,
        }
    }

    fn held(&self, touched: Touched) -> Values {
        let mut held = Values::default();
        for (value, balance) in held.iter_mut().zip(touched.as_slice()) {
            *value = self.balances[*balance as usize];
        }
        held
    }
}

impl Cut {
    // One of its ops is finished.
    fn write(&mut self, touched: Touched, left: Values) {
        for (balance, value) in touched.as_slice().iter().zip(left) {
            self.balances[*balance as usize] = value;
        }
        self.unfinished -= 1;
    }
}

impl Unfinished {
    fn put_next(&mut self, balance: u32, slot: Slot) {
        let at = self
            .touched
            .as_slice()
            .iter()
            .position(|own| *own == balance);
        self.next[at.expect("it touches this balance")] = slot;
    }
}

fn index(number: u64) -> Option<usize> {
    number.checked_sub(1).map(|index| index as usize)
}
