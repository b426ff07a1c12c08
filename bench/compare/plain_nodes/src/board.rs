//! Who waits at which cown, and what is ready.

use crate::op::{Held, OP_COWNS, Op};
use crate::shared::bank::Bank;
use crate::shared::output::Reply;
use std::collections::VecDeque;

/// How many ops may be unfinished at once.
pub const OPEN_OPS: usize = 1_024;

// The slot of nobody.
const NOBODY: u32 = u32::MAX;

/// The limit of unfinished ops is reached.
pub struct Busy;

/// An op that has its cowns alone until it is finished, with what they hold.
pub struct Job {
    slot: u32,
    op: Op,
    held: Held,
}

impl Job {
    pub fn run(self) -> Done {
        let (reply, held) = self.op.perform(self.held);
        Done {
            slot: self.slot,
            reply,
            held,
        }
    }
}

/// What an op replied and left in its cowns.
pub struct Done {
    slot: u32,
    reply: Reply,
    held: Held,
}

/// An unfinished op.
#[derive(Clone, Copy)]
struct Slot {
    op: Op,
    // Its place in the log.
    place: u32,
    // At how many of its cowns other ops are before it.
    behind: u8,
    // For each of its cowns the op that is next there.
    next: [u32; OP_COWNS],
}

/// A log of ops; it hands out those whose cowns are free. Each cown has a queue of unfinished ops,
/// linked from each to the next.
pub struct Board {
    // By cown: the savings of customer i, then the checking balance.
    balances: Vec<i64>,
    // By cown: the last op in its queue.
    last: Vec<u32>,
    slots: Vec<Slot>,
    free: Vec<u32>,
    ready: VecDeque<u32>,
    replies: Vec<Option<Reply>>,
}

impl Board {
    pub fn open(bank: &Bank) -> Self {
        let rows = bank.savings.iter().zip(&bank.checking);
        let balances: Vec<i64> = rows.flat_map(|(s, c)| [*s, *c]).collect();
        let empty = Slot {
            op: Op::NoCustomer,
            place: 0,
            behind: 0,
            next: [NOBODY; OP_COWNS],
        };
        Board {
            last: vec![NOBODY; balances.len()],
            balances,
            slots: vec![empty; OPEN_OPS],
            free: (0..OPEN_OPS as u32).rev().collect(),
            ready: VecDeque::with_capacity(OPEN_OPS),
            replies: Vec::new(),
        }
    }

    pub fn reserve(&mut self, additional: usize) {
        self.replies.reserve(additional);
    }

    /// Appends an op to the log.
    pub fn submit(&mut self, op: Op) -> Result<(), Busy> {
        let slot = self.free.pop().ok_or(Busy)?;
        let mut behind = 0;
        for &cown in op.cowns().as_slice() {
            let last = std::mem::replace(&mut self.last[cown as usize], slot);
            if last != NOBODY {
                self.link(last, cown, slot);
                behind += 1;
            }
        }
        self.slots[slot as usize] = Slot {
            op,
            place: self.replies.len() as u32,
            behind,
            next: [NOBODY; OP_COWNS],
        };
        self.replies.push(None);
        if behind == 0 {
            self.ready.push_back(slot);
        }
        Ok(())
    }

    fn link(&mut self, before: u32, cown: u32, slot: u32) {
        let before = &mut self.slots[before as usize];
        let cowns = before.op.cowns();
        for (declared, next) in cowns.as_slice().iter().zip(&mut before.next) {
            if *declared == cown {
                *next = slot;
            }
        }
    }

    /// Hands out an op that is ready.
    pub fn take(&mut self) -> Option<Job> {
        let slot = self.ready.pop_front()?;
        let op = self.slots[slot as usize].op;
        let mut held = [0; OP_COWNS];
        for (cown, held) in op.cowns().as_slice().iter().zip(&mut held) {
            *held = self.balances[*cown as usize];
        }
        Some(Job { slot, op, held })
    }

    /// Takes back the result of an op that was handed out.
    pub fn finish(&mut self, done: Done) {
        let slot = self.slots[done.slot as usize];
        let cowns = slot.op.cowns();
        for ((&cown, held), next) in cowns.as_slice().iter().zip(done.held).zip(slot.next) {
            self.balances[cown as usize] = held;
            if next == NOBODY {
                self.last[cown as usize] = NOBODY;
            } else {
                self.come_forward(next);
            }
        }
        self.replies[slot.place as usize] = Some(done.reply);
        self.free.push(done.slot);
    }

    fn come_forward(&mut self, slot: u32) {
        let next = &mut self.slots[slot as usize];
        next.behind -= 1;
        if next.behind == 0 {
            self.ready.push_back(slot);
        }
    }

    pub fn is_idle(&self) -> bool {
        self.free.len() == OPEN_OPS
    }

    pub fn length(&self) -> u64 {
        self.replies.len() as u64
    }

    /// The reply to a number, once its op is finished.
    pub fn reply(&self, number: u32) -> Option<Reply> {
        self.replies[number as usize - 1]
    }

    pub fn balances(&self) -> &[i64] {
        &self.balances
    }

    /// Whether both have the same replies and balances.
    pub fn agrees_with(&self, other: &Board) -> bool {
        self.is_idle()
            && other.is_idle()
            && self.replies == other.replies
            && self.balances == other.balances
    }
}
