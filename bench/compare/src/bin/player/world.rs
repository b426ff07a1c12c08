//! The sequencer, the replicas with their workers and stores, and the frames between them.

use crate::bank::Directory;
use crate::board::{Board, Job, Offered, Settled};
use crate::checkpoint::{self, Checkpoint};
use crate::frame::Frame;
use crate::lists::Sent;
use crate::note::{Column, Note};
use crate::printing::{push_money, push_number};
use crate::schedule::{Event, How, Schedule};
use crate::sequencer::Sequencer;

struct Node {
    board: Board,
    hands: Vec<Option<Job>>,
    stored: Option<Vec<u8>>,
    to: Sent,
    from: Sent,
    // The bytes of all checkpoints that were ever sent to it.
    states: Vec<Vec<u8>>,
}

pub struct World<'a> {
    directory: &'a Directory<'a>,
    opening: &'a [i64],
    opening_total: i64,
    sequencer: Sequencer<'a>,
    nodes: Vec<Node>,
}

impl<'a> World<'a> {
    pub fn open(schedule: &'a Schedule<'a>) -> Self {
        let node = |_| Node {
            board: Board::open(schedule.opening.clone(), Vec::new()),
            hands: (0..schedule.workers).map(|_| None).collect(),
            stored: None,
            to: Sent::default(),
            from: Sent::default(),
            states: Vec::new(),
        };
        World {
            directory: &schedule.directory,
            opening: &schedule.opening,
            opening_total: schedule.opening.iter().sum(),
            sequencer: Sequencer::open(schedule.nodes),
            nodes: (0..schedule.nodes).map(node).collect(),
        }
    }

    pub fn step(&mut self, event: &Event<'a>) -> Note {
        self.try_step(event).unwrap_or(Note::Nothing)
    }

    // `None` if there is nothing to do, or no such replica, worker, place or number.
    fn try_step(&mut self, event: &Event<'a>) -> Option<Note> {
        match *event {
            Event::Ask { key, call } => Some(self.sequencer.ask(key, call)),
            Event::Append { key, call } => Some(self.sequencer.append(key, call)),
            Event::Sync => Some(self.sequencer.sync()),
            Event::Crash { kept } => Some(self.sequencer.crash(kept)),
            Event::Send { replica, number } => self.send(replica, number),
            Event::Resend { replica } => self.resend(replica),
            Event::To { replica, place } => self.deliver_to(replica, place),
            Event::Ack { replica } => self.ack(replica),
            Event::Answer { replica, number } => self.answer(replica, number),
            Event::From { replica, place } => self.deliver_from(replica, place),
            Event::Take {
                replica,
                worker,
                index,
            } => self.node(replica)?.take(worker, index),
            Event::Finish { replica, worker } => self.node(replica)?.finish(worker),
            Event::Mark { replica, how } => self.mark(replica, how),
            Event::Restart { replica } => self.restart(replica),
            Event::Cut { replica } => Some(self.node(replica)?.cut()),
            Event::Next { replica } => self.node(replica)?.next(),
            Event::Audit { first, second } => self.audit(first, second),
            Event::Have { replica } => self.have(replica),
            Event::Donor { replica } => self.sequencer.donor(replica),
            Event::Give { donor, replica } => self.give(donor, replica),
            Event::Adopt { replica, place } => self.adopt(replica, place),
        }
    }

    fn node(&mut self, replica: u32) -> Option<&mut Node> {
        self.nodes.get_mut(replica as usize)
    }

    fn send(&mut self, replica: u32, number: u32) -> Option<Note> {
        let call = self.sequencer.call(number)?;
        let number = u64::from(number);
        let place = self.node(replica)?.to.push(&Frame::Entry { number, call });
        Some(Note::Sent(place))
    }

    fn resend(&mut self, replica: u32) -> Option<Note> {
        let entries = self.sequencer.unheard(replica)?;
        let node = self.nodes.get_mut(replica as usize)?;
        let mut count = 0;
        for (number, call) in entries {
            node.to.push(&Frame::Entry { number, call });
            count += 1;
        }
        Some(Note::Resent(count))
    }

    fn deliver_to(&mut self, replica: u32, place: u32) -> Option<Note> {
        let node = self.nodes.get_mut(replica as usize)?;
        let Some(Frame::Entry { number, call }) = Frame::decode(node.to.get(place)?) else {
            unreachable!("what is sent to a replica is an entry");
        };
        let op = self.directory.resolve(&call);
        let offered = node.board.offer(number, op);
        Some(node.heard(number, offered))
    }

    fn ack(&mut self, replica: u32) -> Option<Note> {
        let node = self.node(replica)?;
        let place = node.from.push(&Frame::Ack {
            replica: replica as u8,
            length: node.board.length(),
        });
        Some(Note::Sent(place))
    }

    fn answer(&mut self, replica: u32, number: u32) -> Option<Note> {
        let number = u64::from(number);
        let node = self.node(replica)?;
        let reply = node.board.reply(number)?;
        let place = node.from.push(&Frame::Answer { number, reply });
        Some(Note::Sent(place))
    }

    fn deliver_from(&mut self, replica: u32, place: u32) -> Option<Note> {
        let node = self.nodes.get(replica as usize)?;
        match Frame::decode(node.from.get(place)?) {
            Some(Frame::Ack { replica, length }) => Some(self.sequencer.on_ack(replica, length)),
            Some(Frame::Answer { number, reply }) => Some(self.sequencer.on_answer(number, reply)),
            Some(Frame::Have { replica, length }) => Some(self.sequencer.on_have(replica, length)),
            _ => unreachable!("what a replica sends tells a length or a reply"),
        }
    }

    fn mark(&mut self, replica: u32, how: How) -> Option<Note> {
        let opening_total = self.opening_total;
        Some(self.node(replica)?.mark(how, opening_total))
    }

    fn have(&mut self, replica: u32) -> Option<Note> {
        let kept = self.nodes.get(replica as usize)?.stored.as_ref();
        let length = kept.map_or(0, |bytes| self.checkpoint_of(bytes).length());
        let place = self.node(replica)?.from.push(&Frame::Have {
            replica: replica as u8,
            length,
        });
        Some(Note::Sent(place))
    }

    // A checkpoint of no entry isn't given.
    fn give(&mut self, donor: u32, replica: u32) -> Option<Note> {
        let state = self.nodes.get(donor as usize)?.stored.clone()?;
        let length = self.checkpoint_of(&state).length();
        let states = &mut self.node(replica)?.states;
        (length > 0).then(|| {
            states.push(state);
            Note::Gave(states.len() as u64)
        })
    }

    fn adopt(&mut self, replica: u32, place: u32) -> Option<Note> {
        let node = self.nodes.get(replica as usize)?;
        let state = node.states.get((place as usize).checked_sub(1)?)?;
        let state = self.checkpoint_of(state);
        let node = self.node(replica)?;
        if state.length() <= node.board.length() {
            return Some(Note::Behind(node.board.length()));
        }
        node.board = state.board();
        Some(Note::Adopted(node.board.length()))
    }

    fn restart(&mut self, replica: u32) -> Option<Note> {
        let board = match &self.nodes.get(replica as usize)?.stored {
            None => Board::open(self.opening.to_vec(), Vec::new()),
            Some(bytes) => self.checkpoint_of(bytes).board(),
        };
        let length = board.length();
        self.node(replica)?.board = board;
        Some(Note::Restarted(length))
    }

    fn checkpoint_of(&self, bytes: &[u8]) -> Checkpoint {
        checkpoint::read(bytes, self.directory.names.len(), self.opening_total)
            .expect("what is stored is a checkpoint of this bank")
    }

    fn audit(&self, first: u32, second: u32) -> Option<Note> {
        let (one, other) = (
            &self.nodes.get(first as usize)?.board,
            &self.nodes.get(second as usize)?.board,
        );
        let Some(one) = one.settled() else {
            return Some(Note::BusyAt(u64::from(first)));
        };
        let Some(other) = other.settled() else {
            return Some(Note::BusyAt(u64::from(second)));
        };
        if one.length() != other.length() {
            return Some(Note::Apart(one.length(), other.length()));
        }
        let difference = first_difference(one.balances, other.balances);
        Some(difference.unwrap_or_else(|| self.books(one)))
    }

    // Whether the total is the opening's and what the calls added.
    fn books(&self, settled: Settled) -> Note {
        let calls = self.sequencer.log().iter().zip(settled.replies());
        let net: i64 = calls.map(|(call, reply)| call.net(reply)).sum();
        let expected = self.opening_total + net;
        let total = settled.balances.iter().sum();
        if total != expected {
            return Note::OffBooks(total, expected);
        }
        let checking = settled.balances.iter().skip(1).step_by(2);
        let overdrawn = checking.filter(|amount| **amount < 0).count() as u64;
        Note::Same(total, overdrawn)
    }

    /// Appends the final state of each replica.
    pub fn print(&self, out: &mut Vec<u8>) {
        for (node, replica) in self.nodes.iter().zip(0..) {
            out.extend_from_slice(b"replica ");
            push_number(out, replica);
            out.extend_from_slice(b" length ");
            push_number(out, node.board.length());
            match node.board.settled() {
                Some(settled) => {
                    out.extend_from_slice(b" idle\n");
                    self.print_rows(settled.balances, out);
                }
                None => out.extend_from_slice(b" busy\n"),
            }
        }
    }

    fn print_rows(&self, balances: &[i64], out: &mut Vec<u8>) {
        let (rows, _) = balances.as_chunks::<2>();
        for (name, [savings, checking]) in self.directory.names.iter().zip(rows) {
            out.extend_from_slice(name);
            out.push(b' ');
            push_money(out, *savings);
            out.push(b' ');
            push_money(out, *checking);
            out.push(b'\n');
        }
        out.extend_from_slice(b"total ");
        push_money(out, balances.iter().sum());
        out.push(b'\n');
    }
}

// The first place where the columns differ, savings first.
fn first_difference(one: &[i64], other: &[i64]) -> Option<Note> {
    let differs = |from: usize| {
        let pairs = one.iter().zip(other).skip(from).step_by(2);
        let place = pairs.into_iter().position(|(a, b)| a != b);
        place.map(|place| place as u64)
    };
    let savings = differs(0).map(|place| Note::Differ(Column::Savings, place));
    savings.or_else(|| differs(1).map(|place| Note::Differ(Column::Checking, place)))
}

impl Node {
    // The note on an entry with this number.
    fn heard(&self, number: u64, offered: Offered) -> Note {
        match offered {
            Offered::Next => Note::Accepted(number),
            Offered::Repeat => Note::Repeat(number),
            Offered::Gap => Note::Gap(self.board.length()),
            Offered::Held => Note::Held(number),
            Offered::Busy => Note::BusyAt(self.board.length()),
        }
    }

    fn next(&mut self) -> Option<Note> {
        let number = self.board.length() + 1;
        let offered = self.board.offer_held()?;
        Some(self.heard(number, offered))
    }

    fn take(&mut self, worker: u32, index: u32) -> Option<Note> {
        let hand = self.hands.get_mut((worker as usize).checked_sub(1)?)?;
        if hand.is_some() {
            return Some(Note::HandFull);
        }
        let job = self.board.take_at(index as usize)?;
        let number = job.number;
        *hand = Some(job);
        Some(Note::Took(number))
    }

    fn finish(&mut self, worker: u32) -> Option<Note> {
        let hand = self.hands.get_mut((worker as usize).checked_sub(1)?)?;
        let job = hand.take()?;
        let number = job.number;
        Some(match self.board.finish(job.run()) {
            Some(reply) => Note::Finished(number, reply),
            None => Note::Stranger(number),
        })
    }

    fn cut(&mut self) -> Note {
        match self.board.cut() {
            Ok(length) => Note::Cut(length),
            Err(length) => Note::Pending(length),
        }
    }

    fn mark(&mut self, how: How, opening_total: i64) -> Note {
        let Some(settled) = self.board.settled_cut() else {
            return Note::Busy;
        };
        let length = settled.length();
        let bytes = checkpoint::write(settled.balances, opening_total, settled.replies());
        match how {
            How::Ok => {
                self.stored = Some(bytes);
                self.board.drop_cut();
                Note::Marked(length)
            }
            How::Old => Note::StoreFault,
            How::New => {
                self.stored = Some(bytes);
                Note::StoreFault
            }
        }
    }
}
