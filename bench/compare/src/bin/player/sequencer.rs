//! The sequencer: it numbers requests into a log, hears what replicas have, and restarts on what of
//! the log a crash leaves.

use crate::bank::{Call, Reply};
use crate::note::Note;
use std::cmp::Reverse;
use std::collections::HashMap;

const LOG_CALLS: usize = 1_000_000;
const RESENT: usize = 16;

type Key = (u32, u32);

pub struct Sequencer<'a> {
    log: Vec<Call<'a>>,
    // How much of the log no crash can take. Replicas get nothing else.
    synced: usize,
    numbers: HashMap<Key, u64>,
    // For each replica the length that it last acknowledged.
    recorded: Vec<u64>,
    // For each replica the length of the checkpoint that it last reported.
    checkpoints: Vec<u64>,
    answers: Vec<Option<Reply>>,
}

impl<'a> Sequencer<'a> {
    pub fn open(nodes: u32) -> Self {
        Sequencer {
            log: Vec::new(),
            synced: 0,
            numbers: HashMap::new(),
            recorded: vec![0; nodes as usize],
            checkpoints: vec![0; nodes as usize],
            answers: Vec::new(),
        }
    }

    pub fn log(&self) -> &[Call<'a>] {
        &self.log
    }

    /// An append, after which all of the log is synced, whatever the note is.
    pub fn ask(&mut self, key: Key, call: Call<'a>) -> Note {
        let note = self.append(key, call);
        self.sync();
        note
    }

    pub fn append(&mut self, key: Key, call: Call<'a>) -> Note {
        if let Some(&number) = self.numbers.get(&key) {
            return if self.log[number as usize - 1] == call {
                Note::Repeat(number)
            } else {
                Note::Mismatch(number)
            };
        }
        if self.log.len() == LOG_CALLS {
            return Note::LogFull;
        }
        self.log.push(call);
        self.answers.push(None);
        let number = self.log.len() as u64;
        self.numbers.insert(key, number);
        Note::New(number)
    }

    pub fn sync(&mut self) -> Note {
        self.synced = self.log.len();
        Note::Synced(self.synced as u64)
    }

    /// The sequencer stops, and goes on from its log: all that was synced, and of the rest what has
    /// a number up to `kept`. Nothing else outlives it.
    pub fn crash(&mut self, kept: u32) -> Note {
        self.log.truncate(self.synced.max(kept as usize));
        self.synced = self.log.len();
        let length = self.synced as u64;
        self.numbers.retain(|_, number| *number <= length);
        self.recorded.fill(0);
        self.checkpoints.fill(0);
        self.answers.clear();
        self.answers.resize(self.log.len(), None);
        Note::Crashed(length)
    }

    /// A synced call.
    pub fn call(&self, number: u32) -> Option<Call<'a>> {
        let index = (number as usize).checked_sub(1)?;
        self.log[..self.synced].get(index).copied()
    }

    /// The synced entries after what a replica acknowledged, as many as are sent at once.
    pub fn unheard(&self, replica: u32) -> Option<impl Iterator<Item = (u64, Call<'a>)>> {
        let recorded = *self.recorded.get(replica as usize)?;
        let calls = self.log[recorded as usize..self.synced].iter().copied();
        Some((recorded + 1..).zip(calls).take(RESENT))
    }

    pub fn on_ack(&mut self, replica: u8, length: u64) -> Note {
        match self.recorded.get_mut(usize::from(replica)) {
            Some(recorded) if length <= self.log.len() as u64 => {
                *recorded = length;
                Note::Recorded(length)
            }
            _ => Note::Odd,
        }
    }

    pub fn on_have(&mut self, replica: u8, length: u64) -> Note {
        match self.checkpoints.get_mut(usize::from(replica)) {
            Some(kept) if length <= self.log.len() as u64 => {
                *kept = length;
                Note::Has(length)
            }
            _ => Note::Odd,
        }
    }

    /// Of the other replicas whose checkpoint is longer than what this one acknowledged, the first
    /// of those with the longest.
    pub fn donor(&self, replica: u32) -> Option<Note> {
        let recorded = *self.recorded.get(replica as usize)?;
        let others = (0u64..).zip(&self.checkpoints);
        let longer = others
            .filter(|(donor, kept)| *donor != u64::from(replica) && **kept > recorded)
            .max_by_key(|(donor, kept)| (**kept, Reverse(*donor)));
        longer.map(|(donor, kept)| Note::Donor(donor, *kept))
    }

    pub fn on_answer(&mut self, number: u64, reply: Reply) -> Note {
        let index = (number as usize).checked_sub(1);
        match index.and_then(|index| self.answers.get_mut(index)) {
            None => Note::Unknown(number),
            Some(Some(kept)) if *kept == reply => Note::Repeat(number),
            Some(Some(_)) => Note::OddAnswer(number),
            Some(empty) => {
                *empty = Some(reply);
                Note::Kept(number)
            }
        }
    }
}
