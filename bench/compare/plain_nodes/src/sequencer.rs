//! The sequencer: it numbers requests.

use crate::frames::push_call;
use crate::shared::LOG_CALLS;
use crate::shared::input::{Call, Key};
use std::collections::HashMap;
use std::collections::hash_map::Entry;
use std::ops::Range;

/// How an ask stands in the log.
#[derive(Clone, Copy)]
pub enum Asked {
    New(u32),
    Repeat(u32),
    /// Its key has another call.
    Mismatch,
    /// Its key is new, and no number is left.
    Full,
}

/// The log of calls by number from 1 on, and the number of each key.
#[derive(Default)]
pub struct Sequencer {
    numbers: HashMap<Key, u32>,
    // The bytes of all calls as frames have them, one after the other, and the end of each.
    calls: Vec<u8>,
    ends: Vec<usize>,
}

impl Sequencer {
    /// Numbers a request, or looks up its number.
    pub fn ask(&mut self, key: Key, call: &Call) -> Asked {
        let end = self.calls.len();
        let length = self.ends.len() as u32;
        match self.numbers.entry(key) {
            Entry::Occupied(first) => {
                let number = *first.get();
                push_call(&mut self.calls, call);
                let is_same = self.calls[spelling(&self.ends, number)] == self.calls[end..];
                self.calls.truncate(end);
                if is_same {
                    Asked::Repeat(number)
                } else {
                    Asked::Mismatch
                }
            }
            Entry::Vacant(_) if length == LOG_CALLS => Asked::Full,
            Entry::Vacant(place) => {
                push_call(&mut self.calls, call);
                self.ends.push(self.calls.len());
                Asked::New(*place.insert(length + 1))
            }
        }
    }
}

// The place of the call with a number.
fn spelling(ends: &[usize], number: u32) -> Range<usize> {
    let place = number as usize - 1;
    let start = if place == 0 { 0 } else { ends[place - 1] };
    start..ends[place]
}
