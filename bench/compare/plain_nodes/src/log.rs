//! The log of numbered requests.

use crate::shared::LOG_CALLS;
use crate::shared::input::{Call, Key, LineFault, asking};
use std::collections::HashMap;

/// How an asking line stands in the log.
#[derive(Clone, Copy)]
pub enum Standing {
    Numbered(u32),
    Mismatch(u32),
    Full,
}

/// Calls by number from 1 on, and how each asking line stands.
#[derive(Default)]
pub struct Log<'a> {
    pub calls: Vec<Call<'a>>,
    pub standings: Vec<Standing>,
    numbers: HashMap<Key, u32>,
}

impl<'a> Log<'a> {
    /// Reads numbered asking lines.
    pub fn read(lines: impl Iterator<Item = (&'a [u8], usize)>) -> Result<Self, LineFault> {
        let mut log = Log::default();
        for (text, line) in lines {
            let (key, call) = asking(text).map_err(|fault| LineFault { line, fault })?;
            let standing = log.ask(key, call);
            log.standings.push(standing);
        }
        Ok(log)
    }

    fn ask(&mut self, key: Option<Key>, call: Call<'a>) -> Standing {
        if let Some(&number) = key.and_then(|key| self.numbers.get(&key)) {
            return if self.calls[number as usize - 1] == call {
                Standing::Numbered(number)
            } else {
                Standing::Mismatch(number)
            };
        }
        let length = self.calls.len() as u32;
        if length == LOG_CALLS {
            return Standing::Full;
        }
        self.calls.push(call);
        if let Some(key) = key {
            self.numbers.insert(key, length + 1);
        }
        Standing::Numbered(length + 1)
    }
}
