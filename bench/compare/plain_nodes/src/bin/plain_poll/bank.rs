//! The bank, and the log on disk, if it keeps one.

use plain_nodes::books::Books;
use plain_nodes::log_file::LogFile;
use plain_nodes::sequencer::Asked;
use plain_nodes::shared::input::{Call, Key};
use plain_nodes::starting;
use std::io;

pub struct Bank {
    pub books: Books,
    pub log: Option<LogFile>,
}

impl Bank {
    /// Numbers an ask, and executes it if it is new. `spelled` is its frame: that has one spelling,
    /// which is the client's.
    pub fn ask(&mut self, key: Key, call: &Call, spelled: &[u8]) -> Asked {
        let asked = self.books.ask(key, call);
        if let (Asked::New(_), Some(log)) = (asked, &mut self.log) {
            log.body().extend_from_slice(spelled);
        }
        asked
    }

    /// Has all new asks on disk.
    pub fn save(&mut self) -> io::Result<()> {
        self.log.as_mut().map_or(Ok(()), LogFile::save)
    }

    /// The line of the log, if it keeps one.
    pub fn push_digest(&self, out: &mut Vec<u8>) -> io::Result<()> {
        self.log
            .as_ref()
            .map_or(Ok(()), |log| starting::push_digest(out, &self.books, log))
    }
}
