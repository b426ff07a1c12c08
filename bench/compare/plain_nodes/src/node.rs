//! A bank that executes a log.

use crate::board::{Board, Busy};
use crate::crew::{Crew, CrewGone, drain};
use crate::op::Op;
use crate::shared::bank::Bank;
use crate::shared::input::Call;
use std::collections::HashMap;

pub struct Node<'a> {
    places: HashMap<&'a [u8], usize>,
    pub board: Board,
}

impl<'a> Node<'a> {
    pub fn open(bank: &Bank<'a>) -> Self {
        Node {
            places: bank.places.clone(),
            board: Board::open(bank),
        }
    }

    /// Submits the next call of the log. A busy board is drained first.
    pub fn hear(&mut self, call: &Call, crew: &mut impl Crew) -> Result<(), CrewGone> {
        let op = Op::resolve(&self.places, call);
        while let Err(Busy) = self.board.submit(op) {
            drain(&mut self.board, crew)?;
        }
        Ok(())
    }

    pub fn settle(&mut self, crew: &mut impl Crew) -> Result<(), CrewGone> {
        drain(&mut self.board, crew)
    }
}
