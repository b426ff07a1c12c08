//! The calls of a load, one after the other.

use crate::ask::Call;
use crate::chooser::{Choice, Chooser};
use crate::customers::Name;
use crate::mix::Mix;
use crate::random::Random;

/// What all clients draw their calls from.
pub struct Workload {
    names: Vec<Name>,
    chooser: Chooser,
    mix: Mix,
}

impl Workload {
    pub fn new(mix: Mix, choice: Choice, customers: u32) -> Workload {
        Workload {
            names: (0..customers).map(Name::of).collect(),
            chooser: Chooser::new(choice, customers),
            mix,
        }
    }

    pub fn draw(&self, random: &mut Random) -> Call<'_> {
        let kind = self.mix.draw(random);
        let (giver, taker) = if kind.has_taker() {
            let (giver, taker) = self.chooser.two(random);
            (giver, Some(taker))
        } else {
            (self.chooser.one(random), None)
        };
        Call {
            kind,
            giver: self.name(giver),
            taker: taker.map(|taker| self.name(taker)),
        }
    }

    fn name(&self, customer: u32) -> &Name {
        &self.names[customer as usize]
    }
}
