//! Which customers a call names.

use crate::random::Random;
use std::ops::Range;

// How often a second customer is drawn who must not be the first.
const DRAWS: usize = 8;

/// How customers are chosen.
#[derive(Clone, Copy, Debug, PartialEq)]
pub enum Choice {
    /// All alike.
    Uniform,
    /// Of 100 calls, `percent` name customers of the first `size` alone, the others none of them.
    HotSpot { size: u32, percent: u32 },
    /// Customer n, from 1, as often as 1 / n to the power of this.
    Zipf(f64),
}

/// Chooses among so many customers.
pub struct Chooser {
    customers: u32,
    way: Way,
}

enum Way {
    Alike,
    HotSpot { size: u32, percent: u32 },
    // Up to which of 2^32 - 1 numbers a customer goes, for each of them.
    Weighed(Vec<u32>),
}

impl Chooser {
    /// There is at least one customer. A hot spot of all of them is none.
    pub fn new(choice: Choice, customers: u32) -> Chooser {
        let way = match choice {
            Choice::HotSpot { size, percent } if (1..customers).contains(&size) => {
                Way::HotSpot { size, percent }
            }
            Choice::Uniform | Choice::HotSpot { .. } => Way::Alike,
            Choice::Zipf(power) => Way::Weighed(zipf(power, customers)),
        };
        Chooser { customers, way }
    }

    pub fn one(&self, random: &mut Random) -> u32 {
        let part = self.part(random);
        self.draw(&part, random)
    }

    /// Two of the same part. They differ unless there is only one customer.
    pub fn two(&self, random: &mut Random) -> (u32, u32) {
        let part = self.part(random);
        let first = self.draw(&part, random);
        let second = (0..DRAWS)
            .map(|_| self.draw(&part, random))
            .find(|drawn| *drawn != first)
            .unwrap_or((first + 1) % self.customers);
        (first, second)
    }

    // The customers among whom a call chooses.
    fn part(&self, random: &mut Random) -> Range<u32> {
        match self.way {
            Way::HotSpot { size, percent } if random.percent(percent) => 0..size,
            Way::HotSpot { size, .. } => size..self.customers,
            Way::Alike | Way::Weighed(_) => 0..self.customers,
        }
    }

    fn draw(&self, part: &Range<u32>, random: &mut Random) -> u32 {
        match &self.way {
            Way::Weighed(ends) => {
                let drawn = random.below(u32::MAX);
                ends.partition_point(|end| *end <= drawn) as u32
            }
            _ => part.start + random.below(part.end - part.start),
        }
    }
}

// The ends of all customers' shares. The last is the whole, however the sum was rounded.
fn zipf(power: f64, customers: u32) -> Vec<u32> {
    let weight = |customer: u32| f64::from(customer + 1).powf(-power);
    let whole: f64 = (0..customers).map(weight).sum();
    let mut sum = 0.0;
    let mut ends: Vec<u32> = (0..customers)
        .map(|customer| {
            sum += weight(customer);
            (sum / whole * f64::from(u32::MAX)) as u32
        })
        .collect();
    if let Some(last) = ends.last_mut() {
        *last = u32::MAX;
    }
    ends
}
