//! A bank as its opening text says it.

use super::input::{Fault, LineFault, money, name, words};
use std::collections::HashMap;

const CUSTOMERS: usize = 65_536;

/// Customers by name, and what each has.
#[derive(Default)]
pub struct Bank<'a> {
    pub places: HashMap<&'a [u8], usize>,
    pub names: Vec<&'a [u8]>,
    pub savings: Vec<i64>,
    pub checking: Vec<i64>,
}

impl<'a> Bank<'a> {
    /// Reads numbered lines up to the line `begin`.
    #[inline]
    pub fn read(
        lines: &mut impl Iterator<Item = (&'a [u8], usize)>,
    ) -> Result<Bank<'a>, LineFault> {
        let mut bank = Bank::default();
        for (text, line) in lines {
            if text == b"begin" {
                return Ok(bank);
            }
            bank.open(text).map_err(|fault| LineFault { line, fault })?;
        }
        Err(LineFault {
            line: bank.names.len() + 1,
            fault: Fault::NoBegin,
        })
    }

    #[inline]
    fn open(&mut self, line: &'a [u8]) -> Result<(), Fault> {
        let mut words = words(line);
        let (Some(first), Some(second), Some(third), None) =
            (words.next(), words.next(), words.next(), words.next())
        else {
            return Err(Fault::BadLine);
        };
        let name = name(first)?;
        if self.places.contains_key(name) {
            return Err(Fault::DoubleName);
        }
        let savings = money(second)?;
        let checking = money(third)?;
        if savings < 0 {
            return Err(Fault::NegativeSavings);
        }
        if self.names.len() == CUSTOMERS {
            return Err(Fault::TooManyCustomers);
        }
        self.places.insert(name, self.names.len());
        self.names.push(name);
        self.savings.push(savings);
        self.checking.push(checking);
        Ok(())
    }
}
