//! The customers of a load: `customer_0` and so on, each with 100.00 and 100.00 at the opening.

use std::io::{self, Write};

/// The most customers that a bank has.
pub const MOST_CUSTOMERS: u32 = 65_536;

// The longest is `customer_65535`.
const LONGEST_NAME: usize = 15;

/// A customer's name.
#[derive(Clone, Copy, Debug)]
pub struct Name {
    bytes: [u8; LONGEST_NAME],
    length: u8,
}

impl Name {
    /// The name of the customer with this number, which is below the most.
    pub fn of(customer: u32) -> Name {
        let mut bytes = [0; LONGEST_NAME];
        let mut free = &mut bytes[..];
        write!(free, "customer_{customer}").expect("the longest name fits");
        let free = free.len();
        Name {
            bytes,
            length: (LONGEST_NAME - free) as u8,
        }
    }

    pub fn as_bytes(&self) -> &[u8] {
        &self.bytes[..usize::from(self.length)]
    }
}

/// Writes the opening of a bank with so many customers.
pub fn write_opening(out: &mut impl Write, customers: u32) -> io::Result<()> {
    for customer in 0..customers {
        out.write_all(Name::of(customer).as_bytes())?;
        out.write_all(b" 100.00 100.00\n")?;
    }
    out.write_all(b"begin\n")?;
    out.flush()
}
