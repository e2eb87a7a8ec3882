//! How the scenes name addresses.

use crate::builder::ALL_ONES;
use std::fmt;
use twin::Address;

/// The first and the last octet of an address; those between are 0.
#[derive(Clone, Copy, PartialEq, Eq, Hash)]
pub struct Name {
    pub first: u8,
    pub last: u8,
}

impl Name {
    /// As the receiver of a frame it stands for all ones, whatever comes last.
    pub const ALL: u8 = 255;

    pub const fn new(first: u8, last: u8) -> Name {
        Name { first, last }
    }

    /// The AP of a table that is started with this number.
    pub const fn ap(first: u8) -> Name {
        Name::new(first, 9)
    }

    /// The name of an address, where it has one.
    pub fn of(address: Address) -> Option<Name> {
        let name = Name::new(address[0], address[5]);
        Some(name).filter(|name| name.address() == address)
    }

    pub fn address(self) -> Address {
        [self.first, 0, 0, 0, 0, self.last]
    }

    /// The address of frames that are sent to it.
    pub fn receiver(self) -> Address {
        if self.first == Name::ALL {
            return ALL_ONES;
        }
        self.address()
    }
}

impl fmt::Display for Name {
    fn fmt(&self, f: &mut fmt::Formatter<'_>) -> fmt::Result {
        write!(f, "{} {}", self.first, self.last)
    }
}
