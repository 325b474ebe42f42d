//! The store once more, from the written rules alone and on plain bytes. It shares nothing with the store
//! that it is compared with. Slow and plain on purpose.
//!
//! Every call answers `Ok`, or `Err` with its refusal, and then the image is as it was. A refused listing
//! tells a count too.

pub mod calls;
pub mod check;
pub mod layout;
pub mod list;
pub mod marks;
pub mod name;
pub mod room;
pub mod tree;

use std::fmt;

/// The number of a refusal, and the ref of the block that breaks a rule (0 for none).
#[derive(Clone, Copy, PartialEq, Eq, Debug)]
pub struct Refusal {
    pub number: u8,
    pub place: u64,
}

/// As the listing program prints it.
impl fmt::Display for Refusal {
    fn fmt(&self, out: &mut fmt::Formatter) -> fmt::Result {
        write!(out, "{} {}", self.number, self.place)
    }
}

/// A refusal that has no place.
impl From<u8> for Refusal {
    fn from(number: u8) -> Refusal {
        Refusal { number, place: 0 }
    }
}
