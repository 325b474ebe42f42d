//! The calls of a store in Rust's terms, so that stores can be run side by side.

/// A call that is refused: its number, and the place that 21 to 28 tell.
#[derive(Clone, Copy, PartialEq, Eq, Debug)]
pub struct Refusal {
    pub number: u8,
    pub place: u64,
    /// The lines that a listing needs, with number 14; 0 elsewhere.
    pub needed: u64,
}

impl From<u8> for Refusal {
    fn from(number: u8) -> Refusal {
        Refusal { number, place: 0, needed: 0 }
    }
}

/// The answer of a call.
pub type Answer<T> = Result<T, Refusal>;

/// What find tells of a file (size and room) or of a directory (taken slots and slots).
#[derive(Clone, Copy, PartialEq, Eq, Debug)]
pub struct Found {
    pub reference: u64,
    pub directory: bool,
    pub first: u64,
    pub second: u64,
}

/// The checks of include/sffs1.h.
pub trait Check {
    fn check(image: &[u8]) -> Answer<()>;
    fn check_marked(image: &[u8], marks: &mut [u8]) -> Answer<()>;
}

/// A store: the other calls too.
pub trait Store: Check {
    fn find(image: &[u8], path: &[u8]) -> Answer<Found>;
    fn read(image: &[u8], path: &[u8], position: u64, buffer: &mut [u8]) -> Answer<u64>;
    fn read_point(image: &[u8], path: &[u8], number: u64) -> Answer<[u8; 16]>;
    fn list(image: &[u8], numbers: &mut [u64]) -> Answer<u64>;
    fn format(image: &mut [u8], slots: u64) -> Answer<()>;
    fn make_directory(image: &mut [u8], path: &[u8], slots: u64) -> Answer<u64>;
    fn make_file(image: &mut [u8], path: &[u8], room: u64) -> Answer<u64>;
    fn write(image: &mut [u8], path: &[u8], position: u64, bytes: &[u8]) -> Answer<()>;
    fn set_length(image: &mut [u8], path: &[u8], length: u64) -> Answer<()>;
    fn remove(image: &mut [u8], path: &[u8]) -> Answer<()>;
}
