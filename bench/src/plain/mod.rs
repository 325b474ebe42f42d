//! The same store as a plain Rust program, for comparison: safe code that shares nothing with the proved
//! store. Every call but format checks the image first.

#![forbid(unsafe_code)]

mod blame;
mod change;
mod check;
pub mod judge;
pub mod layout;
pub mod name;
mod read;
mod room;
pub mod table;
mod tree;

use crate::store::{Answer, Check, Found, Store};

/// The plain store.
pub struct Plain;

// Not inlined, as the calls of the proved store are not.
impl Check for Plain {
    #[inline(never)]
    fn check(image: &[u8]) -> Answer<()> {
        check::open(image).map(|_| ())
    }

    #[inline(never)]
    fn check_marked(image: &[u8], marks: &mut [u8]) -> Answer<()> {
        check::check_marked(image, marks)
    }
}

impl Store for Plain {
    #[inline(never)]
    fn find(image: &[u8], path: &[u8]) -> Answer<Found> {
        read::find(image, path)
    }

    #[inline(never)]
    fn read(image: &[u8], path: &[u8], position: u64, buffer: &mut [u8]) -> Answer<u64> {
        read::read(image, path, position, buffer)
    }

    #[inline(never)]
    fn read_point(image: &[u8], path: &[u8], number: u64) -> Answer<[u8; 16]> {
        read::read_point(image, path, number)
    }

    #[inline(never)]
    fn list(image: &[u8], numbers: &mut [u64]) -> Answer<u64> {
        read::list(image, numbers)
    }

    #[inline(never)]
    fn format(image: &mut [u8], slots: u64) -> Answer<()> {
        change::format(image, slots)
    }

    #[inline(never)]
    fn make_directory(image: &mut [u8], path: &[u8], slots: u64) -> Answer<u64> {
        change::make_directory(image, path, slots)
    }

    #[inline(never)]
    fn make_file(image: &mut [u8], path: &[u8], room: u64) -> Answer<u64> {
        change::make_file(image, path, room)
    }

    #[inline(never)]
    fn write(image: &mut [u8], path: &[u8], position: u64, bytes: &[u8]) -> Answer<()> {
        change::write(image, path, position, bytes)
    }

    #[inline(never)]
    fn set_length(image: &mut [u8], path: &[u8], length: u64) -> Answer<()> {
        change::set_length(image, path, length)
    }

    #[inline(never)]
    fn remove(image: &mut [u8], path: &[u8]) -> Answer<()> {
        change::remove(image, path)
    }
}
