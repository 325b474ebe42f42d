//! The proved store, through its C interface.

use crate::store::{Answer, Check, Found, Refusal, Store};
use sffs1::*;

/// The proved store.
pub struct Ours;

/// The answer, by its number: what the call told, or the refusal.
fn told<T>(number: u8, place: u64, value: T) -> Answer<T> {
    match number {
        0 => Ok(value),
        _ => Err(Refusal { number, place, needed: 0 }),
    }
}

// SAFETY, of every block here: the pointers are to lent bytes and numbers that live through the call, with
// their true lengths, and none overlap.
impl Check for Ours {
    #[inline(never)]
    fn check(image: &[u8]) -> Answer<()> {
        let mut place = 0;
        let number = unsafe { sffs1_check(image.as_ptr(), image.len(), &mut place) };
        told(number, place, ())
    }

    #[inline(never)]
    fn check_marked(image: &[u8], marks: &mut [u8]) -> Answer<()> {
        let (at, length) = (marks.as_mut_ptr(), marks.len());
        let mut place = 0;
        let number = unsafe { sffs1_check_marked(image.as_ptr(), image.len(), at, length, &mut place) };
        told(number, place, ())
    }
}

impl Store for Ours {
    #[inline(never)]
    fn find(image: &[u8], path: &[u8]) -> Answer<Found> {
        let (mut reference, mut directory, mut first, mut second, mut place) = (0, 0, 0, 0, 0);
        let number = unsafe {
            sffs1_find(
                image.as_ptr(),
                image.len(),
                path.as_ptr(),
                path.len(),
                &mut reference,
                &mut directory,
                &mut first,
                &mut second,
                &mut place,
            )
        };
        told(number, place, Found { reference, directory: directory == 1, first, second })
    }

    #[inline(never)]
    fn read(image: &[u8], path: &[u8], position: u64, buffer: &mut [u8]) -> Answer<u64> {
        let (mut count, mut place) = (0, 0);
        let number = unsafe {
            sffs1_read(
                image.as_ptr(),
                image.len(),
                path.as_ptr(),
                path.len(),
                position,
                buffer.as_mut_ptr(),
                buffer.len(),
                &mut count,
                &mut place,
            )
        };
        told(number, place, count)
    }

    #[inline(never)]
    fn read_point(image: &[u8], path: &[u8], number: u64) -> Answer<[u8; 16]> {
        let (mut point, mut place) = ([0; 16], 0);
        let (bytes, length) = (image.as_ptr(), image.len());
        let (at, lent) = (path.as_ptr(), path.len());
        let answer =
            unsafe { sffs1_read_point(bytes, length, at, lent, number, point.as_mut_ptr(), &mut place) };
        told(answer, place, point)
    }

    #[inline(never)]
    fn list(image: &[u8], numbers: &mut [u64]) -> Answer<u64> {
        let (mut count, mut place) = (0, 0);
        let (at, lent) = (numbers.as_mut_ptr(), numbers.len());
        let number = unsafe { sffs1_list(image.as_ptr(), image.len(), at, lent, &mut count, &mut place) };
        told(number, place, count).map_err(|refusal| Refusal { needed: count, ..refusal })
    }

    #[inline(never)]
    fn format(image: &mut [u8], slots: u64) -> Answer<()> {
        told(unsafe { sffs1_format(image.as_mut_ptr(), image.len(), slots) }, 0, ())
    }

    #[inline(never)]
    fn make_directory(image: &mut [u8], path: &[u8], slots: u64) -> Answer<u64> {
        let (mut made, mut place) = (0, 0);
        let (bytes, length) = (image.as_mut_ptr(), image.len());
        let (at, lent) = (path.as_ptr(), path.len());
        let number = unsafe { sffs1_make_directory(bytes, length, at, lent, slots, &mut made, &mut place) };
        told(number, place, made)
    }

    #[inline(never)]
    fn make_file(image: &mut [u8], path: &[u8], room: u64) -> Answer<u64> {
        let (mut made, mut place) = (0, 0);
        let (bytes, length) = (image.as_mut_ptr(), image.len());
        let (at, lent) = (path.as_ptr(), path.len());
        let number = unsafe { sffs1_make_file(bytes, length, at, lent, room, &mut made, &mut place) };
        told(number, place, made)
    }

    #[inline(never)]
    fn write(image: &mut [u8], path: &[u8], position: u64, bytes: &[u8]) -> Answer<()> {
        let mut place = 0;
        let number = unsafe {
            sffs1_write(
                image.as_mut_ptr(),
                image.len(),
                path.as_ptr(),
                path.len(),
                position,
                bytes.as_ptr(),
                bytes.len(),
                &mut place,
            )
        };
        told(number, place, ())
    }

    #[inline(never)]
    fn set_length(image: &mut [u8], path: &[u8], length: u64) -> Answer<()> {
        let mut place = 0;
        let (bytes, all) = (image.as_mut_ptr(), image.len());
        let number = unsafe { sffs1_set_length(bytes, all, path.as_ptr(), path.len(), length, &mut place) };
        told(number, place, ())
    }

    #[inline(never)]
    fn remove(image: &mut [u8], path: &[u8]) -> Answer<()> {
        let mut place = 0;
        let (bytes, length) = (image.as_mut_ptr(), image.len());
        let number = unsafe { sffs1_remove(bytes, length, path.as_ptr(), path.len(), &mut place) };
        told(number, place, ())
    }
}
