//! The calls that change nothing.

use super::check::open;
use super::layout::*;
use super::name::{in_bounds, Path};
use super::tree::{file, is_directory, length_of, room_of, taken, walk};
use crate::store::{Answer, Found, Refusal};

pub fn find(image: &[u8], path: &[u8]) -> Answer<Found> {
    open(image)?;
    let units = units_of(image);
    let at = walk(units, Path::parse(path)?.parts())?.at;
    let directory = is_directory(units, at);
    let (first, second) = if directory {
        (taken(units, at), slots_of(units, at).len())
    } else {
        (length_of(units, at), room_of(units, at))
    };
    Ok(Found { reference: at as u64, directory, first: first as u64, second: second as u64 })
}

/// The bytes of a file.
fn content(units: &[Unit], file: usize) -> &[u8] {
    &units[file..].as_flattened()[CONTENT..][..length_of(units, file)]
}

pub fn read(image: &[u8], path: &[u8], position: u64, buffer: &mut [u8]) -> Answer<u64> {
    open(image)?;
    let units = units_of(image);
    let content = content(units, file(units, &Path::parse(path)?)?);
    let left = content.get(index(position)..).unwrap_or(&[]);
    let count = left.len().min(buffer.len());
    buffer[..count].copy_from_slice(&left[..count]);
    Ok(count as u64)
}

pub fn read_point(image: &[u8], path: &[u8], number: u64) -> Answer<[u8; 16]> {
    open(image)?;
    let units = units_of(image);
    let path = Path::parse(path)?;
    let number = in_bounds(number, 1, 4096)?;
    let (points, _) = content(units, file(units, &path)?).as_chunks();
    points.get(number - 1).copied().ok_or(13.into())
}

pub fn list(image: &[u8], numbers: &mut [u64]) -> Answer<u64> {
    let count = open(image)?;
    let (lines, _) = numbers.as_chunks_mut();
    if lines.len() < count {
        return Err(Refusal { needed: count as u64, ..14.into() });
    }
    let units = units_of(image);
    let root = root_of(units);
    Listing { units, lines, count: 0 }.directory(root, root, 0, 0);
    Ok(count as u64)
}

/// The lines so far.
struct Listing<'a> {
    units: &'a [Unit],
    lines: &'a mut [[u64; 7]],
    count: usize,
}

impl Listing<'_> {
    /// A directory's line, and those of all that it holds.
    fn directory(&mut self, at: usize, parent: usize, name: u64, depth: u64) {
        let units = self.units;
        let slots = slots_of(units, at);
        let line = self.count;
        self.count += 1;
        let mut taken = 0;
        for slot in slots.iter().filter(|slot| **slot != EMPTY) {
            taken += 1;
            let (name, object) = (front(slot), index(back(slot)));
            if is_directory(units, object) {
                self.directory(object, at, name, depth + 1);
            } else {
                let (size, room) = (back(&units[object]), room_of(units, object) as u64);
                self.lines[self.count] = [object as u64, at as u64, name, depth + 1, 0, size, room];
                self.count += 1;
            }
        }
        self.lines[line] = [at as u64, parent as u64, name, depth, 1, taken, slots.len() as u64];
    }
}
