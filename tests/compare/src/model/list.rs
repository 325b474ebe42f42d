//! The listing: a line for each object, and all lines as text.

use super::check::{open, Blocks};
use super::layout::*;
use super::name::join;
use super::room::free_chain;
use super::tree::{extent, objects, Object};
use super::Refusal;

/// Numbers of a line.
pub const LINE: usize = 7;
pub const FIELDS: [&str; LINE] = ["ref", "parent", "name", "depth", "directory", "first", "second"];

/// The longest image that is shown as text.
pub const LONGEST_SHOWN: usize = 65_536;

#[derive(Clone, Copy, PartialEq, Eq, Debug)]
pub struct Line {
    pub reference: u64,
    /// The ref of the directory that holds the object; the root's is its own.
    pub parent: u64,
    /// The name's ref; the root has none.
    pub name: u64,
    pub depth: u64,
    pub directory: bool,
    /// A file's size, or a directory's taken slots.
    pub first: u64,
    /// A file's room, or a directory's slots.
    pub second: u64,
}

impl Line {
    fn of(image: &[u8], object: &Object) -> Line {
        let block = object.entry.block;
        let (first, second) = extent(image, &block);
        Line {
            reference: block.reference(),
            parent: object.holder,
            name: object.entry.slot.map_or(0, |slot| slot.name),
            depth: object.parts.len() as u64,
            directory: block.kind == Kind::Directory,
            first,
            second,
        }
    }

    fn numbers(&self) -> [u64; LINE] {
        let directory = self.directory.into();
        [self.reference, self.parent, self.name, self.depth, directory, self.first, self.second]
    }
}

/// Fills lines from the front of the lent numbers and tells how many; or the refusal, and the count that it
/// tells: with 14 the lines needed.
pub fn list(image: &[u8], lent: &mut [u64]) -> Result<u64, (Refusal, u64)> {
    let blocks = open(image).map_err(|refusal| (refusal, 0))?;
    let objects = objects(image, &blocks);
    let count = objects.len() as u64;
    if lent.len() / LINE < objects.len() {
        return Err((14.into(), count));
    }
    for (object, numbers) in objects.iter().zip(lent.chunks_exact_mut(LINE)) {
        numbers.copy_from_slice(&Line::of(image, object).numbers());
    }
    Ok(count)
}

/// The text that shows a card: its lines, or its refusal.
pub fn show(card: &[u8]) -> Vec<u8> {
    if card.len() > LONGEST_SHOWN {
        return b"refused 1\n".to_vec();
    }
    match open(card) {
        Ok(blocks) => text(card, &blocks),
        Err(refusal) => format!("refused {refusal}\n").into_bytes(),
    }
}

fn text(image: &[u8], blocks: &Blocks) -> Vec<u8> {
    let free: usize = free_chain(image).iter().map(|stretch| stretch.units).sum();
    let mut text = format!("image {} free {free}\n", image.len()).into_bytes();
    for object in objects(image, blocks) {
        let Line { reference, directory, first, second, .. } = Line::of(image, &object);
        let kind = if directory { 'd' } else { 'f' };
        text.extend(format!("{reference} {kind} {first}/{second} ").bytes());
        text.extend(join(&object.parts));
        text.push(b'\n');
    }
    text
}
