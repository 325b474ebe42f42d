//! Directories, slots, names, and the walk along a path.

use super::check::Blocks;
use super::layout::*;

/// A slot: its two refs, and its first byte in the image.
#[derive(Clone, Copy, Debug)]
pub struct Slot {
    pub name: u64,
    pub object: u64,
    pub at: usize,
}

impl Slot {
    pub fn taken(&self) -> bool {
        self.name != 0
    }
}

/// A file or directory, and the slot that names it; the root has none.
#[derive(Clone, Copy, Debug)]
pub struct Entry {
    pub block: Block,
    pub slot: Option<Slot>,
}

/// An object with the ref of its directory (the root's is its own) and the components of its path.
#[derive(Clone, Debug)]
pub struct Object {
    pub entry: Entry,
    pub holder: u64,
    pub parts: Vec<Vec<u8>>,
}

pub fn parent_of(image: &[u8], directory: &Block) -> u64 {
    get64(image, directory.at + PARENT)
}

pub fn slots_of(image: &[u8], directory: &Block) -> Vec<Slot> {
    let first = directory.at + SLOTS;
    let slot = |at| Slot { name: get64(image, at), object: get64(image, at + 8), at };
    (0..directory.slots()).map(|index| slot(first + 16 * index)).collect()
}

pub fn taken_slots(image: &[u8], directory: &Block) -> usize {
    slots_of(image, directory).iter().filter(|slot| slot.taken()).count()
}

/// A file's size and room, or a directory's taken slots and slots.
pub fn extent(image: &[u8], object: &Block) -> (u64, u64) {
    match object.kind {
        Kind::Directory => (taken_slots(image, object) as u64, object.slots() as u64),
        _ => (get64(image, object.at + FILE_SIZE), object.room() as u64),
    }
}

pub fn name_of<'a>(image: &'a [u8], name: &Block) -> &'a [u8] {
    &image[name.at + NAME_BYTES..][..name.size]
}

pub fn root_of(image: &[u8], blocks: &Blocks) -> Entry {
    Entry { block: blocks.at(get64(image, ROOT_REF)).unwrap(), slot: None }
}

fn entry_of(blocks: &Blocks, slot: Slot) -> Entry {
    Entry { block: blocks.at(slot.object).unwrap(), slot: Some(slot) }
}

/// What the directory holds under this name.
pub fn lookup(image: &[u8], blocks: &Blocks, directory: &Block, name: &[u8]) -> Option<Entry> {
    let named = |slot: &Slot| slot.taken() && name_of(image, &blocks.at(slot.name).unwrap()) == name;
    slots_of(image, directory).into_iter().find(named).map(|slot| entry_of(blocks, slot))
}

/// Follows the components down from the root; 3 for an absent one, 4 for one below a file.
pub fn walk(image: &[u8], blocks: &Blocks, parts: &[&[u8]]) -> Result<Entry, u8> {
    let mut here = root_of(image, blocks);
    for part in parts {
        if here.block.kind == Kind::File {
            return Err(4);
        }
        here = lookup(image, blocks, &here.block, part).ok_or(3)?;
    }
    Ok(here)
}

/// Every object of a well-formed image, the root first, each directory before what it holds, and all that it
/// holds before the next slot.
pub fn objects(image: &[u8], blocks: &Blocks) -> Vec<Object> {
    let mut found = Vec::new();
    let entry = root_of(image, blocks);
    let root = Object { entry, holder: entry.block.reference(), parts: Vec::new() };
    gather(image, blocks, root, &mut found);
    found
}

fn gather(image: &[u8], blocks: &Blocks, object: Object, found: &mut Vec<Object>) {
    let Object { entry, parts, .. } = object.clone();
    found.push(object);
    if entry.block.kind == Kind::File {
        return;
    }
    for slot in slots_of(image, &entry.block).into_iter().filter(Slot::taken) {
        let mut parts = parts.clone();
        parts.push(name_of(image, &blocks.at(slot.name).unwrap()).to_vec());
        let held = Object { entry: entry_of(blocks, slot), holder: entry.block.reference(), parts };
        gather(image, blocks, held, found);
    }
}
