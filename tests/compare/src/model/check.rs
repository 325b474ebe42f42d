//! The eight rules of a well-formed image. Each rule answers the ref of the first block in storage order that
//! breaks it; rules 2 and 8 answer 0, since they speak of no single block.

use super::layout::*;
use super::name::valid_name;
use super::tree::{name_of, parent_of, slots_of, taken_slots, Slot};
use super::Refusal;
use std::collections::HashSet;

/// The blocks of an image that keeps rule 1, in storage order.
pub struct Blocks {
    pub list: Vec<Block>,
    by_unit: Vec<Option<usize>>,
}

impl Blocks {
    /// The block that begins at this ref, if one does.
    pub fn at(&self, reference: u64) -> Option<Block> {
        let unit = usize::try_from(reference).ok()?;
        let index = (*self.by_unit.get(unit)?)?;
        Some(self.list[index])
    }

    pub fn kind_at(&self, reference: u64) -> Option<Kind> {
        self.at(reference).map(|block| block.kind)
    }

    pub fn of(&self, kind: Kind) -> impl Iterator<Item = Block> + '_ {
        self.list.iter().copied().filter(move |block| block.kind == kind)
    }
}

pub fn allowed_length(length: usize) -> bool {
    length.is_multiple_of(UNIT) && (SHORTEST..=LONGEST).contains(&length)
}

/// A rule: the first breaker, or none.
type Rule = fn(&[u8], &Blocks) -> Option<u64>;

/// Rules 2 to 8, in order.
const RULES: [Rule; 7] = [root_rule, slot_rule, naming_rule, depth_rule, name_rule, file_rule, chain_rule];

/// The blocks of a well-formed image. Otherwise 20 + the lowest rule that it breaks, and the first breaker.
pub fn open(image: &[u8]) -> Result<Blocks, Refusal> {
    let blocks = tiling(image).map_err(|place| Refusal { number: 21, place })?;
    for (rule, number) in RULES.iter().zip(22..) {
        if let Some(place) = rule(image, &blocks) {
            return Err(Refusal { number, place });
        }
    }
    Ok(blocks)
}

/// The first rule that the image breaks, or 0.
pub fn broken_rule(image: &[u8]) -> u8 {
    match open(image) {
        Ok(_) => 0,
        Err(refusal) => refusal.number - 20,
    }
}

/// Rule 1: blocks of known kinds from end to end; or the ref of the first that is none, 0 for the length.
fn tiling(image: &[u8]) -> Result<Blocks, u64> {
    if !allowed_length(image.len()) {
        return Err(0);
    }
    let mut list = Vec::new();
    let mut by_unit = vec![None; image.len() / UNIT];
    let mut at = 0;
    while at < image.len() {
        let block = block_at(image, at).ok_or((at / UNIT) as u64)?;
        by_unit[at / UNIT] = Some(list.len());
        list.push(block);
        at = block.end();
    }
    Ok(Blocks { list, by_unit })
}

fn block_at(image: &[u8], at: usize) -> Option<Block> {
    let kind = KINDS.into_iter().find(|&kind| magic(kind)[..] == image[at..at + 4])?;
    let size = get32(image, at + 4) as usize;
    if size >= 1 << 31 || !allowed_size(kind, size) || (kind == Kind::Super) != (at == 0) {
        return None;
    }
    let block = Block { kind, at, size };
    if block.end() > image.len() || image[block.padding()..block.end()].iter().any(|&byte| byte != 0) {
        return None;
    }
    Some(block)
}

fn allowed_size(kind: Kind, size: usize) -> bool {
    match kind {
        Kind::Super => size == 16,
        Kind::Directory => size % 16 == 8 && (1..=MOST_SLOTS).contains(&(size as u64 / 16)),
        Kind::Name => (1..=LONGEST_NAME).contains(&size),
        Kind::File => (16..=16 + MOST_ROOM).contains(&(size as u64)),
        Kind::Free => size % 16 == 8,
    }
}

/// The ref of the first block that breaks a rule.
fn first(blocks: &Blocks, breaks: impl Fn(&Block) -> bool) -> Option<u64> {
    blocks.list.iter().find(|block| breaks(block)).map(Block::reference)
}

/// Rule 2: the root is a directory and its own parent.
fn root_rule(image: &[u8], blocks: &Blocks) -> Option<u64> {
    let root = blocks.at(get64(image, ROOT_REF)).filter(|root| root.kind == Kind::Directory);
    match root {
        Some(root) if parent_of(image, &root) == root.reference() => None,
        _ => Some(0),
    }
}

/// Rule 3: a slot has no ref, or a name's and an object's. A directory breaks it.
fn slot_rule(image: &[u8], blocks: &Blocks) -> Option<u64> {
    let keeps = |slot: &Slot| {
        let name = blocks.kind_at(slot.name);
        let object = blocks.kind_at(slot.object);
        let empty = slot.name == 0 && slot.object == 0;
        empty || name == Some(Kind::Name) && matches!(object, Some(Kind::File | Kind::Directory))
    };
    first(blocks, |block| block.kind == Kind::Directory && !slots_of(image, block).iter().all(keeps))
}

/// Rule 4: all but the root are named once, and a directory knows who names it. What is named breaks it.
fn naming_rule(image: &[u8], blocks: &Blocks) -> Option<u64> {
    let mut named_by: Vec<Vec<u64>> = vec![Vec::new(); image.len() / UNIT];
    for directory in blocks.of(Kind::Directory) {
        for slot in slots_of(image, &directory).iter().filter(|slot| slot.taken()) {
            named_by[slot.name as usize].push(directory.reference());
            named_by[slot.object as usize].push(directory.reference());
        }
    }
    let root = get64(image, ROOT_REF);
    first(blocks, |block| {
        let holders = &named_by[block.reference() as usize];
        match block.kind {
            Kind::Super | Kind::Free => false,
            Kind::Name | Kind::File => holders.len() != 1,
            Kind::Directory if block.reference() == root => !holders.is_empty(),
            Kind::Directory => holders[..] != [parent_of(image, block)],
        }
    })
}

/// Rule 5: every directory hangs on the root, none with objects deeper than 15. A directory breaks it.
fn depth_rule(image: &[u8], blocks: &Blocks) -> Option<u64> {
    first(blocks, |block| {
        block.kind == Kind::Directory
            && match climb(image, blocks, *block) {
                Some(depth) => depth > 15 && taken_slots(image, block) > 0,
                None => true,
            }
    })
}

/// Steps from a directory to the root, at most 16.
fn climb(image: &[u8], blocks: &Blocks, mut directory: Block) -> Option<usize> {
    let root = get64(image, ROOT_REF);
    for steps in 0..=16 {
        if directory.reference() == root {
            return Some(steps);
        }
        directory = blocks.at(parent_of(image, &directory))?;
        if directory.kind != Kind::Directory {
            return None;
        }
    }
    None
}

/// Rule 6: names are valid, and differ within a directory. A bad name breaks it, or the directory.
fn name_rule(image: &[u8], blocks: &Blocks) -> Option<u64> {
    first(blocks, |block| match block.kind {
        Kind::Name => !valid_name(name_of(image, block)),
        Kind::Directory => has_equal_names(image, blocks, block),
        _ => false,
    })
}

fn has_equal_names(image: &[u8], blocks: &Blocks, directory: &Block) -> bool {
    let mut seen = HashSet::new();
    let slots = slots_of(image, directory);
    let mut taken = slots.iter().filter(|slot| slot.taken());
    taken.any(|slot| !seen.insert(name_of(image, &blocks.at(slot.name).unwrap())))
}

/// Rule 7: a file's size fits, and what is not used is zero. A file breaks it.
fn file_rule(image: &[u8], blocks: &Blocks) -> Option<u64> {
    first(blocks, |block| block.kind == Kind::File && !sound_file(image, block))
}

fn sound_file(image: &[u8], file: &Block) -> bool {
    let size = get64(image, file.at + FILE_SIZE);
    let unused = &image[file.at + CHUNK_SIZE..file.at + CONTENT];
    size <= file.room() as u64 && unused.iter().all(|&byte| byte == 0)
}

/// Rule 8: the free chain has all free blocks, rising, and no two touch.
fn chain_rule(image: &[u8], blocks: &Blocks) -> Option<u64> {
    let free: Vec<Block> = blocks.of(Kind::Free).collect();
    let touching = free.windows(2).any(|pair| pair[0].end() == pair[1].at);
    if chain(image, blocks).is_some_and(|chain| chain == free) && !touching {
        None
    } else {
        Some(0)
    }
}

/// The free chain, as long as it names free blocks and rises.
fn chain(image: &[u8], blocks: &Blocks) -> Option<Vec<Block>> {
    let mut chain: Vec<Block> = Vec::new();
    let mut next = get64(image, FIRST_FREE);
    while next != 0 {
        let block = blocks.at(next).filter(|block| block.kind == Kind::Free)?;
        if chain.last().is_some_and(|last| last.at >= block.at) {
            return None;
        }
        chain.push(block);
        next = get64(image, block.at + NEXT_FREE);
    }
    Some(chain)
}
