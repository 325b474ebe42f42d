//! The rules one by one, for an image of allowed length that breaks one: which is the lowest, and the first
//! block in storage order that breaks it. Rules 2 and 8 speak of no single block; their place is 0.

use super::layout::*;
use super::name::valid_name;
use std::collections::HashSet;

/// A block: its kind, where it begins and the size that its header tells.
struct Block {
    magic: u32,
    at: usize,
    size: usize,
}

/// An image that keeps rule 1.
struct Tiled<'a> {
    units: &'a [Unit],
    blocks: Vec<Block>,
    /// The magic of the block that begins at a unit, 0 where none does.
    kinds: Vec<u32>,
    root: usize,
}

type Rule = fn(&Tiled) -> Option<usize>;

const RULES: [Rule; 7] = [root, slots, naming, depth, names, files, chain];

/// The lowest broken rule and its place; (0, 0) where none is.
pub fn blame(units: &[Unit]) -> (u8, u64) {
    let tiled = match tile(units) {
        Ok(tiled) => tiled,
        Err(place) => return (1, place as u64),
    };
    let broken = (2..).zip(RULES).find_map(|(number, rule)| Some((number, rule(&tiled)? as u64)));
    broken.unwrap_or((0, 0))
}

/// Rule 1, or where it is broken.
fn tile(units: &[Unit]) -> Result<Tiled<'_>, usize> {
    let mut blocks = Vec::new();
    let mut kinds = vec![0; units.len()];
    let mut at = 0;
    while at < units.len() {
        let (magic, size) = header(&units[at]);
        let end = at + units_for(size);
        let known = allowed_size(magic, size) && (magic == SUPERBLOCK) == (at == 0);
        if !known || end > units.len() || !zeros_after(size, &units[end - 1]) {
            return Err(at);
        }
        blocks.push(Block { magic, at, size });
        kinds[at] = magic;
        at = end;
    }
    Ok(Tiled { units, blocks, kinds, root: root_of(units) })
}

impl Tiled<'_> {
    fn kind(&self, at: usize) -> u32 {
        self.kinds.get(at).copied().unwrap_or(0)
    }

    fn parent(&self, directory: usize) -> usize {
        index(back(&self.units[directory]))
    }

    /// The name and object of each taken slot.
    fn taken(&self, directory: usize) -> impl Iterator<Item = (usize, usize)> + '_ {
        let slots = slots_of(self.units, directory).iter().filter(|slot| **slot != EMPTY);
        slots.map(|slot| (index(front(slot)), index(back(slot))))
    }

    fn first(&self, breaks: impl Fn(&Block) -> bool) -> Option<usize> {
        self.blocks.iter().find(|block| breaks(block)).map(|block| block.at)
    }

    fn first_directory(&self, breaks: impl Fn(usize) -> bool) -> Option<usize> {
        self.first(|block| block.magic == DIRECTORY && breaks(block.at))
    }

    /// The steps from a directory up to the root, at most 16.
    fn steps(&self, mut directory: usize) -> Option<usize> {
        for steps in 0..=16 {
            if directory == self.root {
                return Some(steps);
            }
            directory = self.parent(directory);
        }
        None
    }
}

/// Rule 2.
fn root(tiled: &Tiled) -> Option<usize> {
    let stands = tiled.kind(tiled.root) == DIRECTORY && tiled.parent(tiled.root) == tiled.root;
    (!stands).then_some(0)
}

/// Rule 3.
fn slots(tiled: &Tiled) -> Option<usize> {
    let stands = |(name, object)| tiled.kind(name) == NAME && matches!(tiled.kind(object), FILE | DIRECTORY);
    tiled.first_directory(|at| !tiled.taken(at).all(stands))
}

/// Rule 4.
fn naming(tiled: &Tiled) -> Option<usize> {
    let mut namings = vec![0u32; tiled.units.len()];
    let mut holders = vec![0; tiled.units.len()];
    for directory in tiled.blocks.iter().filter(|block| block.magic == DIRECTORY) {
        for (name, object) in tiled.taken(directory.at) {
            namings[name] += 1;
            namings[object] += 1;
            holders[object] = directory.at;
        }
    }
    tiled.first(|block| match block.magic {
        SUPERBLOCK | FREE => false,
        DIRECTORY if block.at == tiled.root => namings[block.at] != 0,
        DIRECTORY => namings[block.at] != 1 || holders[block.at] != tiled.parent(block.at),
        _ => namings[block.at] != 1,
    })
}

/// Rule 5. By rule 4 every parent is a directory.
fn depth(tiled: &Tiled) -> Option<usize> {
    tiled.first_directory(|at| match tiled.steps(at) {
        Some(16) => tiled.taken(at).next().is_some(),
        Some(_) => false,
        None => true,
    })
}

/// Rule 6.
fn names(tiled: &Tiled) -> Option<usize> {
    tiled.first(|block| match block.magic {
        NAME => !valid_name(name_of(tiled.units, block.at)),
        DIRECTORY => {
            let mut seen = HashSet::new();
            !tiled.taken(block.at).all(|(name, _)| seen.insert(name_of(tiled.units, name)))
        }
        _ => false,
    })
}

/// Rule 7.
fn files(tiled: &Tiled) -> Option<usize> {
    tiled.first(|block| {
        let first = &tiled.units[block.at];
        block.magic == FILE
            && (back(first) > block.size as u64 - 16 || front(&tiled.units[block.at + 1]) != 0)
    })
}

/// Rule 8.
fn chain(tiled: &Tiled) -> Option<usize> {
    let mut next = first_free(tiled.units);
    let mut touched = 0;
    for block in tiled.blocks.iter().filter(|block| block.magic == FREE) {
        if block.at != next || block.at == touched {
            return Some(0);
        }
        next = index(back(&tiled.units[block.at]));
        touched = block.at + units_for(block.size);
    }
    (next != 0).then_some(0)
}
