//! A second yardstick: the check alone, tuned. It does what the plain program does not:
//!
//! - two walks for three: one over the blocks for all that one block tells, one down the tree from the root;
//! - names validated eight bytes at a time, without a branch for each, so that the compiler uses vectors;
//! - names hashed and compared by whole words.
//!
//! Room for the marks, the table of names and the refusals are the plain program's.

#![forbid(unsafe_code)]

use crate::plain::judge::{self, mark};
use crate::plain::layout::*;
use crate::plain::name::valid_name;
use crate::plain::table::Names;
use crate::store::{Answer, Check};

/// The lean check.
pub struct Lean;

impl Check for Lean {
    #[inline(never)]
    fn check(image: &[u8]) -> Answer<()> {
        judge::open(image, walks).map(|_| ())
    }

    #[inline(never)]
    fn check_marked(image: &[u8], marks: &mut [u8]) -> Answer<()> {
        judge::check_marked(image, marks, walks)
    }
}

/// Added to a mark: a slot names the block.
const NAMED: u8 = 8;

/// How many blocks there are.
#[derive(Default)]
struct Census {
    names: usize,
    files: usize,
    directories: usize,
}

fn walks(units: &[Unit], marks: &mut [u8]) -> Option<usize> {
    let census = blocks_stand(units, marks)?;
    tree_stands(units, marks, &census).then_some(census.files + census.directories)
}

/// Rules 1, 7 and 8 and the validity of names; the marks of all blocks are set.
fn blocks_stand(units: &[Unit], marks: &mut [u8]) -> Option<Census> {
    if header(&units[0]) != (SUPERBLOCK, 16) || back(&units[1]) != 0 {
        return None;
    }
    marks[0] = mark::SUPERBLOCK;
    let mut census = Census::default();
    let mut free = first_free(units);
    let mut after_free = false;
    let mut at = 2;
    while let Some(first) = units.get(at) {
        let (magic, size) = header(first);
        let block = units.get(at..at + units_for(size)).filter(|_| allowed_size(magic, size))?;
        marks[at] = match magic {
            NAME if name_stands(block, size) => {
                census.names += 1;
                mark::NAME
            }
            FILE if file_stands(block, size) => {
                census.files += 1;
                mark::FILE
            }
            DIRECTORY => {
                census.directories += 1;
                mark::DIRECTORY
            }
            FREE if at == free && !after_free => {
                free = index(back(first));
                mark::FREE
            }
            _ => return None,
        };
        after_free = magic == FREE;
        at += block.len();
    }
    (free == 0).then_some(census)
}

fn name_stands(block: &[Unit], size: usize) -> bool {
    let name = &block.as_flattened()[LETTERS..LETTERS + size];
    let dots = name == b"." || name == b"..";
    zeros_after(size, &block[block.len() - 1]) && !dots && (plain_letters(name) || valid_name(name))
}

/// Whether all bytes stand alone and none is 00, 2F or 5C.
fn plain_letters(name: &[u8]) -> bool {
    let (words, rest) = name.as_chunks::<8>();
    let plain = |byte: u8| (byte < 0x80) & (byte != 0) & (byte != b'/') & (byte != b'\\');
    words.iter().all(|word| word.iter().fold(true, |all, &byte| all & plain(byte)))
        && rest.iter().all(|&byte| plain(byte))
}

fn file_stands(block: &[Unit], size: usize) -> bool {
    let bytes = index(back(&block[0]));
    bytes <= size - 16 && front(&block[1]) == 0 && zeros_after(size, &block[block.len() - 1])
}

/// Rules 2 to 5, and whether names differ: from the root all blocks are reached, each once.
fn tree_stands(units: &[Unit], marks: &mut [u8], census: &Census) -> bool {
    let root = root_of(units);
    if marks.get(root) != Some(&mark::DIRECTORY) || index(back(&units[root])) != root {
        return false;
    }
    marks[root] |= NAMED;
    let mut tree = Tree { units, marks, table: Names::new(), named: 0 };
    let objects = census.files + census.directories;
    tree.directory_stands(root, 0) && tree.named == census.names && tree.named + 1 == objects
}

/// The walk down the tree.
struct Tree<'a> {
    units: &'a [Unit],
    marks: &'a mut [u8],
    table: Names,
    /// The taken slots so far.
    named: usize,
}

impl Tree<'_> {
    /// The slots of a directory at this depth, and the directories below it.
    fn directory_stands(&mut self, at: usize, depth: usize) -> bool {
        let units = self.units;
        let slots = slots_of(units, at);
        let taken = slots.iter().filter(|slot| **slot != EMPTY).count();
        if taken == 0 {
            return true;
        }
        self.named += taken;
        if depth > 15 || !self.slots_stand(at, slots, taken) {
            return false;
        }
        let directory = mark::DIRECTORY | NAMED;
        slots.iter().map(|slot| index(back(slot))).all(|object| {
            object == 0 || self.marks[object] != directory || self.directory_stands(object, depth + 1)
        })
    }

    /// The slots name blocks that no slot has named, under names that differ.
    fn slots_stand(&mut self, at: usize, slots: &[Unit], taken: usize) -> bool {
        let (units, marks) = (self.units, &mut *self.marks);
        let mut table = self.table.begin(taken);
        slots.iter().filter(|slot| **slot != EMPTY).all(|slot| {
            let (name, object) = (index(front(slot)), index(back(slot)));
            let stands = take(marks, name, mark::NAME)
                && (take(marks, object, mark::FILE)
                    || take(marks, object, mark::DIRECTORY) && index(back(&units[object])) == at);
            stands && {
                let block = name_block(units, name);
                table.add(name, hash(block), |other| name_block(units, other) == block)
            }
        })
    }
}

/// Marks a block of this kind as named; false where there is none, or it is named already.
fn take(marks: &mut [u8], at: usize, kind: u8) -> bool {
    match marks.get_mut(at) {
        Some(mark) if *mark == kind => {
            *mark |= NAMED;
            true
        }
        _ => false,
    }
}

/// The units of a name. Equal names have equal blocks, since the bytes after a name are zero.
fn name_block(units: &[Unit], at: usize) -> &[Unit] {
    let (_, size) = header(&units[at]);
    &units[at..at + units_for(size)]
}

fn hash(block: &[Unit]) -> u32 {
    const ODD: u64 = 0x9e37_79b9_7f4a_7c15;
    let step = |hash: u64, word: u64| (hash.rotate_left(23) ^ word).wrapping_mul(ODD);
    let start = step(0, back(&block[0]));
    let hash = block[1..].iter().fold(start, |hash, unit| step(step(hash, front(unit)), back(unit)));
    (hash >> 32) as u32
}
