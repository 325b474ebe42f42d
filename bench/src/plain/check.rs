//! The check in three walks over the headers. Where one of them finds something wrong, the rules are gone
//! through one by one for the first that is broken.

use super::judge::{self, mark};
use super::layout::*;
use super::name::valid_name;
use super::table::{fnv, Names};
use crate::store::Answer;

/// Added to a mark: one slot names the block, and rightly.
const ONCE: u8 = 8;
/// Added to a mark: more slots name it, or a directory that is not its parent.
const WRONGLY: u8 = 16;

/// The files and directories of a well-formed image, the root included; refusals 21 to 28 otherwise.
pub fn open(image: &[u8]) -> Answer<usize> {
    judge::open(image, walks)
}

pub fn check_marked(image: &[u8], marks: &mut [u8]) -> Answer<()> {
    judge::check_marked(image, marks, walks)
}

fn walks(units: &[Unit], marks: &mut [u8]) -> Option<usize> {
    let objects = tile(units, marks)?;
    (slots_stand(units, marks) && blocks_stand(units, marks)).then_some(objects)
}

/// The first walk, rule 1: sets the marks of all blocks, and counts files and directories.
fn tile(units: &[Unit], marks: &mut [u8]) -> Option<usize> {
    if header(&units[0]) != (SUPERBLOCK, 16) || back(&units[1]) != 0 {
        return None;
    }
    marks[0] = mark::SUPERBLOCK;
    let mut objects = 0;
    let mut at = 2;
    while let Some(first) = units.get(at) {
        let (magic, size) = header(first);
        let block = units.get(at..at + units_for(size)).filter(|_| allowed_size(magic, size))?;
        if !zeros_after(size, block.last()?) {
            return None;
        }
        marks[at] = match magic {
            DIRECTORY => mark::DIRECTORY,
            NAME => mark::NAME,
            FILE => mark::FILE,
            FREE => mark::FREE,
            _ => return None,
        };
        objects += usize::from(magic == DIRECTORY || magic == FILE);
        at += block.len();
    }
    Some(objects)
}

/// The second walk, rules 2 and 3: counts in the marks what the slots name.
fn slots_stand(units: &[Unit], marks: &mut [u8]) -> bool {
    let root = root_of(units);
    if kind(marks, root) != mark::DIRECTORY || parent(units, root) != root {
        return false;
    }
    let mut at = 2;
    while let Some(first) = units.get(at) {
        let (magic, size) = header(first);
        if magic == DIRECTORY && !taken(units, at).all(|(name, object)| note(units, marks, at, name, object))
        {
            return false;
        }
        at += units_for(size);
    }
    true
}

/// What a slot of this directory names: false where it is no name, or no file or directory.
fn note(units: &[Unit], marks: &mut [u8], directory: usize, name: usize, object: usize) -> bool {
    let rightly = match kind(marks, object) {
        mark::FILE => true,
        mark::DIRECTORY => parent(units, object) == directory,
        _ => return false,
    };
    if kind(marks, name) != mark::NAME {
        return false;
    }
    count(&mut marks[name], true);
    count(&mut marks[object], rightly);
    true
}

fn count(mark: &mut u8, rightly: bool) {
    *mark |= if rightly && *mark < ONCE { ONCE } else { WRONGLY };
}

/// The third walk: rules 4 to 7 of each block, and rule 8.
fn blocks_stand(units: &[Unit], marks: &[u8]) -> bool {
    let root = root_of(units);
    let mut table = Names::new();
    let mut free = first_free(units);
    let mut after_free = false;
    let mut at = 2;
    while let Some(first) = units.get(at) {
        let (magic, size) = header(first);
        let named = (marks[at] & !mark::KIND) == if at == root { 0 } else { ONCE };
        let stands = match magic {
            NAME => named && valid_name(name_of(units, at)),
            FILE => named && index(back(first)) <= size - 16 && front(&units[at + 1]) == 0,
            DIRECTORY => named && directory_stands(units, root, at, &mut table),
            _ => at == free && !after_free,
        };
        if !stands {
            return false;
        }
        after_free = magic == FREE;
        if after_free {
            free = index(back(first));
        }
        at += units_for(size);
    }
    free == 0
}

/// Rule 5, and whether the names in a directory differ.
fn directory_stands(units: &[Unit], root: usize, at: usize, table: &mut Names) -> bool {
    let Some(depth) = depth(units, root, at) else { return false };
    let count = taken(units, at).count();
    if count == 0 {
        return true;
    }
    let mut table = table.begin(count);
    depth < 16
        && taken(units, at).all(|(name, _)| {
            let bytes = name_of(units, name);
            table.add(name, fnv(bytes), |other| name_of(units, other) == bytes)
        })
}

/// The steps up to the root, at most 16. Not every parent need be a directory yet.
fn depth(units: &[Unit], root: usize, mut at: usize) -> Option<usize> {
    for steps in 0..=16 {
        if at == root {
            return Some(steps);
        }
        at = index(back(units.get(at)?));
    }
    None
}

/// The kind of the block at any index; 0 where none begins.
fn kind(marks: &[u8], at: usize) -> u8 {
    marks.get(at).map_or(0, |mark| mark & mark::KIND)
}

fn parent(units: &[Unit], directory: usize) -> usize {
    index(back(&units[directory]))
}

/// The name and object of each taken slot.
fn taken(units: &[Unit], directory: usize) -> impl Iterator<Item = (usize, usize)> + '_ {
    let slots = slots_of(units, directory).iter().filter(|slot| **slot != EMPTY);
    slots.map(|slot| (index(front(slot)), index(back(slot))))
}
