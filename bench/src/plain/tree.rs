//! Directories, and the walk along a path. The image is well formed here and below.

use super::layout::*;
use super::name::Path;
use crate::store::Answer;

/// What a path names, with the slot that names it; the root has none.
#[derive(Clone, Copy)]
pub struct Entry {
    pub at: usize,
    pub slot: Option<usize>,
}

pub fn is_directory(units: &[Unit], at: usize) -> bool {
    header(&units[at]).0 == DIRECTORY
}

/// A directory's taken slots.
pub fn taken(units: &[Unit], directory: usize) -> usize {
    slots_of(units, directory).iter().filter(|slot| **slot != EMPTY).count()
}

/// A file's room.
pub fn room_of(units: &[Unit], file: usize) -> usize {
    header(&units[file]).1 - 16
}

/// A file's size.
pub fn length_of(units: &[Unit], file: usize) -> usize {
    index(back(&units[file]))
}

/// What the directory holds under this name.
pub fn look_up(units: &[Unit], directory: usize, name: &[u8]) -> Option<Entry> {
    let slots = slots_of(units, directory);
    let holds = |slot: &Unit| *slot != EMPTY && name_of(units, index(front(slot))) == name;
    let found = slots.iter().position(holds)?;
    Some(Entry { at: index(back(&slots[found])), slot: Some(directory + 1 + found) })
}

/// Down from the root: refusal 3 for a component that is not there, 4 for one below a file.
pub fn walk(units: &[Unit], parts: &[&[u8]]) -> Answer<Entry> {
    let mut here = Entry { at: root_of(units), slot: None };
    for part in parts {
        if !is_directory(units, here.at) {
            return Err(4.into());
        }
        here = look_up(units, here.at, part).ok_or(3)?;
    }
    Ok(here)
}

/// The file that a path names; refusal 5 for a directory.
pub fn file(units: &[Unit], path: &Path) -> Answer<usize> {
    let entry = walk(units, path.parts())?;
    if is_directory(units, entry.at) {
        return Err(5.into());
    }
    Ok(entry.at)
}
