//! The calls that change the image.

use super::check::open;
use super::layout::*;
use super::name::{in_bounds, Path};
use super::room::{place_pair, release};
use super::tree::{file, is_directory, length_of, look_up, room_of, taken, walk};
use crate::store::Answer;

pub fn format(image: &mut [u8], slots: u64) -> Answer<()> {
    if !allowed_length(image.len()) {
        return Err(1.into());
    }
    let size = directory_size(in_bounds(slots, 1, MOST_SLOTS)?);
    let units = units_of_mut(image);
    let end = 2 + units_for(size);
    let Some(left) = units.len().checked_sub(end) else { return Err(8.into()) };
    units.fill(EMPTY);
    units[0] = first_unit(SUPERBLOCK, 16, 2);
    units[2] = first_unit(DIRECTORY, size, 2);
    if left > 0 {
        *units[1].first_chunk_mut().unwrap() = (end as u64).to_be_bytes();
        units[end] = first_unit(FREE, 16 * left - 8, 0);
    }
    Ok(())
}

pub fn make_directory(image: &mut [u8], path: &[u8], slots: u64) -> Answer<u64> {
    open(image)?;
    let path = Path::parse(path)?;
    let size = directory_size(in_bounds(slots, 1, MOST_SLOTS)?);
    make(units_of_mut(image), &path, DIRECTORY, size)
}

pub fn make_file(image: &mut [u8], path: &[u8], room: u64) -> Answer<u64> {
    open(image)?;
    let path = Path::parse(path)?;
    let size = file_size(in_bounds(room, 0, MOST_ROOM)?);
    make(units_of_mut(image), &path, FILE, size)
}

fn make(units: &mut [Unit], path: &Path, magic: u32, size: usize) -> Answer<u64> {
    let (name, before) = path.split_last().ok_or(6)?;
    let holder = walk(units, before)?.at;
    if !is_directory(units, holder) {
        return Err(4.into());
    }
    if look_up(units, holder, name).is_some() {
        return Err(6.into());
    }
    let slot = slots_of(units, holder).iter().position(|slot| *slot == EMPTY).ok_or(7)?;
    let (named, object) = place_pair(units, units_for(name.len()), units_for(size)).ok_or(8)?;
    units[named] = first_unit(NAME, name.len(), 0);
    units[named..].as_flattened_mut()[LETTERS..][..name.len()].copy_from_slice(name);
    let parent = if magic == DIRECTORY { holder } else { 0 };
    units[object] = first_unit(magic, size, parent as u64);
    let slot = &mut units[holder + 1 + slot];
    *slot.first_chunk_mut().unwrap() = (named as u64).to_be_bytes();
    put_back(slot, object as u64);
    Ok(object as u64)
}

/// All bytes that a file has room for.
fn content(units: &mut [Unit], file: usize) -> &mut [u8] {
    let room = room_of(units, file);
    &mut units[file..].as_flattened_mut()[CONTENT..][..room]
}

pub fn write(image: &mut [u8], path: &[u8], position: u64, bytes: &[u8]) -> Answer<()> {
    open(image)?;
    let units = units_of_mut(image);
    let file = file(units, &Path::parse(path)?)?;
    let from = index(position);
    let end = from.checked_add(bytes.len()).filter(|end| *end <= room_of(units, file)).ok_or(12)?;
    if bytes.is_empty() {
        return Ok(());
    }
    let old = length_of(units, file);
    let content = content(units, file);
    if old < from {
        content[old..from].fill(0);
    }
    content[from..end].copy_from_slice(bytes);
    put_back(&mut units[file], old.max(end) as u64);
    Ok(())
}

pub fn set_length(image: &mut [u8], path: &[u8], length: u64) -> Answer<()> {
    open(image)?;
    let units = units_of_mut(image);
    let file = file(units, &Path::parse(path)?)?;
    let new = index(length);
    if new > room_of(units, file) {
        return Err(12.into());
    }
    let old = length_of(units, file);
    content(units, file)[old.min(new)..old.max(new)].fill(0);
    put_back(&mut units[file], length);
    Ok(())
}

pub fn remove(image: &mut [u8], path: &[u8]) -> Answer<()> {
    open(image)?;
    let units = units_of_mut(image);
    let path = Path::parse(path)?;
    if path.parts().is_empty() {
        return Err(11.into());
    }
    let entry = walk(units, path.parts())?;
    if is_directory(units, entry.at) && taken(units, entry.at) > 0 {
        return Err(9.into());
    }
    let slot = entry.slot.ok_or(11)?;
    let name = index(front(&units[slot]));
    units[slot] = EMPTY;
    release(units, entry.at);
    release(units, name);
    Ok(())
}
