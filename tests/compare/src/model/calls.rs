//! The calls but list, each with its refusals in their order.

use super::check::{allowed_length, open, Blocks};
use super::layout::*;
use super::name::components;
use super::room::{place, release};
use super::tree::{extent, lookup, slots_of, taken_slots, walk, Entry, Slot};
use super::Refusal;

#[derive(Clone, Copy, PartialEq, Eq, Debug)]
pub struct Found {
    pub reference: u64,
    pub directory: bool,
    /// A file's size, or a directory's taken slots.
    pub first: u64,
    /// A file's room, or a directory's slots.
    pub second: u64,
}

pub fn check(image: &[u8]) -> Result<(), Refusal> {
    open(image).map(|_| ())
}

pub fn format(image: &mut [u8], slots: u64) -> Result<(), u8> {
    if !allowed_length(image.len()) {
        return Err(1);
    }
    in_bounds(slots, 1, MOST_SLOTS)?;
    let root = 2 * UNIT;
    let size = directory_size(slots as usize);
    let end = root + units(size) * UNIT;
    if end > image.len() {
        return Err(8);
    }
    image.fill(0);
    put_header(image, 0, Kind::Super, 16);
    put64(image, ROOT_REF, 2);
    put_header(image, root, Kind::Directory, size);
    put64(image, root + PARENT, 2);
    if end < image.len() {
        put_header(image, end, Kind::Free, image.len() - end - HEADER);
        put64(image, FIRST_FREE, (end / UNIT) as u64);
    }
    Ok(())
}

pub fn find(image: &[u8], path: &[u8]) -> Result<Found, Refusal> {
    let blocks = open(image)?;
    let block = walk(image, &blocks, &components(path)?)?.block;
    let (first, second) = extent(image, &block);
    Ok(Found { reference: block.reference(), directory: block.kind == Kind::Directory, first, second })
}

/// What is made: a directory with slots, or a file with room.
#[derive(Clone, Copy, PartialEq, Eq)]
enum Made {
    Directory(usize),
    File(usize),
}

impl Made {
    fn size(self) -> usize {
        match self {
            Made::Directory(slots) => directory_size(slots),
            Made::File(room) => file_size(room),
        }
    }
}

pub fn make_directory(image: &mut [u8], path: &[u8], slots: u64) -> Result<u64, Refusal> {
    let blocks = open(image)?;
    let parts = components(path)?;
    in_bounds(slots, 1, MOST_SLOTS)?;
    make(image, &blocks, &parts, Made::Directory(slots as usize))
}

pub fn make_file(image: &mut [u8], path: &[u8], room: u64) -> Result<u64, Refusal> {
    let blocks = open(image)?;
    let parts = components(path)?;
    in_bounds(room, 0, MOST_ROOM)?;
    make(image, &blocks, &parts, Made::File(room as usize))
}

fn make(image: &mut [u8], blocks: &Blocks, parts: &[&[u8]], made: Made) -> Result<u64, Refusal> {
    let (name, before) = parts.split_last().ok_or(6)?;
    let holder = walk(image, blocks, before)?.block;
    if holder.kind == Kind::File {
        return Err(4.into());
    }
    if lookup(image, blocks, &holder, name).is_some() {
        return Err(6.into());
    }
    let slot = slots_of(image, &holder).into_iter().find(|slot| !slot.taken()).ok_or(7)?;
    let mut changed = image.to_vec();
    let (named, at) = place_pair(&mut changed, name, made.size()).ok_or(8)?;
    match made {
        Made::Directory(_) => {
            put_header(&mut changed, at, Kind::Directory, made.size());
            put64(&mut changed, at + PARENT, holder.reference());
        }
        Made::File(_) => put_header(&mut changed, at, Kind::File, made.size()),
    }
    put64(&mut changed, slot.at, (named / UNIT) as u64);
    put64(&mut changed, slot.at + 8, (at / UNIT) as u64);
    image.copy_from_slice(&changed);
    Ok((at / UNIT) as u64)
}

/// Places a name block and room for its object, the larger first, the name first where they are equal.
fn place_pair(image: &mut [u8], name: &[u8], size: usize) -> Option<(usize, usize)> {
    let (named, at);
    if units(size) > units(name.len()) {
        at = place(image, units(size))?;
        named = place(image, units(name.len()))?;
    } else {
        named = place(image, units(name.len()))?;
        at = place(image, units(size))?;
    }
    put_header(image, named, Kind::Name, name.len());
    image[named + NAME_BYTES..][..name.len()].copy_from_slice(name);
    Some((named, at))
}

/// Copies to the front of the buffer; tells how many bytes.
pub fn read(image: &[u8], path: &[u8], position: u64, buffer: &mut [u8]) -> Result<u64, Refusal> {
    let blocks = open(image)?;
    let file = file_at(image, &blocks, &components(path)?)?;
    let content = &image[file.at + CONTENT..][..size_of(image, &file)];
    let from = usize::try_from(position).unwrap_or(usize::MAX).min(content.len());
    let count = buffer.len().min(content.len() - from);
    buffer[..count].copy_from_slice(&content[from..from + count]);
    Ok(count as u64)
}

pub fn read_point(image: &[u8], path: &[u8], number: u64) -> Result<[u8; 16], Refusal> {
    let blocks = open(image)?;
    let parts = components(path)?;
    in_bounds(number, 1, LAST_POINT)?;
    let file = file_at(image, &blocks, &parts)?;
    let from = 16 * (number as usize - 1);
    if from + 16 > size_of(image, &file) {
        return Err(13.into());
    }
    Ok(image[file.at + CONTENT + from..][..16].try_into().unwrap())
}

pub fn write(image: &mut [u8], path: &[u8], position: u64, bytes: &[u8]) -> Result<(), Refusal> {
    let blocks = open(image)?;
    let file = file_at(image, &blocks, &components(path)?)?;
    if u128::from(position) + bytes.len() as u128 > file.room() as u128 {
        return Err(12.into());
    }
    if bytes.is_empty() {
        return Ok(());
    }
    let (old, from) = (size_of(image, &file), position as usize);
    let content = &mut image[file.at + CONTENT..][..file.room()];
    if old < from {
        content[old..from].fill(0);
    }
    content[from..from + bytes.len()].copy_from_slice(bytes);
    put64(image, file.at + FILE_SIZE, old.max(from + bytes.len()) as u64);
    Ok(())
}

pub fn set_length(image: &mut [u8], path: &[u8], length: u64) -> Result<(), Refusal> {
    let blocks = open(image)?;
    let file = file_at(image, &blocks, &components(path)?)?;
    if length > file.room() as u64 {
        return Err(12.into());
    }
    let (old, new) = (size_of(image, &file), length as usize);
    image[file.at + CONTENT..][old.min(new)..old.max(new)].fill(0);
    put64(image, file.at + FILE_SIZE, length);
    Ok(())
}

pub fn remove(image: &mut [u8], path: &[u8]) -> Result<(), Refusal> {
    let blocks = open(image)?;
    let parts = components(path)?;
    if parts.is_empty() {
        return Err(11.into());
    }
    let Entry { block, slot } = walk(image, &blocks, &parts)?;
    if block.kind == Kind::Directory && taken_slots(image, &block) > 0 {
        return Err(9.into());
    }
    let Slot { name, at, .. } = slot.unwrap();
    image[at..at + 16].fill(0);
    release(image, &[block, blocks.at(name).unwrap()]);
    Ok(())
}

fn in_bounds(number: u64, least: u64, most: u64) -> Result<(), u8> {
    if (least..=most).contains(&number) {
        Ok(())
    } else {
        Err(10)
    }
}

/// The file that the components name; a directory is refusal 5.
fn file_at(image: &[u8], blocks: &Blocks, parts: &[&[u8]]) -> Result<Block, Refusal> {
    let block = walk(image, blocks, parts)?.block;
    if block.kind == Kind::File {
        Ok(block)
    } else {
        Err(5.into())
    }
}

fn size_of(image: &[u8], file: &Block) -> usize {
    get64(image, file.at + FILE_SIZE) as usize
}
