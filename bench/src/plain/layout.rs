//! Where things stand in an image, which is looked at as a row of units of 16 bytes.

/// 16 bytes: what a ref counts.
pub type Unit = [u8; 16];

/// The magic of each kind of block.
pub const SUPERBLOCK: u32 = u32::from_be_bytes(*b"SF01");
pub const DIRECTORY: u32 = u32::from_be_bytes(*b"SFde");
pub const NAME: u32 = u32::from_be_bytes(*b"SFna");
pub const FILE: u32 = u32::from_be_bytes(*b"SFre");
pub const FREE: u32 = u32::from_be_bytes(*b"SFfr");

pub const LONGEST_NAME: usize = 64;
pub const MOST_SLOTS: u64 = 1024;
pub const MOST_ROOM: u64 = 65_536;

/// A slot that names nothing.
pub const EMPTY: Unit = [0; 16];

/// Where the bytes of a file begin in its block, and those of a name.
pub const CONTENT: usize = 24;
pub const LETTERS: usize = 8;

/// The first eight bytes of a unit: a block's magic and size, or a slot's name.
pub fn front(unit: &Unit) -> u64 {
    u64::from_be_bytes(*unit.first_chunk().unwrap())
}

/// The last eight bytes: the first field of a block, or a slot's object.
pub fn back(unit: &Unit) -> u64 {
    u64::from_be_bytes(*unit.last_chunk().unwrap())
}

pub fn put_back(unit: &mut Unit, value: u64) {
    *unit.last_chunk_mut().unwrap() = value.to_be_bytes();
}

/// The magic and the size that a block's first unit tells.
pub fn header(unit: &Unit) -> (u32, usize) {
    let word = front(unit);
    ((word >> 32) as u32, (word & 0xffff_ffff) as usize)
}

/// A first unit: magic, size and first field.
pub fn first_unit(magic: u32, size: usize, field: u64) -> Unit {
    let mut unit = EMPTY;
    unit[..4].copy_from_slice(&magic.to_be_bytes());
    unit[4..8].copy_from_slice(&(size as u32).to_be_bytes());
    put_back(&mut unit, field);
    unit
}

/// The units that a block with so many bytes of data takes.
pub fn units_for(size: usize) -> usize {
    (size + 23) / 16
}

pub fn directory_size(slots: usize) -> usize {
    8 + 16 * slots
}

pub fn file_size(room: usize) -> usize {
    16 + room
}

/// The whole units of an image.
pub fn units_of(image: &[u8]) -> &[Unit] {
    image.as_chunks().0
}

pub fn units_of_mut(image: &mut [u8]) -> &mut [Unit] {
    image.as_chunks_mut().0
}

/// A ref or a number of bytes as an index; one that is too large for any is past every end.
pub fn index(reference: u64) -> usize {
    usize::try_from(reference).unwrap_or(usize::MAX)
}

pub fn root_of(units: &[Unit]) -> usize {
    index(back(&units[0]))
}

pub fn first_free(units: &[Unit]) -> usize {
    index(front(&units[1]))
}

/// The slots of the directory at this index.
pub fn slots_of(units: &[Unit], at: usize) -> &[Unit] {
    let (_, size) = header(&units[at]);
    &units[at + 1..][..size / 16]
}

/// The bytes of the name at this index.
pub fn name_of(units: &[Unit], at: usize) -> &[u8] {
    let (_, size) = header(&units[at]);
    &units[at..].as_flattened()[LETTERS..LETTERS + size]
}

pub fn allowed_length(length: usize) -> bool {
    length.is_multiple_of(16) && (64..=1_048_576).contains(&length)
}

/// Whether a block of this kind may have this size.
pub fn allowed_size(magic: u32, size: usize) -> bool {
    match magic {
        SUPERBLOCK => size == 16,
        DIRECTORY => size % 16 == 8 && (1..=MOST_SLOTS as usize).contains(&(size / 16)),
        NAME => (1..=LONGEST_NAME).contains(&size),
        FILE => (16..=file_size(MOST_ROOM as usize)).contains(&size),
        FREE => size % 16 == 8 && size < 1 << 31,
        _ => false,
    }
}

/// Whether the bytes after the data, which end in this last unit of a block, are zero.
pub fn zeros_after(size: usize, last: &Unit) -> bool {
    match (size + 8) % 16 {
        0 => true,
        used @ 8.. => back(last) << (8 * (used - 8)) == 0,
        used => front(last) << (8 * used) == 0 && back(last) == 0,
    }
}
