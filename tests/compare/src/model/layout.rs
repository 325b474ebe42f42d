//! Numbers, blocks and fields: where things stand in an image.

pub const UNIT: usize = 16;
pub const SHORTEST: usize = 64;
pub const LONGEST: usize = 1_048_576;
pub const MOST_SLOTS: u64 = 1024;
pub const MOST_ROOM: u64 = 65_536;
pub const LAST_POINT: u64 = 4096;
pub const LONGEST_NAME: usize = 64;

/// Bytes of a block before its data: magic and size.
pub const HEADER: usize = 8;

/// Fields, in bytes from the front of their block.
pub const ROOT_REF: usize = 8;
pub const FIRST_FREE: usize = 16;
pub const PARENT: usize = 8;
pub const SLOTS: usize = 16;
pub const NAME_BYTES: usize = 8;
pub const FILE_SIZE: usize = 8;
pub const CHUNK_SIZE: usize = 16;
pub const RESERVED: usize = 20;
pub const CONTENT: usize = 24;
pub const NEXT_FREE: usize = 8;

#[derive(Clone, Copy, PartialEq, Eq, Debug)]
pub enum Kind {
    Super,
    Directory,
    Name,
    File,
    Free,
}

pub const KINDS: [Kind; 5] = [Kind::Super, Kind::Directory, Kind::Name, Kind::File, Kind::Free];

pub fn magic(kind: Kind) -> &'static [u8; 4] {
    match kind {
        Kind::Super => b"SF01",
        Kind::Directory => b"SFde",
        Kind::Name => b"SFna",
        Kind::File => b"SFre",
        Kind::Free => b"SFfr",
    }
}

/// A block of a tiled image: its kind, its first byte, the size that its header tells.
#[derive(Clone, Copy, PartialEq, Eq, Debug)]
pub struct Block {
    pub kind: Kind,
    pub at: usize,
    pub size: usize,
}

impl Block {
    pub fn reference(&self) -> u64 {
        (self.at / UNIT) as u64
    }

    pub fn units(&self) -> usize {
        units(self.size)
    }

    pub fn end(&self) -> usize {
        self.at + self.units() * UNIT
    }

    /// Where the zeros behind the data begin.
    pub fn padding(&self) -> usize {
        self.at + HEADER + self.size
    }

    pub fn slots(&self) -> usize {
        (self.size - 8) / 16
    }

    pub fn room(&self) -> usize {
        self.size - 16
    }
}

/// Units that a block with so many bytes of data takes.
pub fn units(size: usize) -> usize {
    (HEADER + size).div_ceil(UNIT)
}

pub fn directory_size(slots: usize) -> usize {
    8 + 16 * slots
}

pub fn file_size(room: usize) -> usize {
    16 + room
}

pub fn free_size(units: usize) -> usize {
    16 * units - 8
}

pub fn get32(image: &[u8], at: usize) -> u32 {
    u32::from_be_bytes(image[at..at + 4].try_into().unwrap())
}

pub fn get64(image: &[u8], at: usize) -> u64 {
    u64::from_be_bytes(image[at..at + 8].try_into().unwrap())
}

pub fn put32(image: &mut [u8], at: usize, value: u32) {
    image[at..at + 4].copy_from_slice(&value.to_be_bytes());
}

pub fn put64(image: &mut [u8], at: usize, value: u64) {
    image[at..at + 8].copy_from_slice(&value.to_be_bytes());
}

pub fn put_header(image: &mut [u8], at: usize, kind: Kind, size: usize) {
    image[at..at + 4].copy_from_slice(magic(kind));
    put32(image, at + 4, size as u32);
}
