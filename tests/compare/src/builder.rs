//! Well-formed cards made block after block, without calls.

use crate::model::layout::*;

/// The ref of the root.
pub const ROOT: usize = 2;

/// The blocks so far, each behind the one before. Refs are told of what is put.
pub struct Builder {
    image: Vec<u8>,
    /// Where the ref of the next free block goes.
    link: usize,
}

impl Builder {
    /// The superblock, and a root with so many slots.
    pub fn new(slots: usize) -> Builder {
        let mut builder = Builder { image: Vec::new(), link: FIRST_FREE };
        builder.put(Kind::Super, 16);
        put64(&mut builder.image, ROOT_REF, ROOT as u64);
        builder.directory(slots, ROOT);
        builder
    }

    /// Bytes so far.
    pub fn length(&self) -> usize {
        self.image.len()
    }

    fn put(&mut self, kind: Kind, size: usize) -> usize {
        let at = self.image.len();
        self.image.resize(at + UNIT * units(size), 0);
        put_header(&mut self.image, at, kind, size);
        at / UNIT
    }

    pub fn directory(&mut self, slots: usize, parent: usize) -> usize {
        let reference = self.put(Kind::Directory, directory_size(slots));
        put64(&mut self.image, UNIT * reference + PARENT, parent as u64);
        reference
    }

    pub fn name(&mut self, name: &[u8]) -> usize {
        let reference = self.put(Kind::Name, name.len());
        self.image[UNIT * reference + NAME_BYTES..][..name.len()].copy_from_slice(name);
        reference
    }

    /// A file of room 0.
    pub fn file(&mut self) -> usize {
        self.put(Kind::File, file_size(0))
    }

    /// A free block, the last of the chain. Two side by side break rule 8.
    pub fn free(&mut self, units: usize) {
        let reference = self.put(Kind::Free, free_size(units));
        put64(&mut self.image, self.link, reference as u64);
        self.link = UNIT * reference + NEXT_FREE;
    }

    /// Takes a slot of a directory.
    pub fn hang(&mut self, directory: usize, slot: usize, name: usize, object: usize) {
        let at = UNIT * directory + SLOTS + 16 * slot;
        put64(&mut self.image, at, name as u64);
        put64(&mut self.image, at + 8, object as u64);
    }

    /// The card of this length; what is left of it is free.
    pub fn close(mut self, length: usize) -> Vec<u8> {
        let left = (length - self.length()) / UNIT;
        if left > 0 {
            self.free(left);
        }
        self.image
    }
}
