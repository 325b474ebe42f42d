//! Cards written block after block: the store's own calls would check a full card once for every file made.

/// A card that is being written.
pub struct Builder {
    image: Vec<u8>,
    /// The next unit, and the byte where the ref of the next free block goes.
    next: usize,
    link: usize,
    objects: usize,
}

/// A directory that is being filled.
pub struct Directory {
    at: usize,
    taken: usize,
}

impl Builder {
    /// A card of this length with an empty root.
    pub fn new(length: usize, slots: usize) -> (Builder, Directory) {
        let mut builder = Builder { image: vec![0; length], next: 0, link: 16, objects: 1 };
        builder.block(b"SF01", 16);
        builder.put(8, 2);
        let at = builder.block(b"SFde", 8 + 16 * slots);
        builder.put(16 * at + 8, at);
        (builder, Directory { at, taken: 0 })
    }

    /// Units that are not written yet.
    pub fn left(&self) -> usize {
        self.image.len() / 16 - self.next
    }

    /// Files and directories so far, the root included.
    pub fn objects(&self) -> usize {
        self.objects
    }

    fn put(&mut self, at: usize, value: usize) {
        self.image[at..at + 8].copy_from_slice(&(value as u64).to_be_bytes());
    }

    /// The next block, empty but for its header.
    fn block(&mut self, magic: &[u8; 4], size: usize) -> usize {
        let at = self.next;
        self.image[16 * at..][..4].copy_from_slice(magic);
        self.image[16 * at + 4..][..4].copy_from_slice(&(size as u32).to_be_bytes());
        self.next += (8 + size).div_ceil(16);
        assert!(16 * self.next <= self.image.len(), "the card is too small");
        at
    }

    /// Takes the next slot for an object, whose name is written after it.
    fn name(&mut self, holder: &mut Directory, name: &str, object: usize) {
        let at = self.block(b"SFna", name.len());
        self.image[16 * at + 8..][..name.len()].copy_from_slice(name.as_bytes());
        holder.taken += 1;
        let slot = 16 * (holder.at + holder.taken);
        self.put(slot, at);
        self.put(slot + 8, object);
        self.objects += 1;
    }

    /// A directory with so many slots.
    pub fn directory(&mut self, holder: &mut Directory, name: &str, slots: usize) -> Directory {
        let at = self.block(b"SFde", 8 + 16 * slots);
        self.put(16 * at + 8, holder.at);
        self.name(holder, name, at);
        Directory { at, taken: 0 }
    }

    /// A file with so much room and size; its bytes are never zero.
    pub fn file(&mut self, holder: &mut Directory, name: &str, room: usize, size: usize) {
        let at = self.block(b"SFre", 16 + room);
        self.put(16 * at + 8, size);
        let content = &mut self.image[16 * at + 24..][..size];
        content.iter_mut().enumerate().for_each(|(index, byte)| *byte = (index % 251) as u8 + 1);
        self.name(holder, name, at);
    }

    /// A free block of so many units; something else comes next, or the end.
    pub fn gap(&mut self, units: usize) {
        let at = self.block(b"SFfr", 16 * units - 8);
        self.put(self.link, at);
        self.link = 16 * at + 8;
    }

    /// The card, what is left of it free.
    pub fn finish(mut self) -> Vec<u8> {
        if self.left() > 0 {
            self.gap(self.left());
        }
        self.image
    }
}
