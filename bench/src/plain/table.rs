//! The names of one directory, by their hashes: whether two are equal.

/// Storage for a table, used again for each directory; few names need no heap.
pub struct Names {
    few: [u32; 32],
    many: Vec<u32>,
}

impl Names {
    pub fn new() -> Names {
        Names { few: [0; 32], many: Vec::new() }
    }

    /// An empty table, at least half of which stays empty with so many names.
    pub fn begin(&mut self, names: usize) -> Table<'_> {
        let size = (2 * names).next_power_of_two();
        let places = if size <= self.few.len() {
            &mut self.few[..size]
        } else {
            if self.many.len() < size {
                self.many.resize(size, 0);
            }
            &mut self.many[..size]
        };
        places.fill(0);
        Table { places }
    }
}

/// A place holds 16 bits of a hash and the ref of the name, which is never 0 and has 16 bits too.
pub struct Table<'a> {
    places: &'a mut [u32],
}

impl Table<'_> {
    /// Whether the name at this ref is new here; it is there then. Those with a like hash are compared.
    pub fn add(&mut self, name: usize, hash: u32, equals: impl Fn(usize) -> bool) -> bool {
        let entry = (hash & 0xffff_0000) | name as u32;
        let mask = self.places.len() - 1;
        let mut at = hash as usize & mask;
        loop {
            let there = self.places[at];
            if there == 0 {
                self.places[at] = entry;
                return true;
            }
            if (there ^ entry) < 1 << 16 && equals(there as usize & 0xffff) {
                return false;
            }
            at = (at + 1) & mask;
        }
    }
}

/// A hash of the bytes, one after the other (FNV-1a).
pub fn fnv(bytes: &[u8]) -> u32 {
    bytes.iter().fold(0x811c_9dc5, |hash, &byte| (hash ^ u32::from(byte)).wrapping_mul(0x0100_0193))
}
