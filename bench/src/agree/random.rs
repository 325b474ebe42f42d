//! A small random generator (xorshift), the same numbers for the same seed.

pub struct Random(u64);

impl Random {
    pub fn new(seed: u64) -> Random {
        Random(seed.wrapping_mul(0x9e37_79b9_7f4a_7c15) | 1)
    }

    pub fn number(&mut self) -> u64 {
        self.0 ^= self.0 << 13;
        self.0 ^= self.0 >> 7;
        self.0 ^= self.0 << 17;
        self.0.wrapping_mul(0x2545_f491_4f6c_dd1d)
    }

    /// From 0 to one below the limit, which is not 0.
    pub fn below(&mut self, limit: usize) -> usize {
        ((self.number() >> 33) % limit as u64) as usize
    }

    pub fn percent(&mut self, chance: usize) -> bool {
        self.below(100) < chance
    }

    /// One of a row that is not empty.
    pub fn one<T: Clone>(&mut self, row: &[T]) -> T {
        row[self.below(row.len())].clone()
    }

    /// One of a row, if it has any.
    pub fn any<T: Clone>(&mut self, row: &[T]) -> Option<T> {
        (!row.is_empty()).then(|| self.one(row))
    }
}
