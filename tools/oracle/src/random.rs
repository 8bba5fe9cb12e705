//! Numbers that look random and are the same in every run from the same seed, and sets that are made of them.

/// The seed where no other is asked for.
pub const SEED: u64 = 608;

/// A set goes through the whole of what it asks about, or makes a choice from a seed.
pub enum Fill<W, S> {
    Whole(W),
    FromSeed(S),
}

pub struct Random(u64);

impl Random {
    pub fn from_seed(seed: u64) -> Self {
        Random(seed)
    }

    /// A number below `limit`, by Knuth's linear generator, whose high bits are the good ones.
    pub fn below(&mut self, limit: u32) -> u32 {
        self.0 = self
            .0
            .wrapping_mul(6364136223846793005)
            .wrapping_add(1442695040888963407);
        (((self.0 >> 32) * u64::from(limit)) >> 32) as u32
    }

    pub fn byte_below(&mut self, limit: u8) -> u8 {
        self.below(limit.into()) as u8
    }

    pub fn pick<T: Copy>(&mut self, list: &[T]) -> T {
        list[self.below(list.len() as u32) as usize]
    }
}
