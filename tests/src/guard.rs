//! A lent buffer with guard bytes around it and random contents before the call.

use crate::random::Random;

/// Guard bytes on each side.
const GUARD: usize = 64;

/// Random bytes from which contents are taken.
pub struct Pool {
    bytes: Vec<u8>,
}

/// A buffer whose inner part is lent; the bytes around it are guards.
pub struct Lent {
    bytes: Vec<u8>,
    image: usize,
    length: usize,
}

impl Pool {
    /// A pool that fills buffers of at most so many bytes.
    pub fn new(random: &mut Random, most: usize) -> Self {
        let count = 2 * (most + 2 * GUARD);
        let bytes = (0..count).map(|_| random.byte() | 1).collect();
        Pool { bytes }
    }
}

impl Lent {
    /// A buffer that is not yet prepared.
    pub fn new() -> Self {
        Lent {
            bytes: vec![],
            image: 0,
            length: 0,
        }
    }

    /// Makes the inner part so long and fills everything anew from a place of the pool.
    pub fn prepare(&mut self, pool: &Pool, random: &mut Random, length: usize) {
        let whole = length + 2 * GUARD;
        self.length = length;
        self.image = random.below(pool.bytes.len() - whole + 1);
        self.bytes.clear();
        let image = &pool.bytes[self.image..self.image + whole];
        self.bytes.extend_from_slice(image);
    }

    /// The part that is lent.
    pub fn inner(&mut self) -> &mut [u8] {
        &mut self.bytes[GUARD..GUARD + self.length]
    }

    /// Whether the inner part begins with `front` and everything else is as it was.
    pub fn holds(&self, pool: &Pool, front: &[u8]) -> bool {
        let image = &pool.bytes[self.image..self.image + self.bytes.len()];
        let end = GUARD + front.len();
        self.bytes[..GUARD] == image[..GUARD]
            && self.bytes[GUARD..end] == *front
            && self.bytes[end..] == image[end..]
    }
}

impl Default for Lent {
    fn default() -> Self {
        Self::new()
    }
}
