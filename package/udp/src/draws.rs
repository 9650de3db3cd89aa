//! Draws from a seed, by 64-bit xorshift.

/// A source of draws.
pub struct Draws(u64);

impl Draws {
    /// The draws of a seed.
    pub fn new(seed: u64) -> Draws {
        let mixed = seed.wrapping_add(1).wrapping_mul(0x9E37_79B9_7F4A_7C15);
        let mut draws = Draws(mixed | 1);
        (0..8).for_each(|_| _ = draws.next());
        draws
    }

    fn next(&mut self) -> u64 {
        self.0 ^= self.0 << 13;
        self.0 ^= self.0 >> 7;
        self.0 ^= self.0 << 17;
        self.0
    }

    /// A number from 0 to the limit.
    pub fn up_to(&mut self, limit: u64) -> u64 {
        let draw = self.next() >> 16;
        limit.checked_add(1).map_or(draw, |count| draw % count)
    }

    /// True in so many of 100 draws.
    pub fn percent(&mut self, of_100: u8) -> bool {
        self.up_to(99) < of_100.into()
    }
}
