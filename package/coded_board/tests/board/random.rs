//! Draws from a seed, by 64-bit xorshift; and what is drawn by all tests.

use coded_board::Config;

pub struct Random(u64);

impl Random {
    /// The draws of one number of a seed.
    pub fn new(seed: u64, number: u64) -> Random {
        let mut random = Random((seed << 32 ^ number).wrapping_mul(0x9E37_79B9_7F4A_7C15) | 1);
        (0..8).for_each(|_| _ = random.next());
        random
    }

    fn next(&mut self) -> u64 {
        self.0 ^= self.0 << 13;
        self.0 ^= self.0 >> 7;
        self.0 ^= self.0 << 17;
        self.0
    }

    pub fn below(&mut self, n: usize) -> usize {
        (self.next() >> 32) as usize % n
    }

    pub fn within(&mut self, low: usize, high: usize) -> usize {
        low + self.below(high - low + 1)
    }

    /// True in so many of 1000 draws.
    pub fn chance(&mut self, of_1000: usize) -> bool {
        self.below(1000) < of_1000
    }

    pub fn byte(&mut self) -> u8 {
        self.below(256) as u8
    }

    pub fn bytes(&mut self, count: usize) -> Vec<u8> {
        (0..count).map(|_| self.byte()).collect()
    }

    pub fn pick<T: Copy>(&mut self, from: &[T]) -> T {
        from[self.below(from.len())]
    }

    /// 0, V or in between.
    pub fn length(&mut self, v: usize) -> usize {
        match self.below(4) {
            0 => v,
            1 => self.pick(&[0, 1, v - 1]),
            _ => self.within(0, v),
        }
    }
}

/// Ranks mixed mostly, falling now and then, or all the same.
pub fn ranks(random: &mut Random, c: usize) -> Vec<u8> {
    let same = random.below(4) as u8;
    let mut ranks: Vec<u8> = (0..c).map(|_| random.below(4) as u8).collect();
    match random.below(6) {
        0 => ranks.fill(same),
        1 | 2 => ranks.sort_by(|a, b| b.cmp(a)),
        _ => {}
    }
    ranks
}

/// Any configuration: small numbers mostly.
pub fn config(random: &mut Random) -> Config {
    let n = if random.chance(600) { random.within(1, 6) } else { random.within(1, 16) };
    let k = if random.chance(600) { random.within(1, n.div_ceil(2)) } else { random.within(1, n) };
    let d = if random.chance(500) { random.below(3) } else { random.below(8) };
    let e = random.pick(&[1, 1, 2, 3, 5, 16, 63, 64]);
    let c = if random.chance(800) { random.within(1, 4) } else { random.within(5, 16) };
    made(random, [n, k, d, e, c])
}

/// N, k, D, E and C, with any ranks.
pub fn made(random: &mut Random, numbers: [usize; 5]) -> Config {
    let [n, k, d, e, c] = numbers.map(|number| number as u8);
    let ranks = ranks(random, c.into());
    Config::new(n, k, d, e, c, &ranks).expect("numbers in range")
}
