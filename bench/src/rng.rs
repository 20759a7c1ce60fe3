//! A small generator of pseudo-random numbers (splitmix64), so that a seed gives the same cases everywhere.

pub struct Rng {
    state: u64,
}

impl Rng {
    pub fn new(seed: u64) -> Rng {
        Rng {
            state: seed ^ 0x5851_f42d_4c95_7f2d,
        }
    }

    /// The generator of case `i` under `seed`: each case can be made again by itself.
    pub fn of_case(seed: u64, kind: u64, i: u64) -> Rng {
        let mut r = Rng::new(seed);
        let s = r.next().wrapping_add(kind.wrapping_mul(0xd134_2543_de82_ef95));
        let mut r = Rng::new(s);
        let s = r.next().wrapping_add(i.wrapping_mul(0x2545_f491_4f6c_dd1d));
        Rng::new(s)
    }

    pub fn next(&mut self) -> u64 {
        self.state = self.state.wrapping_add(0x9e37_79b9_7f4a_7c15);
        let mut z = self.state;
        z = (z ^ (z >> 30)).wrapping_mul(0xbf58_476d_1ce4_e5b9);
        z = (z ^ (z >> 27)).wrapping_mul(0x94d0_49bb_1331_11eb);
        z ^ (z >> 31)
    }

    /// 0 to n - 1; n is at least 1.
    pub fn below(&mut self, n: usize) -> usize {
        ((self.next() as u128 * n as u128) >> 64) as usize
    }

    /// lo to hi, both included.
    pub fn range(&mut self, lo: usize, hi: usize) -> usize {
        lo + self.below(hi - lo + 1)
    }

    /// Yes once in n.
    pub fn one_in(&mut self, n: usize) -> bool {
        self.below(n) == 0
    }

    pub fn pick<'a, T>(&mut self, of: &'a [T]) -> &'a T {
        &of[self.below(of.len())]
    }

    /// A word in which each bit is one with about `p` of 256.
    pub fn bits(&mut self, p: usize) -> u64 {
        let mut w = 0u64;
        let mut pool = 0u64;
        for i in 0..64 {
            if i % 8 == 0 {
                pool = self.next();
            }
            if ((pool & 255) as usize) < p {
                w |= 1 << i;
            }
            pool >>= 8;
        }
        w
    }
}
