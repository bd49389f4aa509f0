//! Numbers that look random and are the same in every run (splitmix64).

pub struct Random(u64);

impl Random {
    pub fn new(seed: u64) -> Self {
        Random(seed)
    }

    pub fn next(&mut self) -> u64 {
        self.0 = self.0.wrapping_add(0x9e37_79b9_7f4a_7c15);
        let mut z = self.0;
        z = (z ^ (z >> 30)).wrapping_mul(0xbf58_476d_1ce4_e5b9);
        z = (z ^ (z >> 27)).wrapping_mul(0x94d0_49bb_1331_11eb);
        z ^ (z >> 31)
    }

    /// A number below `top`.
    pub fn below(&mut self, top: u32) -> u32 {
        (self.next() % u64::from(top.max(1))) as u32
    }

    /// A number from `low` to `high`, both counted.
    pub fn from(&mut self, low: u32, high: u32) -> u32 {
        low + self.below(high - low + 1)
    }

    /// A number from 1 to `top`, small ones as likely as large ones.
    pub fn any_size(&mut self, top: u32) -> u32 {
        let bits = self.below(top.ilog2() + 1);
        let low = 1 << bits;
        self.from(low, (2 * low - 1).min(top))
    }

    /// Once in `times`.
    pub fn once_in(&mut self, times: u32) -> bool {
        self.below(times) == 0
    }

    pub fn pick<T: Copy>(&mut self, from: &[T]) -> T {
        from[self.below(from.len() as u32) as usize]
    }

    /// A word that is at an edge of something in a register of `nodes` nodes, or any word at all.
    pub fn word(&mut self, nodes: u32) -> u32 {
        match self.below(8) {
            0 => 0,
            1 => self.from(0, nodes),
            2 => 2 * self.from(0, nodes),
            3 => 2 * self.from(0, nodes) + 1,
            4 => {
                let edge = self.pick(&[
                    nodes,
                    2 * nodes,
                    2 * nodes + 1,
                    65_535,
                    0x7fff_ffff,
                    0x8000_0000,
                ]);
                edge.wrapping_add(self.below(3)).wrapping_sub(1)
            }
            5 => self.below(65_536),
            6 => self.below(20),
            _ => self.next() as u32,
        }
    }
}
