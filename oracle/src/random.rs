// Numbers that look random and are drawn from a seed, by SplitMix64: the same seed draws the same numbers on every machine.

pub struct Random(u64);

impl Random {
    pub fn new(seed: u64) -> Random {
        Random(seed)
    }

    // The draws of one sequence of a run.
    pub fn of(seed: u64, sequence: u64) -> Random {
        Random(Random(seed).next() ^ sequence)
    }

    pub fn next(&mut self) -> u64 {
        self.0 = self.0.wrapping_add(0x9e37_79b9_7f4a_7c15);
        let z = (self.0 ^ (self.0 >> 30)).wrapping_mul(0xbf58_476d_1ce4_e5b9);
        let z = (z ^ (z >> 27)).wrapping_mul(0x94d0_49bb_1331_11eb);
        z ^ (z >> 31)
    }

    pub fn word(&mut self) -> u32 {
        (self.next() >> 32) as u32
    }

    // A number below `end`.
    pub fn below(&mut self, end: u64) -> u64 {
        self.next() % end
    }

    // From `least` to `most`, both met.
    pub fn between(&mut self, least: u32, most: u32) -> u32 {
        least + self.below(u64::from(most - least) + 1) as u32
    }

    pub fn size(&mut self, least: usize, most: usize) -> usize {
        self.between(least as u32, most as u32) as usize
    }

    // From 0 up to but not 1, in steps of 2^-53.
    pub fn fraction(&mut self) -> f64 {
        (self.next() >> 11) as f64 / (1u64 << 53) as f64
    }

    pub fn one_of<T: Copy>(&mut self, list: &[T]) -> T {
        list[self.size(0, list.len() - 1)]
    }

    // True in so many of a hundred draws.
    pub fn chance(&mut self, percent: u32) -> bool {
        self.between(1, 100) <= percent
    }

    // The index of a weight, each drawn as often as its weight says.
    pub fn weighted(&mut self, weights: &[u32]) -> usize {
        let mut left = self.between(1, weights.iter().sum());
        let mut index = 0;
        while left > weights[index] {
            left -= weights[index];
            index += 1;
        }
        index
    }
}
