//! Random numbers that are the same on every machine (splitmix64).

#[derive(Clone)]
pub struct Random(u64);

#[rustfmt::skip]
const BOUNDARIES: [u64; 24] = [
    0, 1, 2, 3, 4, 7, 8, 15, 16, 127, 128, 255, 256, 65_535, 65_536, 4_194_302, 4_194_303, 4_194_304,
    u32::MAX as u64, 1 << 32, u64::MAX >> 1, 1 << 63, u64::MAX - 1, u64::MAX,
];

impl Random {
    /// The numbers of item `index` of a seed. They do not depend on what was taken for other items.
    pub fn new(seed: u64, index: u64) -> Random {
        Random(Random(seed).draw() ^ Random(!index).draw())
    }

    pub fn draw(&mut self) -> u64 {
        self.0 = self.0.wrapping_add(0x9e37_79b9_7f4a_7c15);
        let mixed = (self.0 ^ (self.0 >> 30)).wrapping_mul(0xbf58_476d_1ce4_e5b9);
        let mixed = (mixed ^ (mixed >> 27)).wrapping_mul(0x94d0_49bb_1331_11eb);
        mixed ^ (mixed >> 31)
    }

    /// A number below `count`, which is not 0.
    pub fn below(&mut self, count: usize) -> usize {
        ((u128::from(self.draw()) * count as u128) >> 64) as usize
    }

    /// A number from `first` to `last`, both included.
    pub fn from_to(&mut self, first: u64, last: u64) -> u64 {
        let count = u128::from(last - first) + 1;
        first + ((u128::from(self.draw()) * count) >> 64) as u64
    }

    /// True so many times in a hundred.
    pub fn percent(&mut self, chance: usize) -> bool {
        self.below(100) < chance
    }

    pub fn pick<T: Copy>(&mut self, items: &[T]) -> T {
        items[self.below(items.len())]
    }

    /// The index of a weight, as often as its share in their sum.
    pub fn weighted(&mut self, weights: &[usize]) -> usize {
        let mut left = self.below(weights.iter().sum());
        let mut index = 0;
        while left >= weights[index] {
            left -= weights[index];
            index += 1;
        }
        index
    }

    pub fn shuffle<T>(&mut self, items: &mut [T]) {
        for last in (1..items.len()).rev() {
            items.swap(last, self.below(last + 1));
        }
    }

    /// A number of any size, often one on a boundary.
    pub fn number(&mut self) -> u64 {
        if self.percent(50) {
            self.pick(&BOUNDARIES)
        } else {
            let dropped = self.below(64);
            self.draw() >> dropped
        }
    }

    /// A number up to `most`, often one on a boundary.
    pub fn up_to(&mut self, most: u64) -> u64 {
        match self.below(6) {
            0 => 0,
            1 => most,
            2 => most.min(1),
            3 => most.saturating_sub(1),
            4 => self.number().min(most),
            _ => self.from_to(0, most),
        }
    }

    /// A number at most two away from this one.
    pub fn near(&mut self, number: u64) -> u64 {
        number.wrapping_add(self.from_to(0, 4)).wrapping_sub(2)
    }
}
