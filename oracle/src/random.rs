//! Pseudo-random numbers (splitmix64), the same on every machine.

pub struct Random {
    state: u64,
}

/// 2^64 over the golden ratio, made odd.
const STEP: u64 = 0x9e37_79b9_7f4a_7c15;

impl Random {
    /// The numbers for one thing out of many, so that it doesn't matter in which order, or on how
    /// many cores, these are made.
    pub fn new(seed: u64, index: u64) -> Random {
        Random {
            state: spread(seed.wrapping_add(spread(index.wrapping_add(STEP)))),
        }
    }

    /// Any 64 bits.
    pub fn bits(&mut self) -> u64 {
        self.state = self.state.wrapping_add(STEP);
        spread(self.state)
    }

    /// A number below `bound`, which isn't 0.
    pub fn below(&mut self, bound: u64) -> u64 {
        // The upper half of the product: near enough to even for bounds as small as these.
        ((u128::from(self.bits()) * u128::from(bound)) >> 64) as u64
    }

    pub fn place_below(&mut self, bound: usize) -> usize {
        self.below(bound as u64) as usize
    }

    pub fn one_in(&mut self, many: u64) -> bool {
        self.below(many) == 0
    }

    pub fn coin(&mut self) -> bool {
        self.one_in(2)
    }

    /// One of a list that isn't empty.
    pub fn pick<T: Copy>(&mut self, from: &[T]) -> T {
        from[self.place_below(from.len())]
    }
}

fn spread(number: u64) -> u64 {
    let number = (number ^ number >> 30).wrapping_mul(0xbf58_476d_1ce4_e5b9);
    let number = (number ^ number >> 27).wrapping_mul(0x94d0_49bb_1331_11eb);
    number ^ number >> 31
}
