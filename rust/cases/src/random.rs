//! Random numbers that depend on nothing but their seed.

/// xoshiro256**, seeded by splitmix64.
pub struct Random([u64; 4]);

impl Random {
    pub fn new(seed: u64) -> Random {
        let mut state = seed;
        Random([(); 4].map(|()| splitmix(&mut state)))
    }

    /// The numbers of one case, the same however many cases were tried before it.
    pub fn for_case(seed: u64, case: u64) -> Random {
        let mut state = seed;
        let mut mixed = splitmix(&mut state) ^ case;
        Random::new(splitmix(&mut mixed))
    }

    pub fn number(&mut self) -> u64 {
        let [a, b, c, d] = &mut self.0;
        let result = b.wrapping_mul(5).rotate_left(7).wrapping_mul(9);
        let shifted = *b << 17;
        *c ^= *a;
        *d ^= *b;
        *b ^= *c;
        *a ^= *d;
        *c ^= shifted;
        *d = d.rotate_left(45);
        result
    }

    /// A number below `bound`, which is not 0. The slight bias of the remainder does no harm here.
    pub fn below(&mut self, bound: usize) -> usize {
        (self.number() % bound as u64) as usize
    }

    /// A number from `least` to `most`.
    pub fn between(&mut self, least: usize, most: usize) -> usize {
        least + self.below(most - least + 1)
    }

    /// True in `part` of `whole` cases.
    pub fn chance(&mut self, part: usize, whole: usize) -> bool {
        self.below(whole) < part
    }

    pub fn byte(&mut self) -> u8 {
        self.number() as u8
    }

    pub fn of<T: Copy>(&mut self, choices: &[T]) -> T {
        choices[self.below(choices.len())]
    }

    pub fn bytes(&mut self, count: usize) -> Vec<u8> {
        (0..count).map(|_| self.byte()).collect()
    }

    /// A 32-bit number: often small, sometimes at an edge, sometimes any.
    pub fn value(&mut self) -> u32 {
        match self.below(8) {
            0..=3 => self.below(6) as u32,
            4 => self.below(300) as u32,
            5 => u32::MAX - self.below(3) as u32,
            6 => (1 << 31) - 1 + self.below(3) as u32,
            _ => self.number() as u32,
        }
    }
}

fn splitmix(state: &mut u64) -> u64 {
    *state = state.wrapping_add(0x9E37_79B9_7F4A_7C15);
    let mut mixed = *state;
    mixed = (mixed ^ (mixed >> 30)).wrapping_mul(0xBF58_476D_1CE4_E5B9);
    mixed = (mixed ^ (mixed >> 27)).wrapping_mul(0x94D0_49BB_1331_11EB);
    mixed ^ (mixed >> 31)
}
