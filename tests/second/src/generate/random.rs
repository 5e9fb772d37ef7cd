//! A small seeded source of numbers, the same on every machine.

/// splitmix64.
pub struct Random {
    state: u64,
}

impl Random {
    /// The numbers of one case: of a seed, a kind and an index.
    pub fn new(seed: u64, kind: u64, index: u64) -> Random {
        let mut random = Random { state: seed };
        random.state = random.number() ^ kind;
        random.state = random.number() ^ index;
        random
    }

    /// The next 64 bits.
    pub fn number(&mut self) -> u64 {
        self.state = self.state.wrapping_add(0x9E37_79B9_7F4A_7C15);
        let mut mixed = self.state;
        mixed = (mixed ^ (mixed >> 30)).wrapping_mul(0xBF58_476D_1CE4_E5B9);
        mixed = (mixed ^ (mixed >> 27)).wrapping_mul(0x94D0_49BB_1331_11EB);
        mixed ^ (mixed >> 31)
    }

    /// A number below `limit`, or 0 if there is none.
    pub fn below(&mut self, limit: usize) -> usize {
        let wide = u128::from(self.number()) * limit as u128;
        (wide >> 64) as usize
    }

    /// A number from `least` to `greatest`, both included.
    pub fn between(&mut self, least: usize, greatest: usize) -> usize {
        least + self.below(greatest - least + 1)
    }

    /// True once in so many times.
    pub fn once_in(&mut self, times: usize) -> bool {
        self.below(times) == 0
    }

    pub fn byte(&mut self) -> u8 {
        self.number() as u8
    }

    pub fn bytes(&mut self, count: usize) -> Vec<u8> {
        (0..count).map(|_| self.byte()).collect()
    }

    /// One of some choices, of which there is at least one.
    pub fn pick<T: Clone>(&mut self, choices: &[T]) -> T {
        choices[self.below(choices.len())].clone()
    }

    pub fn shuffle<T>(&mut self, list: &mut [T]) {
        for last in (1..list.len()).rev() {
            list.swap(last, self.below(last + 1));
        }
    }

    /// Puts a sorted list into one of the orders: rising, falling, shuffled,
    /// or rising but for one pair.
    pub fn order<T>(&mut self, list: &mut [T]) {
        match self.below(8) {
            0..=2 => {}
            3 => list.reverse(),
            4..=6 => self.shuffle(list),
            _ if list.len() > 1 => {
                let (one, other) = (self.below(list.len()), self.below(list.len()));
                list.swap(one, other);
            }
            _ => {}
        }
    }
}

/// One of some choices in its turn.
pub fn turn<T: Copy>(choices: &[T], index: u64) -> T {
    choices[(index % choices.len() as u64) as usize]
}
