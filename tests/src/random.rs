//! A small seeded generator (splitmix64): the same seed and index give the
//! same input on every machine.

/// The generator.
pub struct Random {
    state: u64,
}

impl Random {
    /// The generator of input `index` in the run with this seed. Every input
    /// has its own, so one input can be had without those before it.
    pub fn at(seed: u64, index: u64) -> Random {
        let mut of_seed = Random { state: seed };
        let mut of_index = Random {
            state: of_seed.draw() ^ index,
        };
        Random {
            state: of_index.draw(),
        }
    }

    /// 64 bits.
    pub fn draw(&mut self) -> u64 {
        self.state = self.state.wrapping_add(0x9e37_79b9_7f4a_7c15);
        let mut mixed = self.state;
        mixed = (mixed ^ (mixed >> 30)).wrapping_mul(0xbf58_476d_1ce4_e5b9);
        mixed = (mixed ^ (mixed >> 27)).wrapping_mul(0x94d0_49bb_1331_11eb);
        mixed ^ (mixed >> 31)
    }

    /// Any word.
    pub fn word(&mut self) -> u32 {
        self.draw() as u32
    }

    /// A number below `n`. The slight favour for low numbers does no harm here.
    pub fn below(&mut self, n: u32) -> u32 {
        (self.draw() % u64::from(n)) as u32
    }

    /// A number from `low` to `high`, both included.
    pub fn between(&mut self, low: u32, high: u32) -> u32 {
        low + (self.draw() % (u64::from(high - low) + 1)) as u32
    }

    /// The same for amounts of particles.
    pub fn amount(&mut self, low: u64, high: u64) -> u64 {
        low + self.draw() % (high - low + 1)
    }

    /// A position in something of this length.
    pub fn place(&mut self, length: usize) -> usize {
        (self.draw() % length as u64) as usize
    }

    /// One of the items.
    pub fn one_of<T: Copy>(&mut self, items: &[T]) -> T {
        items[self.place(items.len())]
    }

    /// Puts the items into any order.
    pub fn shuffle<T>(&mut self, items: &mut [T]) {
        for at in 1..items.len() {
            items.swap(at, self.place(at + 1));
        }
    }

    /// True in `part` of `whole` cases.
    pub fn chance(&mut self, part: u32, whole: u32) -> bool {
        self.below(whole) < part
    }
}
