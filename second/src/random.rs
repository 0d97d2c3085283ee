//! A small seeded generator of numbers, shared by all that is made to compare programs on.

/// A generator of numbers (splitmix64); the same seed always gives the same numbers.
#[derive(Clone, Debug)]
pub struct Random(pub u64);

impl Random {
    /// Gives the next 64 bits.
    pub fn word(&mut self) -> u64 {
        self.0 = self.0.wrapping_add(0x9e37_79b9_7f4a_7c15);
        let mut word = self.0;
        word = (word ^ (word >> 30)).wrapping_mul(0xbf58_476d_1ce4_e5b9);
        word = (word ^ (word >> 27)).wrapping_mul(0x94d0_49bb_1331_11eb);
        word ^ (word >> 31)
    }

    /// Gives a number below this one, or 0 below 0.
    pub fn below(&mut self, limit: u32) -> u32 {
        (self.word() % u64::from(limit.max(1))) as u32
    }

    /// Gives a place of a list of this length, or 0 of an empty one.
    pub fn place(&mut self, length: usize) -> usize {
        (self.word() % length.max(1) as u64) as usize
    }

    /// Tells yes this many times in a hundred.
    pub fn percent(&mut self, times: u32) -> bool {
        self.below(100) < times
    }

    /// Gives one of these.
    pub fn one_of<T: Copy>(&mut self, list: &[T]) -> T {
        list[self.place(list.len())]
    }

    /// Gives these in some order.
    pub fn shuffle<T>(&mut self, list: &mut [T]) {
        for place in (1..list.len()).rev() {
            list.swap(place, self.place(place + 1));
        }
    }

    /// Gives the numbers below this one in some order.
    pub fn order(&mut self, count: u32) -> Vec<u32> {
        let mut order: Vec<u32> = (0..count).collect();
        self.shuffle(&mut order);
        order
    }
}
