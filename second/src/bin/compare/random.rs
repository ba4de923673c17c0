//! A random generator of its own, so that a seed gives the same cases
//! everywhere.

/// splitmix64.
pub struct Random(u64);

impl Random {
    /// The generator for one numbered piece of a run.
    pub fn new(seed: u64, piece: u64) -> Random {
        let mut mixed = Random(seed ^ 0x6a09_e667_f3bc_c908);
        let start = mixed.next();
        Random(start ^ piece.wrapping_mul(0xd134_2543_de82_ef95))
    }

    pub fn next(&mut self) -> u64 {
        self.0 = self.0.wrapping_add(0x9e37_79b9_7f4a_7c15);
        let mut word = self.0;
        word = (word ^ (word >> 30)).wrapping_mul(0xbf58_476d_1ce4_e5b9);
        word = (word ^ (word >> 27)).wrapping_mul(0x94d0_49bb_1331_11eb);
        word ^ (word >> 31)
    }

    /// A number from `low` to `high`, both included.
    pub fn within(&mut self, low: u64, high: u64) -> u64 {
        low + self.next() % (high - low + 1)
    }

    /// An index below a length that isn't zero.
    pub fn index(&mut self, length: usize) -> usize {
        (self.next() % length as u64) as usize
    }

    pub fn one_in(&mut self, of: u64) -> bool {
        self.next().is_multiple_of(of)
    }

    pub fn pick<T: Copy>(&mut self, choices: &[T]) -> T {
        choices[self.index(choices.len())]
    }

    pub fn bytes(&mut self, length: usize) -> Vec<u8> {
        (0..length).map(|_| self.next() as u8).collect()
    }

    /// A value to hold: often a small one, at times an extreme one.
    pub fn value(&mut self) -> u64 {
        match self.index(4) {
            0 => self.next(),
            1 => self.pick(&[0, 1, u64::MAX, 1 << 63, 255, 256]),
            _ => self.within(0, 1000),
        }
    }
}

#[cfg(test)]
mod tests {
    use super::*;

    #[test]
    fn the_published_sequence() {
        let mut random = Random(1234567);
        assert_eq!(random.next(), 6457827717110365317);
        assert_eq!(random.next(), 3203168211198807973);
    }
}
