//! A small generator of test values: the same seed gives the same values on every machine.

/// A counter whose steps are mixed to 64 bits (splitmix64).
#[derive(Clone, Debug)]
pub struct Seeded(u64);

impl Seeded {
    pub fn new(seed: u64) -> Seeded {
        Seeded(seed)
    }

    pub fn bits(&mut self) -> u64 {
        self.0 = self.0.wrapping_add(0x9E37_79B9_7F4A_7C15);
        let mut z = self.0;
        z = (z ^ (z >> 30)).wrapping_mul(0xBF58_476D_1CE4_E5B9);
        z = (z ^ (z >> 27)).wrapping_mul(0x94D0_49BB_1331_11EB);
        z ^ (z >> 31)
    }

    /// A number from 0 to count - 1.
    pub fn below(&mut self, count: u64) -> u64 {
        ((u128::from(self.bits()) * u128::from(count)) >> 64) as u64
    }

    /// A number from low to high, both included, where these are not the ends of the type.
    pub fn range(&mut self, low: i64, high: i64) -> i64 {
        let count = high.wrapping_sub(low) as u64 + 1;
        low.wrapping_add(self.below(count) as i64)
    }

    /// A number within plus or minus a limit, its size spread over the powers of two so that small ones come as often.
    pub fn spread(&mut self, limit: i64) -> i64 {
        let bound = limit >> self.below(65 - u64::from(limit.leading_zeros()));
        self.range(-bound, bound)
    }

    pub fn pick<T: Copy>(&mut self, from: &[T]) -> T {
        from[self.below(from.len() as u64) as usize]
    }

    pub fn fill(&mut self, bytes: &mut [u8]) {
        for part in bytes.chunks_mut(8) {
            part.copy_from_slice(&self.bits().to_le_bytes()[..part.len()]);
        }
    }
}
