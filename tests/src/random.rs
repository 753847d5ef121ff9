//! A seeded source of numbers (splitmix64): the same seed gives the same case on every machine.

pub struct Random(u64);

impl Random {
    pub fn new(seed: u64) -> Random {
        Random(seed.wrapping_mul(0x9E37_79B9_7F4A_7C15) ^ 0x5851_F42D_4C95_7F2D)
    }

    fn bits(&mut self) -> u64 {
        self.0 = self.0.wrapping_add(0x9E37_79B9_7F4A_7C15);
        let mut z = self.0;
        z = (z ^ (z >> 30)).wrapping_mul(0xBF58_476D_1CE4_E5B9);
        z = (z ^ (z >> 27)).wrapping_mul(0x94D0_49BB_1331_11EB);
        z ^ (z >> 31)
    }

    /// Any 32 bits.
    pub fn any(&mut self) -> u32 {
        (self.bits() >> 32) as u32
    }

    /// 0 to n - 1; n is 1 or more.
    pub fn below(&mut self, n: u32) -> u32 {
        (((self.bits() >> 32) * u64::from(n)) >> 32) as u32
    }

    /// low to high, both included.
    pub fn within(&mut self, low: u32, high: u32) -> u32 {
        (u64::from(low) + (((self.bits() >> 32) * (u64::from(high - low) + 1)) >> 32)) as u32
    }

    /// True once in n times.
    pub fn once_in(&mut self, n: u32) -> bool {
        self.below(n) == 0
    }

    /// 0 to most, every order of magnitude as often as another.
    pub fn spread(&mut self, most: u32) -> u32 {
        let bits = 33 - most.leading_zeros();
        let top = 1u64 << self.below(bits);
        self.within(0, top.min(u64::from(most)) as u32)
    }

    pub fn pick<T: Copy>(&mut self, from: &[T]) -> T {
        from[self.below(from.len() as u32) as usize]
    }

    pub fn shuffle<T>(&mut self, list: &mut [T]) {
        for i in (1..list.len()).rev() {
            list.swap(i, self.below(i as u32 + 1) as usize);
        }
    }
}
