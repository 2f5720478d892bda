//! Numbers that look random and are the same in every run.

/// Steele, Lea and Flood's generator splitmix64.
pub struct Random(u64);

impl Random {
    // A generator with this seed.
    pub fn new(seed: u64) -> Self {
        Self(seed)
    }

    // Any u64.
    pub fn next(&mut self) -> u64 {
        self.0 = self.0.wrapping_add(0x9e37_79b9_7f4a_7c15);
        let a = (self.0 ^ (self.0 >> 30)).wrapping_mul(0xbf58_476d_1ce4_e5b9);
        let b = (a ^ (a >> 27)).wrapping_mul(0x94d0_49bb_1331_11eb);
        b ^ (b >> 31)
    }

    // A number from low to high, both among them.
    pub fn between(&mut self, low: i64, high: i64) -> i64 {
        low + (self.next() % (high - low + 1) as u64) as i64
    }
}
