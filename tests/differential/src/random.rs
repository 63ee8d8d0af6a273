//! Numbers that look random and are the same in each run with the same seed (splitmix64).

pub struct Random(u64);

impl Random {
    pub fn new(seed: u64) -> Random {
        Random(seed)
    }

    pub fn u64(&mut self) -> u64 {
        self.0 = self.0.wrapping_add(0x9E37_79B9_7F4A_7C15);
        let mut z = self.0;
        z = (z ^ z >> 30).wrapping_mul(0xBF58_476D_1CE4_E5B9);
        z = (z ^ z >> 27).wrapping_mul(0x94D0_49BB_1331_11EB);
        z ^ z >> 31
    }

    pub fn u32(&mut self) -> u32 {
        self.u64() as u32
    }

    pub fn byte(&mut self) -> u8 {
        self.u64() as u8
    }

    /// A number below `limit`, which is not 0.
    pub fn below(&mut self, limit: usize) -> usize {
        (self.u64() % limit as u64) as usize
    }

    /// A number from `low` to `high`, both included.
    pub fn between(&mut self, low: usize, high: usize) -> usize {
        low + self.below(high - low + 1)
    }

    /// True once in so many times.
    pub fn one_in(&mut self, times: usize) -> bool {
        self.below(times) == 0
    }

    pub fn pick<T: Copy>(&mut self, from: &[T]) -> T {
        from[self.below(from.len())]
    }

    pub fn bytes(&mut self, count: usize) -> Vec<u8> {
        (0..count).map(|_| self.byte()).collect()
    }

    pub fn shuffle<T>(&mut self, items: &mut [T]) {
        for place in (1..items.len()).rev() {
            items.swap(place, self.below(place + 1));
        }
    }

    /// A 64-bit number: small, at a border, or any.
    pub fn number(&mut self) -> u64 {
        match self.below(4) {
            0 => self.below(4) as u64,
            1 => {
                let border = 1u64 << self.pick(&[6, 7, 8, 14, 16, 21, 28, 31, 32, 35, 62, 63]);
                border.wrapping_add(self.below(3) as u64).wrapping_sub(1)
            }
            2 => self.u64() >> self.below(64),
            _ => self.pick(&[0, 1, 127, 128, 5_000, u64::MAX, u64::from(u32::MAX), i64::MAX as u64]),
        }
    }

    /// The last two bytes of a fixed header: the version and the reserved one, which are often different.
    pub fn last_two(&mut self) -> [u8; 2] {
        let any = self.byte();
        [self.pick(&[0, 1, 2, 8, 0x7F, 0x80, 0xFF, any]), self.pick(&[0, 0, 0, 1, 8, 0xFF, any, any.wrapping_add(1)])]
    }

    /// The number of a record that has the version in its low byte; often there is something above it.
    pub fn version(&mut self) -> u32 {
        let [version, above] = self.last_two().map(u32::from);
        let any = self.u32();
        self.pick(&[version, version, version | above << 8, version | any << 8, 256, 511, u32::MAX - 1])
    }

    pub fn number32(&mut self) -> u32 {
        self.number() as u32
    }
}
