//! Numbers that look like chance and are the same on every machine.

/// A xorshift generator. The same seed always gives the same numbers.
#[derive(Clone, Debug)]
pub struct Chance(u64);

impl Chance {
    /// A seed of 0 would stay 0 for ever, so every seed is stirred first.
    pub fn new(seed: u64) -> Chance {
        let stirred = (seed ^ 0x9E37_79B9_7F4A_7C15).wrapping_mul(0xBF58_476D_1CE4_E5B9);
        Chance((stirred ^ stirred >> 29) | 1)
    }

    /// A generator for one purpose, so that no purpose disturbs another.
    pub fn for_purpose(seed: u64, purpose: &str) -> Chance {
        let mixed = purpose.bytes().fold(seed, |mixed, byte| {
            (mixed ^ u64::from(byte)).wrapping_mul(0x0100_0000_01B3)
        });
        Chance::new(mixed)
    }

    pub fn wide(&mut self) -> u64 {
        self.0 ^= self.0 << 13;
        self.0 ^= self.0 >> 7;
        self.0 ^= self.0 << 17;
        self.0.wrapping_mul(0x2545_F491_4F6C_DD1D)
    }

    pub fn long(&mut self) -> u32 {
        (self.wide() >> 32) as u32
    }

    pub fn byte(&mut self) -> u8 {
        (self.wide() >> 56) as u8
    }

    /// A number below the bound.
    pub fn below(&mut self, bound: u32) -> u32 {
        ((u64::from(self.long()) * u64::from(bound)) >> 32) as u32
    }

    /// True once in so many times.
    pub fn once_in(&mut self, times: u32) -> bool {
        self.below(times) == 0
    }

    pub fn pick<T: Copy>(&mut self, from: &[T]) -> T {
        from[self.below(from.len() as u32) as usize]
    }

    pub fn fill(&mut self, bytes: &mut [u8]) {
        for chunk in bytes.chunks_mut(8) {
            let eight = self.wide().to_le_bytes();
            chunk.copy_from_slice(&eight[..chunk.len()]);
        }
    }
}
