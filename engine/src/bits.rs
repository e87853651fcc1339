//! Pseudo-random numbers for tests and measuring; a seed always gives the same
//! ones.

/// A source of pseudo-random numbers: xorshift on 64 bits.
#[derive(Clone, Debug)]
pub struct Bits(u64);

impl Bits {
    /// The numbers of a seed.
    pub fn new(seed: u64) -> Bits {
        Bits(seed.wrapping_mul(0x9E37_79B9_7F4A_7C15) | 1)
    }

    /// The upper half of the next 64 bits.
    pub fn next_bits(&mut self) -> u32 {
        self.0 ^= self.0 << 13;
        self.0 ^= self.0 >> 7;
        self.0 ^= self.0 << 17;
        (self.0 >> 32) as u32
    }

    /// A number below a limit.
    pub fn below(&mut self, limit: u32) -> u32 {
        self.next_bits() % limit
    }
}
