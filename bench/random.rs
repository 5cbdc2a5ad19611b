//! Random numbers in plain Rust, shared by the benchmarks: those of the proved program.

pub struct Random {
    state: u64,
}

impl Random {
    pub fn new() -> Random {
        Random { state: 1 }
    }

    pub fn below(&mut self, limit: u32) -> u32 {
        let state = self.state.wrapping_mul(6_364_136_223_846_793_005);
        self.state = state.wrapping_add(1_442_695_040_888_963_407);
        (self.state >> 33) as u32 % limit
    }

    /// A number with so many ones.
    pub fn error(&mut self, ones: u32) -> u32 {
        let mut error = 0;
        for last in 32 - ones..32 {
            let bit = 1u32 << self.below(last + 1);
            error |= if error & bit == 0 { bit } else { 1u32 << last };
        }
        error
    }
}
