//! What the comparisons share: a source of random numbers, and a count of what was compared.
#![allow(dead_code)] // each program uses a part of it

/// SplitMix64, for the choice of calls and for noise.
pub struct Random(pub u64);
impl Random {
    pub fn next(&mut self) -> u64 {
        self.0 = self.0.wrapping_add(0x9E37_79B9_7F4A_7C15);
        let z = (self.0 ^ (self.0 >> 30)).wrapping_mul(0xBF58_476D_1CE4_E5B9);
        let z = (z ^ (z >> 27)).wrapping_mul(0x94D0_49BB_1331_11EB);
        z ^ (z >> 31)
    }
    pub fn below(&mut self, n: u64) -> u64 {
        (u128::from(self.next()) * u128::from(n) >> 64) as u64
    }
    pub fn of(&mut self, choices: &[u64]) -> u64 {
        choices[self.below(choices.len() as u64) as usize]
    }
    pub fn bytes(&mut self, n: usize) -> Vec<u8> {
        (0..n).map(|_| self.next() as u8).collect()
    }
}

/// What was compared, and what differed.
#[derive(Default)]
pub struct Count {
    pub fills: u64,
    pub elements: u64,
    pub refused: u64,
    pub others: u64,
    pub differences: u64,
}
impl Count {
    pub fn differ(&mut self, what: String) {
        self.differences += 1;
        if self.differences <= 5 {
            println!("  DIFFERENCE: {what}");
        }
    }
    pub fn same<T: PartialEq + std::fmt::Debug>(&mut self, what: &str, ours: T, expected: T) {
        if ours != expected {
            self.differ(format!("{what}: {ours:?} and not {expected:?}"));
        }
    }
    pub fn report(&self, name: &str) -> u64 {
        println!(
            "  {name}: {} fills, {} elements compared, {} calls refused, {} other calls, {} differences",
            self.fills, self.elements, self.refused, self.others, self.differences
        );
        self.differences
    }
}
