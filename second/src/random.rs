//! A small seeded generator of random numbers (splitmix64), so that a seed
//! and an index give the same case everywhere and at all times.

use std::time::{SystemTime, UNIX_EPOCH};

pub struct Random {
    state: u64,
}

impl Random {
    /// The generator of one case: each has its own, whatever ran before it.
    pub fn of_case(seed: u64, phase: u64, index: u64) -> Random {
        let mut random = Random { state: seed };
        for part in [phase, index] {
            random.state = random.word() ^ part;
        }
        random
    }

    pub fn word(&mut self) -> u64 {
        self.state = self.state.wrapping_add(0x9E37_79B9_7F4A_7C15);
        let mixed = (self.state ^ (self.state >> 30)).wrapping_mul(0xBF58_476D_1CE4_E5B9);
        let mixed = (mixed ^ (mixed >> 27)).wrapping_mul(0x94D0_49BB_1331_11EB);
        mixed ^ (mixed >> 31)
    }

    /// A number from 0 up to, not including, `end`; 0 if `end` is 0.
    pub fn below(&mut self, end: usize) -> usize {
        if end == 0 {
            return 0;
        }
        ((u128::from(self.word()) * end as u128) >> 64) as usize
    }

    /// A number from `low` to `high`, both included; `low` if none is.
    pub fn between(&mut self, low: usize, high: usize) -> usize {
        low + self.below((high + 1).saturating_sub(low))
    }

    /// True once in `times`.
    pub fn one_in(&mut self, times: usize) -> bool {
        self.below(times) == 0
    }

    pub fn byte(&mut self) -> u8 {
        self.word() as u8
    }

    pub fn bytes(&mut self, count: usize) -> Vec<u8> {
        (0..count).map(|_| self.byte()).collect()
    }

    /// So many bytes that their count lies between `low` and `high`.
    pub fn some_bytes(&mut self, low: usize, high: usize) -> Vec<u8> {
        let count = self.between(low, high);
        self.bytes(count)
    }

    /// A number of at most `bits` bits, each length equally often.
    pub fn of_bits(&mut self, bits: usize) -> u64 {
        match self.between(0, bits.min(64)) {
            0 => 0,
            length => self.word() >> (64 - length),
        }
    }

    /// A number near 0 on both sides, at most `far` away.
    pub fn near(&mut self, far: usize) -> i64 {
        self.between(0, 2 * far) as i64 - far as i64
    }

    /// One of a list that is not empty.
    pub fn choose<'a, T>(&mut self, list: &'a [T]) -> &'a T {
        &list[self.below(list.len())]
    }
}

/// A seed that no earlier run has had.
pub fn fresh_seed() -> u64 {
    let time = SystemTime::now().duration_since(UNIX_EPOCH);
    let nanos = time.map_or(0, |time| time.as_nanos() as u64);
    let mut random = Random { state: nanos ^ (u64::from(std::process::id()) << 40) };
    random.word() >> 16
}
