//! A small deterministic generator (splitmix64). The same seed gives the same numbers everywhere, so a failing
//! case is told by its seed.

use std::ops::RangeInclusive;

use crate::calls::Stamp;

/// The generator.
#[derive(Clone, Debug)]
pub struct Rng {
    state: u64,
}

impl Rng {
    pub fn new(seed: u64) -> Self {
        Rng { state: seed }
    }

    pub fn next64(&mut self) -> u64 {
        self.state = self.state.wrapping_add(0x9E37_79B9_7F4A_7C15);
        let mut z = self.state;
        z = (z ^ (z >> 30)).wrapping_mul(0xBF58_476D_1CE4_E5B9);
        z = (z ^ (z >> 27)).wrapping_mul(0x94D0_49BB_1331_11EB);
        z ^ (z >> 31)
    }

    /// A number under `bound`; 0 if `bound` is 0.
    pub fn below(&mut self, bound: usize) -> usize {
        ((u128::from(self.next64()) * bound as u128) >> 64) as usize
    }

    /// A number in the range, both ends included. The range must not be empty.
    pub fn within(&mut self, range: RangeInclusive<usize>) -> usize {
        let (low, high) = range.into_inner();
        assert!(low <= high);
        low + self.below(high - low + 1)
    }

    /// The same for two-byte numbers.
    pub fn within16(&mut self, range: RangeInclusive<u16>) -> u16 {
        let (low, high) = range.into_inner();
        self.within(usize::from(low)..=usize::from(high)) as u16
    }

    /// True `percent` times in a hundred.
    pub fn percent(&mut self, percent: usize) -> bool {
        self.below(100) < percent
    }

    pub fn byte(&mut self) -> u8 {
        self.next64() as u8
    }

    pub fn word(&mut self) -> u16 {
        self.next64() as u16
    }

    /// One of the items, or nothing if there are none.
    pub fn pick<'a, T>(&mut self, items: &'a [T]) -> Option<&'a T> {
        items.get(self.below(items.len()))
    }

    pub fn shuffle<T>(&mut self, items: &mut [T]) {
        for last in (1..items.len()).rev() {
            items.swap(last, self.below(last + 1));
        }
    }

    pub fn fill(&mut self, bytes: &mut [u8]) {
        for chunk in bytes.chunks_mut(8) {
            let word = self.next64().to_le_bytes();
            chunk.copy_from_slice(&word[..chunk.len()]);
        }
    }

    pub fn bytes(&mut self, length: usize) -> Vec<u8> {
        let mut bytes = vec![0; length];
        self.fill(&mut bytes);
        bytes
    }

    pub fn stamp(&mut self) -> Stamp {
        Stamp::new(self.word(), self.word(), self.word())
    }
}

/// A generator with its seed. If the test fails while it is in use, it prints what was being tried and the seed.
pub struct Seeded {
    pub rng: Rng,
    pub seed: u64,
    what: &'static str,
}

impl Drop for Seeded {
    fn drop(&mut self) {
        if std::thread::panicking() {
            eprintln!("failed in {} with seed {}", self.what, self.seed);
        }
    }
}

/// A generator for each seed.
pub fn seeded(what: &'static str, seeds: impl Iterator<Item = u64>) -> impl Iterator<Item = Seeded> {
    seeds.map(move |seed| Seeded { rng: Rng::new(seed), seed, what })
}
