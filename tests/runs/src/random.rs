//! Numbers that look random and come again from the same seed.

use std::sync::atomic::{AtomicU64, Ordering};

/// The seed of the newest source, for a run that breaks off.
static SEED: AtomicU64 = AtomicU64::new(0);

/// Lets a run that breaks off say its seed.
pub fn tell_seed() {
    let tell = std::panic::take_hook();
    std::panic::set_hook(Box::new(move |why| {
        eprintln!("seed {}:", SEED.load(Ordering::Relaxed));
        tell(why);
    }));
}

/// Mixes the bits of a number; no two numbers become one.
fn mixed(number: u64) -> u64 {
    let mut z = number;
    z = (z ^ (z >> 30)).wrapping_mul(0xbf58_476d_1ce4_e5b9);
    z = (z ^ (z >> 27)).wrapping_mul(0x94d0_49bb_1331_11eb);
    z ^ (z >> 31)
}

/// A source of numbers, fixed by its seed.
pub struct Random(u64);

impl Random {
    /// The source of a seed. It starts at the mixed seed: from a multiple of the step the numbers of one seed would be
    /// those of the next, one place later.
    pub fn new(seed: u64) -> Random {
        SEED.store(seed, Ordering::Relaxed);
        Random(mixed(seed))
    }

    /// The next number, any of 64 bits (the generator splitmix64).
    pub fn number(&mut self) -> u64 {
        self.0 = self.0.wrapping_add(0x9e37_79b9_7f4a_7c15);
        mixed(self.0)
    }

    /// A number below `n`, which is not 0.
    pub fn below(&mut self, n: u64) -> u64 {
        self.number() % n
    }

    /// A place of a list that has `n` elements, which is not 0.
    pub fn place(&mut self, n: usize) -> usize {
        self.below(n as u64) as usize
    }

    /// A number from `least` to `most`, both included.
    pub fn between(&mut self, least: u64, most: u64) -> u64 {
        least + self.below(most - least + 1)
    }

    /// True once in `n` times.
    pub fn one_in(&mut self, n: u64) -> bool {
        self.below(n) == 0
    }

    /// One element of a list that is not empty.
    pub fn pick<T: Copy>(&mut self, list: &[T]) -> T {
        list[self.place(list.len())]
    }
}

#[cfg(test)]
mod tests {
    use super::*;
    use std::collections::BTreeSet;

    #[test]
    fn seeds_share_no_numbers() {
        let mut sources: Vec<Random> = (0..100).map(Random::new).collect();
        let all: BTreeSet<u64> = sources
            .iter_mut()
            .flat_map(|source| (0..1000).map(|_| source.number()).collect::<Vec<u64>>())
            .collect();
        assert_eq!(all.len(), 100 * 1000);
    }
}
