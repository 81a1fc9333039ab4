//! Pseudo-random numbers, the same in every run with the same seed (splitmix64).

pub struct Rng {
    state: u64,
}

fn mixed(number: u64) -> u64 {
    let a = (number ^ (number >> 30)).wrapping_mul(0xbf58_476d_1ce4_e5b9);
    let b = (a ^ (a >> 27)).wrapping_mul(0x94d0_49bb_1331_11eb);
    b ^ (b >> 31)
}

impl Rng {
    /// Each comparison and each chunk of its cases has numbers of its own, so that no case depends on which thread runs it.
    pub fn new(seed: u64, comparison: u64, chunk: u64) -> Rng {
        Rng {
            state: mixed(mixed(mixed(seed) ^ comparison) ^ chunk),
        }
    }

    pub fn number(&mut self) -> u64 {
        self.state = self.state.wrapping_add(0x9e37_79b9_7f4a_7c15);
        mixed(self.state)
    }

    pub fn any(&mut self) -> u32 {
        (self.number() >> 32) as u32
    }

    /// From 0 to `end` - 1. The slight bias towards small numbers does not matter here.
    pub fn below(&mut self, end: u32) -> u32 {
        self.any() % end
    }

    pub fn between(&mut self, first: u32, last: u32) -> u32 {
        first + self.below(last - first + 1)
    }

    pub fn length(&mut self, first: usize, last: usize) -> usize {
        self.between(first as u32, last as u32) as usize
    }

    pub fn one_in(&mut self, times: u32) -> bool {
        self.below(times) == 0
    }

    pub fn pick<T: Copy>(&mut self, list: &[T]) -> T {
        list[self.below(list.len() as u32) as usize]
    }

    /// Entries that a result list may hold before a call: anything.
    pub fn arbitrary(&mut self, length: usize) -> Vec<u32> {
        (0..length).map(|_| self.any()).collect()
    }
}
