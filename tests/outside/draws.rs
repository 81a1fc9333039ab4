//! Numbers, counts and sizes, drawn as the program `limits` draws them.

use crate::subject::{LIMIT, LONGEST_HORIZON};

fn scramble(x: u64) -> u64 {
    let a = x ^ (x << 13);
    let b = a ^ (a >> 7);
    b ^ (b << 17)
}

/// The k-th number of a case, below `end`.
pub fn draw(case: u64, k: u64, end: u64) -> u64 {
    scramble(scramble(scramble(case ^ (k << 20) ^ 88_172_645_463_325_252))) % end
}

/// One of `times` states has figures at the limit and above it among the others, the rest hardly any. Of figures without an effect three
/// in four are such.
pub fn draw_odd(case: u64, k: u64, times: u64, in_effect: bool) -> u64 {
    if !in_effect {
        4
    } else if draw(case, k, times) == 0 {
        24
    } else {
        1_000_000
    }
}

pub fn draw_count(case: u64, k: u64, odd: u64, end: u64) -> u32 {
    match draw(case, k, odd) {
        0 => LIMIT,
        1 => LIMIT + 1,
        2 => u32::MAX,
        _ => draw(case, k ^ 8_192, end) as u32,
    }
}

pub fn draw_counts(case: u64, k: u64, odd: u64, end: u64) -> Vec<u32> {
    (0..LONGEST_HORIZON as u64).map(|i| draw_count(case, k ^ i, odd, end)).collect()
}

pub fn draw_size(case: u64, k: u64, end: u64) -> u64 {
    match draw(case, k, 24) {
        0 => LONGEST_HORIZON as u64,
        1 => LONGEST_HORIZON as u64 + 1,
        2 => u64::MAX,
        _ => draw(case, k ^ 1, end),
    }
}
