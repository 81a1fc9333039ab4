//! Leasts without ceilings. Their closure is found by a search over the parts that a window can be split into, and its count of rounds by
//! rounds: each takes sums of two parts alone, all from the old leasts.
//!
//! After k rounds a least has the largest sum over all splits into 2 to the power of k parts or fewer: a split into so many parts is one
//! in two, each with half as many at most. A window of H ticks has H parts at most, so no round changes anything once that power is H.

/// The largest sum over parts, window by window, entry 0 for one tick: a first part, and the best of what is left.
pub fn over_parts(lower: &[u32]) -> Vec<u64> {
    let mut best = vec![0];
    for ticks in 1..=lower.len() {
        let with_first = |first: usize| u64::from(lower[first - 1]) + best[ticks - first];
        best.push((1..=ticks).map(with_first).max().unwrap_or(0));
    }
    best.remove(0);
    best
}

/// The same for one window, by all its splits, one after the other: each bit of a number says whether there is a cut.
pub fn over_all_splits(lower: &[u32], ticks: usize) -> u64 {
    let sum = |cuts: u32| {
        let (mut whole, mut start) = (0, 0);
        for end in 1..=ticks {
            if end == ticks || (cuts >> (end - 1)) & 1 == 1 {
                whole += u64::from(lower[end - start - 1]);
                start = end;
            }
        }
        whole
    };
    (0..1 << (ticks - 1)).map(sum).max().unwrap_or(0)
}

pub struct Stop {
    pub lower: Vec<u64>,
    /// How many rounds changed a least.
    pub rounds: u32,
}

fn round(old: &[u64]) -> Vec<u64> {
    let new = |place: usize| {
        (0..place)
            .map(|first| old[first] + old[place - 1 - first])
            .fold(old[place], u64::max)
    };
    (0..old.len()).map(new).collect()
}

pub fn run(lower: &[u32]) -> Stop {
    let mut lower: Vec<u64> = lower.iter().map(|&least| u64::from(least)).collect();
    let mut rounds = 0;
    loop {
        let next = round(&lower);
        if next == lower {
            return Stop { lower, rounds };
        }
        lower = next;
        rounds += 1;
    }
}

/// Whether no least is below the sum of those of two parts of its window.
pub fn keeps_parts(lower: &[u32]) -> bool {
    let least = |ticks: usize| u64::from(lower[ticks - 1]);
    (1..lower.len()).all(|a| (1..=lower.len() - a).all(|b| least(a) + least(b) <= least(a + b)))
}
