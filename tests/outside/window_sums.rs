//! The smallest and the largest sum that each window has in a stream, by running totals: figures that a stream just keeps.

use crate::subject::LIMIT;

/// Entry d - 1 is that of the window of d ticks.
pub struct Extremes {
    pub smallest: Vec<u64>,
    pub largest: Vec<u64>,
}

/// Of the windows that end at one of the ticks from `first` up to before `last`. Where there is none, the smallest is the largest number.
pub fn extremes(stream: &[u32], first: usize, last: usize, horizon: usize) -> Extremes {
    let mut totals = vec![0];
    for (place, &count) in stream.iter().enumerate() {
        totals.push(totals[place] + u64::from(count));
    }
    let mut found = Extremes {
        smallest: vec![u64::MAX; horizon],
        largest: vec![0; horizon],
    };
    for tick in first..last {
        for window in 1..=horizon.min(tick + 1) {
            let sum = totals[tick + 1] - totals[tick + 1 - window];
            found.smallest[window - 1] = found.smallest[window - 1].min(sum);
            found.largest[window - 1] = found.largest[window - 1].max(sum);
        }
    }
    found
}

/// Sums as figures, as far as the limit.
pub fn figures(sums: &[u64]) -> Vec<u32> {
    sums.iter().map(|&sum| sum.min(u64::from(LIMIT)) as u32).collect()
}
