//! Sums of all windows at once: the counts so far are kept as their running sums, the latest first, so the sum of a window is a
//! difference of two, and those of all windows lie side by side.

use crate::subject::LONGEST_HORIZON;

/// So many sums there is room for. What the longest horizon does not take is how many are added before the last ones have to be copied back
/// to the end.
pub const LONG: usize = 2_048 + LONGEST_HORIZON;
/// A small one, for lists that are tried: it is made for each.
pub const SHORT: usize = 2 * LONGEST_HORIZON;

pub struct Ring<const SIZE: usize> {
    sums: [i32; SIZE],
    /// Where the latest sum stands; those before it follow.
    latest: usize,
    held: usize,
    horizon: usize,
}

impl<const SIZE: usize> Ring<SIZE> {
    const ROOM: usize = SIZE - LONGEST_HORIZON;

    pub fn new(horizon: usize) -> Ring<SIZE> {
        Ring {
            sums: [0; SIZE],
            latest: Self::ROOM,
            held: 0,
            horizon,
        }
    }

    /// The sums that are held, in a small ring.
    pub fn copied(&self) -> Ring<SHORT> {
        let mut ring = Ring::new(self.horizon);
        let sums = &self.sums[self.latest..self.latest + self.held + 1];
        ring.sums[Ring::<SHORT>::ROOM..][..sums.len()].copy_from_slice(sums);
        ring.held = self.held;
        ring
    }

    /// For each window that ends with the next tick, the running sum before it; and the latest.
    #[inline(always)]
    pub fn before(&self) -> (&[i32], i32) {
        (&self.sums[self.latest..self.latest + self.held + 1], self.sums[self.latest])
    }

    /// Running sums may pass what 32 bits hold; their differences do not, since what is held keeps the upper curve.
    #[inline(always)]
    pub fn hold(&mut self, count: u32) {
        let next = self.sums[self.latest].wrapping_add(count as i32);
        if self.latest == 0 {
            self.sums.copy_within(..LONGEST_HORIZON, Self::ROOM);
            self.latest = Self::ROOM;
        }
        self.latest -= 1;
        self.sums[self.latest] = next;
        self.held = (self.held + 1).min(self.horizon - 1);
    }
}
