//! Which finite streams are extendable, that is, begin an unbounded stream that conforms: for small figures, by trying all counts. What
//! can follow a stream depends on its last counts only, fewer than the horizon, so there are few pasts; the extendable ones are the
//! greatest set of them in which each has a next one that is in the set too.
//!
//! Without ceilings a tick with the largest least or more keeps every window that it is in, so all such counts are taken for one: for the
//! top of those that are tried.

use crate::pair::Pair;
use crate::streams::verdict;
use crate::subject::PASSED;

/// A past: the last counts, fewer than the horizon. It has fewer than the horizon less one only when the stream began with it.
pub type Past = Vec<u32>;

pub struct Extensions {
    horizon: usize,
    /// Counts from 0 to this are tried. No greater one keeps the window of one tick, or all greater ones are taken for this.
    pub top: u32,
    unlimited: bool,
    /// Every past, each list of counts as a number: the short ones first.
    pasts: Vec<Past>,
    /// For each past and each count the past that follows, where the count keeps every window that ends there.
    next: Vec<Vec<Option<usize>>>,
    /// For each past whether some unbounded stream that conforms goes on after it.
    extendable: Vec<bool>,
}

/// All lists of counts from 0 to `top` with fewer than `horizon` entries, in the order in which `place` counts them.
fn all_pasts(horizon: usize, top: u32) -> Vec<Past> {
    let mut list: Vec<Past> = vec![Vec::new()];
    let mut last = list.clone();
    for _ in 1..horizon {
        last = last
            .iter()
            .flat_map(|past| (0..=top).map(|count| [past.as_slice(), &[count]].concat()))
            .collect();
        list.extend(last.iter().cloned());
    }
    list
}

/// The counts up to this must be tried.
fn top_of(pair: &Pair) -> u32 {
    if pair.unlimited() {
        pair.lower.iter().copied().max().unwrap_or(0)
    } else {
        pair.upper[0]
    }
}

/// Where a past stands among all of them: after all the shorter ones, then as a number with one digit for each count.
fn place(past: &[u32], top: u32) -> usize {
    let base = top as usize + 1;
    let shorter: usize = (0..past.len() as u32).map(|length| base.pow(length)).sum();
    shorter + past.iter().fold(0, |number, &count| number * base + count as usize)
}

impl Extensions {
    pub fn new(pair: &Pair) -> Extensions {
        Extensions::up_to(pair, top_of(pair))
    }

    /// Those of two pairs, so that they can be compared: without ceilings the same counts are tried of both.
    pub fn of_both(one: &Pair, other: &Pair) -> (Extensions, Extensions) {
        if !one.unlimited() {
            return (Extensions::new(one), Extensions::new(other));
        }
        let top = top_of(one).max(top_of(other));
        (Extensions::up_to(one, top), Extensions::up_to(other, top))
    }

    fn up_to(pair: &Pair, top: u32) -> Extensions {
        let horizon = pair.horizon();
        let pasts = all_pasts(horizon, top);
        let next = pasts
            .iter()
            .map(|past| (0..=top).map(|count| follow(pair, past, count, top)).collect())
            .collect();
        let extendable = vec![true; pasts.len()];
        let mut extensions = Extensions {
            horizon,
            top,
            unlimited: pair.unlimited(),
            pasts,
            next,
            extendable,
        };
        while extensions.drop_last_pasts() {}
        extensions
    }

    /// Takes out every past that no other follows; whether there was one.
    fn drop_last_pasts(&mut self) -> bool {
        let mut dropped = false;
        for past in 0..self.pasts.len() {
            let followed = self.next[past].iter().flatten().any(|&follower| self.extendable[follower]);
            if self.extendable[past] && !followed {
                self.extendable[past] = false;
                dropped = true;
            }
        }
        dropped
    }

    /// Whether some unbounded stream conforms: the empty one is extendable.
    pub fn any_stream(&self) -> bool {
        self.extendable[0]
    }

    /// The counts with which some unbounded stream goes on after a past.
    pub fn counts_after(&self, past: &[u32]) -> Vec<u32> {
        let followers = &self.next[place(past, self.top)];
        (0..=self.top)
            .filter(|&count| followers[count as usize].is_some_and(|follower| self.extendable[follower]))
            .collect()
    }

    /// The count that stands for a count.
    fn taken_for(&self, count: u32) -> u32 {
        if self.unlimited {
            count.min(self.top)
        } else {
            count
        }
    }

    /// The past of an extendable stream.
    pub fn past_of(&self, stream: &[u32]) -> Past {
        let last = &stream[stream.len().saturating_sub(self.horizon - 1)..];
        last.iter().map(|&count| self.taken_for(count)).collect()
    }

    /// Whether an extendable stream still is with one more count.
    pub fn goes_on(&self, stream: &[u32], count: u32) -> bool {
        self.counts_after(&self.past_of(stream)).contains(&self.taken_for(count))
    }

    /// Whether the stream begins an unbounded one that conforms.
    pub fn is_extendable(&self, stream: &[u32]) -> bool {
        self.any_stream() && (0..stream.len()).all(|end| self.goes_on(&stream[..end], stream[end]))
    }

    /// Every past that some unbounded stream has at some time.
    pub fn reached(&self) -> Vec<Past> {
        let mut found = vec![false; self.pasts.len()];
        let mut left = vec![0];
        let mut list = Vec::new();
        while let Some(past) = left.pop() {
            if !self.extendable[past] || found[past] {
                continue;
            }
            found[past] = true;
            list.push(self.pasts[past].clone());
            left.extend(self.next[past].iter().flatten());
        }
        list
    }
}

/// The past after one more count, where that keeps every window that ends there.
fn follow(pair: &Pair, past: &[u32], count: u32, top: u32) -> Option<usize> {
    let stream = [past, &[count]].concat();
    if verdict(pair, &stream) != PASSED {
        return None;
    }
    let kept = stream.len().min(pair.horizon() - 1);
    Some(place(&stream[stream.len() - kept..], top))
}
