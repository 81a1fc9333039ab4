//! The fastest forms that were found, in integers: closing with the windows of one block side by side in registers and the parts outside,
//! lists on running sums without an exit in the middle, reading in one pass with no search for the ends of lines. All are inlined into
//! the builds that use them.
//!
//! A state is changed in place, and only what was opened here can be one, so that question 12 is not asked of it.

use crate::plain;
use crate::ring::{Ring, LONG};
use crate::subject::{answered, refused, ALREADY_FAILED, HEADER, LIMIT, LONGEST_HORIZON, LOST, PASSED, TOO_FEW, TOO_MANY};

/// Windows of one block.
const BLOCK: usize = 32;
/// A curve has a block's room before its entry of 1 tick and after its last one, filled so that no candidate from there is taken.
const SIZE: usize = LONGEST_HORIZON + 2 * BLOCK;
const FAR: i32 = 1 << 29;

/// What stands for a most that is missing, and for that of a window that is not named: neither is below any most.
const NO_MOST: u32 = u32::MAX - 1;
const UNNAMED: u32 = u32::MAX;

type Curve = [i32; SIZE];

/// The figure of window d stands at FIRST + d.
const FIRST: usize = BLOCK - 1;

fn curve(figures: &[u32], filler: i32) -> Curve {
    let mut curve = [filler; SIZE];
    for (entry, figure) in curve[FIRST + 1..].iter_mut().zip(figures) {
        *entry = *figure as i32;
    }
    curve
}

#[inline(always)]
fn block(curve: &Curve, start: usize) -> &[i32; BLOCK] {
    curve[start..start + BLOCK].first_chunk().unwrap_or(&[0; BLOCK])
}

/// The new figures of the windows from `d` on, one block.
#[inline(always)]
fn round_block(upper: &Curve, lower: &Curve, d: usize, horizon: usize) -> ([i32; BLOCK], [i32; BLOCK]) {
    let (mut new_upper, mut new_lower) = (*block(upper, FIRST + d), *block(lower, FIRST + d));
    // The two parts of a cut can be taken in either order, so the first need not be the longer one.
    for a in 1..=((d + BLOCK - 1) / 2).min(horizon) {
        let (part_upper, part_lower) = (upper[FIRST + a], lower[FIRST + a]);
        let (other_upper, other_lower) = (block(upper, FIRST + d - a), block(lower, FIRST + d - a));
        for place in 0..BLOCK {
            new_upper[place] = new_upper[place].min(other_upper[place] + part_upper);
            new_lower[place] = new_lower[place].max(other_lower[place] + part_lower);
        }
    }
    for t in 1..=horizon - d {
        let (part_upper, part_lower) = (upper[FIRST + t], lower[FIRST + t]);
        let (whole_upper, whole_lower) = (block(upper, FIRST + d + t), block(lower, FIRST + d + t));
        for place in 0..BLOCK {
            new_upper[place] = new_upper[place].min(whole_upper[place] - part_lower);
            new_lower[place] = new_lower[place].max(whole_lower[place] - part_upper);
        }
    }
    (new_upper, new_lower)
}

/// One round; whether it changed a figure. What is beyond the horizon keeps its filler.
#[inline(always)]
fn round(upper: &mut Curve, lower: &mut Curve, horizon: usize) -> bool {
    let (old_upper, old_lower) = (*upper, *lower);
    for d in (1..=horizon).step_by(BLOCK) {
        let (new_upper, new_lower) = round_block(&old_upper, &old_lower, d, horizon);
        let inside = BLOCK.min(horizon + 1 - d);
        upper[FIRST + d..FIRST + d + inside].copy_from_slice(&new_upper[..inside]);
        lower[FIRST + d..FIRST + d + inside].copy_from_slice(&new_lower[..inside]);
    }
    *upper != old_upper || *lower != old_lower
}

#[inline(always)]
pub fn close_core(upper: &[u32], lower: &[u32], closed_upper: &mut [u32], closed_lower: &mut [u32]) -> u64 {
    let horizon = upper.len();
    let (mut upper_curve, mut lower_curve) = (curve(upper, FAR), curve(lower, -FAR));
    let inside = FIRST + 1..FIRST + 1 + horizon;
    let mut rounds = 0;
    loop {
        if upper_curve[inside.clone()]
            .iter()
            .zip(&lower_curve[inside.clone()])
            .any(|(upper, lower)| lower > upper)
        {
            return refused(5);
        }
        if !round(&mut upper_curve, &mut lower_curve, horizon) {
            break;
        }
        rounds += 1;
    }
    closed_upper
        .iter_mut()
        .zip(&upper_curve[inside.clone()])
        .for_each(|(entry, figure)| *entry = *figure as u32);
    closed_lower
        .iter_mut()
        .zip(&lower_curve[inside])
        .for_each(|(entry, figure)| *entry = *figure as u32);
    rounds
}

/// Whether some window is outside. The sums fit: what is held keeps the closed upper curve, and the count is at most the limit.
#[inline(always)]
fn outside<const SIZE: usize>(ring: &Ring<SIZE>, upper: &[u32], lower: &[u32], count: u32) -> bool {
    let (before, latest) = ring.before();
    let next = latest.wrapping_add(count as i32);
    let mut found = false;
    for ((sum, upper), lower) in before.iter().zip(upper).zip(lower) {
        let window = next.wrapping_sub(*sum);
        found |= (window > *upper as i32) | (window < *lower as i32);
    }
    found
}

/// The smallest margin where no sum passes 32 bits.
#[inline(always)]
fn margin(ring: &Ring<LONG>, upper: &[u32], lower: &[u32], count: u32) -> i32 {
    let (before, latest) = ring.before();
    let next = latest.wrapping_add(count as i32);
    let mut smallest = i32::MAX;
    for ((sum, upper), lower) in before.iter().zip(upper).zip(lower) {
        let window = next.wrapping_sub(*sum);
        smallest = smallest.min(*upper as i32 - window).min(window - *lower as i32);
    }
    smallest
}

/// Only once in a list: which window it was, and the margin of the tick.
fn verdict_and_margin<const SIZE: usize>(ring: &Ring<SIZE>, upper: &[u32], lower: &[u32], count: u32) -> (u32, i64) {
    let (before, latest) = ring.before();
    let (mut verdict, mut smallest) = (PASSED, i64::MAX);
    for (place, sum) in before.iter().enumerate() {
        let window = i64::from(latest.wrapping_sub(*sum)) + i64::from(count);
        let (above, below) = (i64::from(upper[place]) - window, window - i64::from(lower[place]));
        smallest = smallest.min(above).min(below);
        if verdict == PASSED && above.min(below) < 0 {
            verdict = 1 + place as u32 + if above < 0 { TOO_MANY } else { TOO_FEW };
        }
    }
    (verdict, smallest)
}

pub struct Monitor {
    upper: [u32; LONGEST_HORIZON],
    lower: [u32; LONGEST_HORIZON],
    closed_upper: [u32; LONGEST_HORIZON],
    closed_lower: [u32; LONGEST_HORIZON],
    horizon: usize,
    ring: Ring<LONG>,
    failed: bool,
}

fn padded(figures: &[u32]) -> [u32; LONGEST_HORIZON] {
    let mut list = [0; LONGEST_HORIZON];
    list[..figures.len()].copy_from_slice(figures);
    list
}

/// On a pair that the questions do not refuse, with its closure.
pub fn monitor(upper: &[u32], lower: &[u32], closed_upper: &[u32], closed_lower: &[u32]) -> Monitor {
    Monitor {
        upper: padded(upper),
        lower: padded(lower),
        closed_upper: padded(closed_upper),
        closed_lower: padded(closed_lower),
        horizon: upper.len(),
        ring: Ring::new(upper.len()),
        failed: false,
    }
}

/// No closed figure is looser than the one it closes, so a tick that keeps the closed curves keeps those as given: one pass over the
/// closed ones tells what passes, and the others are looked at only once, for what the first that does not pass is called. Margins, where
/// they are asked for, take a pass of their own over those as given: the simple way, which vectorises.
#[inline(always)]
pub fn judge_core(monitor: &mut Monitor, counts: &[u32], verdicts: &mut [u32], margins: &mut [i64]) {
    let (upper, lower) = (&monitor.upper[..monitor.horizon], &monitor.lower[..monitor.horizon]);
    let closed = (&monitor.closed_upper[..monitor.horizon], &monitor.closed_lower[..monitor.horizon]);
    let ring = &mut monitor.ring;
    for (place, &count) in counts.iter().enumerate() {
        if monitor.failed {
            verdicts[place..].fill(ALREADY_FAILED);
            margins.iter_mut().skip(place).for_each(|margin| *margin = 0);
            return;
        }
        let smallest = margins.get_mut(place);
        if count > LIMIT || outside(ring, closed.0, closed.1, count) {
            let (verdict, found) = verdict_and_margin(ring, upper, lower, count);
            verdicts[place] = if verdict == PASSED { LOST } else { verdict };
            smallest.into_iter().for_each(|entry| *entry = found);
            monitor.failed = true;
            continue;
        }
        if let Some(entry) = smallest {
            *entry = i64::from(margin(ring, upper, lower, count));
        }
        ring.hold(count);
        verdicts[place] = PASSED;
    }
}

/// What passes does so by the closed curves, as above, until a count does not.
#[inline(always)]
pub fn preview_core(monitor: &Monitor, counts: &[u32]) -> (usize, u32) {
    let (upper, lower) = (&monitor.upper[..monitor.horizon], &monitor.lower[..monitor.horizon]);
    let closed = (&monitor.closed_upper[..monitor.horizon], &monitor.closed_lower[..monitor.horizon]);
    if monitor.failed && !counts.is_empty() {
        return (0, ALREADY_FAILED);
    }
    let mut ring = monitor.ring.copied();
    for (place, &count) in counts.iter().enumerate() {
        if count > LIMIT || outside(&ring, closed.0, closed.1, count) {
            let verdict = verdict_and_margin(&ring, upper, lower, count).0;
            return (place, if verdict == PASSED { LOST } else { verdict });
        }
        ring.hold(count);
    }
    (counts.len(), PASSED)
}

#[inline(always)]
fn range(ring: &Ring<LONG>, upper: &[u32], lower: &[u32]) -> (i32, i32) {
    let (before, latest) = ring.before();
    let (mut lo, mut hi) = (0, i32::MAX);
    for ((sum, upper), lower) in before.iter().zip(upper).zip(lower) {
        let earlier = latest.wrapping_sub(*sum);
        hi = hi.min(*upper as i32 - earlier);
        lo = lo.max(*lower as i32 - earlier);
    }
    (lo, hi)
}

/// A round that changes no figure.
#[inline(always)]
fn is_own_closure(upper: &[u32], lower: &[u32]) -> bool {
    let crosses = upper.iter().zip(lower).any(|(upper, lower)| lower > upper);
    !crosses && !round(&mut curve(upper, FAR), &mut curve(lower, -FAR), upper.len())
}

pub struct Generator {
    upper: [u32; LONGEST_HORIZON],
    lower: [u32; LONGEST_HORIZON],
    horizon: usize,
    ring: Ring<LONG>,
}

/// On a pair that the questions 1, 2 and 4 do not refuse.
#[inline(always)]
pub fn generator_core(upper: &[u32], lower: &[u32]) -> Option<Generator> {
    is_own_closure(upper, lower).then(|| Generator {
        upper: padded(upper),
        lower: padded(lower),
        horizon: upper.len(),
        ring: Ring::new(upper.len()),
    })
}

/// On a pair that is its own closure there always is a count to send.
#[inline(always)]
pub fn generate_core(generator: &mut Generator, choices: &[u32], counts: &mut [u32]) {
    let (upper, lower) = (&generator.upper[..generator.horizon], &generator.lower[..generator.horizon]);
    for (choice, entry) in choices.iter().zip(counts) {
        let (lo, hi) = range(&generator.ring, upper, lower);
        let count = lo as u32 + *choice % (hi - lo + 1) as u32;
        generator.ring.hold(count);
        *entry = count;
    }
}

/// A number of 1 to 5 digits with no leading zero from `place` on, and where it ends.
#[inline(always)]
fn number(text: &[u8], place: usize) -> Option<(u32, usize)> {
    let digit = |at: usize| text.get(at).map_or(10, |byte| u32::from(byte.wrapping_sub(b'0')));
    let mut value = digit(place);
    if value > 9 {
        return None;
    }
    let mut end = place + 1;
    while digit(end) <= 9 {
        value = value.wrapping_mul(10).wrapping_add(digit(end));
        end += 1;
    }
    if end - place > 5 || (end - place > 1 && text[place] == b'0') {
        return None;
    }
    Some((value, end))
}

/// The last field of a record: none where CR LF follows right away, which no number begins with.
#[inline(always)]
fn last_number(text: &[u8], place: usize) -> Option<(u32, usize)> {
    if text.get(place) == Some(&b'\r') {
        return Some((NO_MOST, place));
    }
    number(text, place)
}

/// Reads a text without faults whose records all end with CR LF; nothing where it is another.
#[inline(always)]
fn read_good(text: &[u8], upper: &mut [u32], lower: &mut [u32]) -> Option<u64> {
    let mut named_upper = [UNNAMED; LONGEST_HORIZON + 1];
    let mut named_lower = [0; LONGEST_HORIZON + 1];
    let (mut place, mut horizon, mut smallest) = (HEADER.len() + 2, 0, NO_MOST);
    if text.get(..place)? != b"window,least,most\r\n" || text.len() > 16_384 {
        return None;
    }
    while place < text.len() {
        let (window, end) = number(text, place)?;
        let (least, next) = number(text, end + 1)?;
        let (most, last) = last_number(text, next + 1)?;
        let separated = text[end] == b',' && text[next] == b',' && text.get(last..last + 2)? == b"\r\n";
        let in_range = window.wrapping_sub(1) < 256 && least < 65_536 && (most < 65_536 || most == NO_MOST);
        if !separated || !in_range || named_upper[window as usize] != UNNAMED {
            return None;
        }
        (named_upper[window as usize], named_lower[window as usize]) = (most, least);
        horizon = horizon.max(window as usize);
        smallest = smallest.min(most);
        place = last + 2;
    }
    let (upper, lower) = (upper.get_mut(..horizon)?, lower.get_mut(..horizon)?);
    lower.copy_from_slice(&named_lower[1..=horizon]);
    let unlimited = smallest == NO_MOST;
    if !unlimited {
        for (window, (entry, figure)) in (1..).zip(upper.iter_mut().zip(&named_upper[1..])) {
            *entry = if *figure >= NO_MOST { window * smallest } else { *figure };
        }
    }
    (horizon > 0).then(|| answered(horizon as u32, unlimited))
}

#[inline(always)]
pub fn read_core(text: &[u8], upper: &mut [u32], lower: &mut [u32]) -> u64 {
    read_good(text, upper, lower).unwrap_or_else(|| plain::read(text, upper, lower))
}
