//! Closing without rounds: by shortest paths; whether there is a closure, by comparing rates; and whether a pair is its own closure, by
//! comparing each window with its two parts.
//!
//! Let x(n) be the sum of the counts before tick n. A ceiling means x(p + d) - x(p) <= U(d), an edge from p to p + d of cost U(d).
//! A least means x(p) - x(p + d) <= -L(d), an edge back of cost -L(d). The bound that all of them together put on x(q) - x(p) is the
//! cost of the cheapest walk from p to q on the whole line of ticks.
//!
//! The cost of a step does not depend on where it is taken, so a walk is a collection of steps in any order, and its end is their sum.
//!
//! Why the rounds arrive at the cheapest walks: each candidate of a round is the cost of some walk, so no figure gets below its cheapest
//! walk. And at figures that no round changes and that do not cross, two steps of a walk can be made one without a greater cost: steps
//! up a and down b are one candidate for the figure of |a - b| (with a = b: the figures do not cross); where all steps go one way,
//! their sums up to the end are at most the horizon, and two of them are one candidate for the sum. So no walk to d costs less than the
//! figure of d. Where some closed walk is negative, the same merging shows that no uncrossed figures stay as they are: refused.
//!
//! Why the places 0 to 2H are enough, and 0 to H are not: from the middle place H, take the steps of a walk in an order that stays
//! inside. While there are steps of both ways left, one fits: up a past the end 2H and down b before 0 would need a + b > 2H. Once only
//! one way is left, the places go straight to the end, which is at most H from the middle. On the places 0 to H alone the walk may
//! not fit: at H = 6 with a ceiling of 4 for 5 ticks, a least of 5 for 6 ticks and no other bound that matters, six windows of 5 and
//! five of 6 make a cycle of cost 24 - 25, but after 1, 6, 0, 5 no step fits in 0 to 6.

/// More than any walk without a cycle costs.
const FAR: i64 = i64::MAX / 4;

/// The cheapest walks from the middle place, or nothing where there is a negative cycle.
fn distances(upper: &[u32], lower: &[u32]) -> Option<Vec<i64>> {
    let horizon = upper.len();
    let places = 2 * horizon + 1;
    let mut distance = vec![FAR; places];
    distance[horizon] = 0;
    // A cheapest walk without a cycle has fewer steps than there are places; each pass settles one more step of it at least.
    for _ in 0..places {
        if !relax(upper, lower, &mut distance) {
            return Some(distance);
        }
    }
    None
}

/// One pass over all steps; whether it made any walk cheaper.
fn relax(upper: &[u32], lower: &[u32], distance: &mut [i64]) -> bool {
    let mut changed = false;
    for from in 0..distance.len() {
        for d in 1..=upper.len().min(distance.len() - 1 - from) {
            let to = from + d;
            let up = distance[from] + i64::from(upper[d - 1]);
            if up < distance[to] {
                distance[to] = up;
                changed = true;
            }
            let down = distance[to] - i64::from(lower[d - 1]);
            if down < distance[from] {
                distance[from] = down;
                changed = true;
            }
        }
    }
    changed
}

/// The closure's upper and lower curve, or nothing where there is none.
pub fn close(upper: &[u32], lower: &[u32]) -> Option<(Vec<u32>, Vec<u32>)> {
    let horizon = upper.len();
    let distance = distances(upper, lower)?;
    let closed_upper = (1..=horizon).map(|d| distance[horizon + d] as u32).collect();
    let closed_lower = (1..=horizon).map(|d| (-distance[horizon - d]) as u32).collect();
    Some((closed_upper, closed_lower))
}

/// Whether some window a asks for more a tick than some window b allows. Then a times b ticks cannot be filled. Where there is no such
/// two, the smallest rate U(b) / b, spread as evenly as whole counts can be, keeps every figure: so this alone decides.
pub fn rates_conflict(upper: &[u32], lower: &[u32]) -> bool {
    let asks_more = |a: usize, b: usize| (a as u64) * u64::from(upper[b - 1]) < (b as u64) * u64::from(lower[a - 1]);
    (1..=lower.len()).any(|a| (1..=upper.len()).any(|b| asks_more(a, b)))
}

/// Whether a pair is its own closure: no step of a walk costs more than some two that end where it does, and no least is above its ceiling.
/// With d = a + b that is a chain: L a + L b <= L d <= L a + U b <= U d <= U a + U b. Where it holds, a round finds nothing better.
pub fn keeps_parts(upper: &[u32], lower: &[u32]) -> bool {
    let horizon = upper.len();
    let (up, low) = (|d: usize| u64::from(upper[d - 1]), |d: usize| u64::from(lower[d - 1]));
    let in_order = |a: usize, b: usize| {
        let chain = [low(a) + low(b), low(a + b), low(a) + up(b), up(a + b), up(a) + up(b)];
        chain.windows(2).all(|pair| pair[0] <= pair[1])
    };
    let parts_keep = (1..horizon).all(|a| (1..=horizon - a).all(|b| in_order(a, b)));
    parts_keep && (1..=horizon).all(|d| low(d) <= up(d))
}
