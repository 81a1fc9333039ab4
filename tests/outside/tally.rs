//! How often each answer came up. A kind of answer that can come up and never did is a fault of the comparisons.

use std::collections::BTreeMap;

#[derive(Default)]
pub struct Tally {
    seen: BTreeMap<(&'static str, u32), u64>,
}

pub const CLOSING: &str = "closing refused with";
pub const ROUNDS: &str = "closing gave a closure, rounds";
pub const TWO_FAULTS: &str = "closing with two faults, both numbers";
pub const READING: &str = "reading refused with";
pub const HORIZON: &str = "reading gave a pair, horizon";
pub const FIRST_FAULT: &str = "reading, the first fault and another later";
pub const ONE_RECORD: &str = "reading, two faults in one record";
pub const MOSTS: &str = "a text's records have a most (0 none, 1 some, 2 all)";
pub const UNLIMITED_HORIZON: &str = "reading gave a pair without ceilings, horizon";
pub const UNLIMITED_READING: &str = "reading records without a most refused with";
pub const UNLIMITED_REPORT: &str = "report of records without a most (0: curves)";
pub const PROGRAM_MOSTS: &str = "program, records have a most (0 none, 1 some, 2 all)";
pub const UNLIMITED_CLOSING: &str = "closing without ceilings refused with";
pub const UNLIMITED_ROUNDS: &str = "closing without ceilings, rounds";
pub const UNLIMITED_FAULTS: &str = "closing without ceilings, two faults, both numbers";
pub const UNLIMITED_AT: &str = "closing without ceilings, largest least at a limit";
pub const UNLIMITED_CEILINGS: &str = "in their place (10 above the limit, 1 below leasts)";
pub const UNLIMITED_AGAIN: &str = "closing a closure without ceilings (0, or 4)";
pub const UNLIMITED_MONITOR: &str = "opening a monitor without ceilings (0: opened)";
pub const UNLIMITED_VERDICT: &str = "verdicts without ceilings (0 passed, 2 few, 3 failed)";
pub const UNLIMITED_FEW: &str = "too few without ceilings, window";
pub const UNLIMITED_OVER: &str = "a count above 16,776,960 without ceilings (0 passed)";
pub const UNLIMITED_ON_CLOSURE: &str = "a monitor on the closure (0: opened, 4: over)";
pub const UNLIMITED_GENERATOR: &str = "opening a generator without ceilings (0: opened)";
pub const UNLIMITED_OPENING: &str = "opening without ceilings, two faults";
pub const UNLIMITED_OPEN_AT: &str = "opening without ceilings, largest least at a limit";
pub const UNLIMITED_SENT: &str = "sent without ceilings (0: lo, 1: hi, 2: between)";
pub const UNLIMITED_LO: &str = "without ceilings, the window that settled lo";
pub const UNLIMITED_BUILT: &str = "states without ceilings (0, 2, 3 verdicts, 12 refused)";
pub const UNLIMITED_BUILT_SENT: &str = "generators without ceilings by hand (0 sent, 12)";
pub const UNLIMITED_NO_EFFECT: &str = "no effect (0 limit, 1 verdict; 2, 3 the same, closed)";
pub const UNLIMITED_LARGEST: &str = "without ceilings, the largest count held (0 passed)";
pub const UNLIMITED_MARGIN: &str = "margins without ceilings (0 negative, 1 zero, 2 more)";
pub const UNLIMITED_RUN: &str = "runs without ceilings (0 opened)";
pub const UNLIMITED_RUN_TICK: &str = "ticks of runs without ceilings (verdicts)";
pub const SHORT: &str = "reading into an empty list refused with";
pub const REPORT: &str = "report refused with (0: curves)";
pub const ROOM: &str = "report into a list (0 short, 1 exact, 2 longer)";
pub const PROGRAM: &str = "program refused with (0: curves)";
pub const MONITOR: &str = "opening a monitor refused with (0: opened)";
pub const GENERATOR: &str = "opening a generator refused with (0: opened)";
pub const OPENING: &str = "opening with two faults, both numbers";
pub const VERDICT: &str = "verdicts (0 passed, 1 many, 2 few, 3 failed, 4 lost)";
pub const MANY: &str = "too many, window";
pub const FEW: &str = "too few, window";
pub const FAILED: &str = "rejected (0: in 10 ticks, 1: 100, 2: 300, 3: later)";
pub const BOTH: &str = "too many and too few at once, 1 in one window";
pub const REJECTED: &str = "many or few, closed broken too (0 there, 1 shorter)";
pub const LOST_FIRST: &str = "lost at the first tick, horizon up to";
pub const LOST_BETWEEN: &str = "lost between first and last, horizon up to";
pub const LOST_LAST: &str = "lost at tick H - 2, none is later, horizon up to";
pub const LOST_WINDOW: &str = "lost, the shortest window outside the closed figures";
pub const LOST_BY: &str = "lost, and by its closed figures (1 many, 2 few)";
pub const BUILT: &str = "states by hand (0 to 4 verdicts, 12 refused)";
pub const BUILT_TWELVE: &str = "12 for (0 sizes, 1 given figures, 2 closed ones alone)";
pub const BUILT_REJECTED: &str = "many or few by hand (0 closed kept, 1 broken too)";
pub const BUILT_LOOSER: &str = "looser closed figures by hand (0 passed, 4 lost)";
pub const BUILT_SENT: &str = "generators by hand (0 sent, 12 or 13 refused)";
pub const BUILT_MARGIN: &str = "margins by hand (0 negative, 1 zero, 2 positive)";
pub const RUN: &str = "runs of limits (0 opened, 5 refused)";
pub const RUN_TICK: &str = "ticks of runs (0 to 4 verdicts, 12 refused)";
pub const RUN_MARGIN: &str = "margins in runs (0 negative, 1 zero, 2 positive)";
pub const MARGIN_WINDOW: &str = "a margin's window";
pub const MARGIN_BY: &str = "a margin, by (1 the ceiling, 2 the least, 3 both)";
pub const MARGIN_SHARED: &str = "a margin, had by (1 one window, 2 more)";
pub const MARGIN_REJECTED: &str = "many or few, margin (0 in that window, 1 in a longer)";
pub const MARGIN_LOST: &str = "lost, margin (1 zero, 2 positive)";
pub const MARGIN_CROSSING: &str = "margin of crossing figures, outside (1 way, 2 ways)";
pub const MARGIN_CLOSED: &str = "closed figures' margin (0 smaller, 1 equal, 2 larger)";
pub const MARGIN_PAST: &str = "past a margin outside (0 not, 1 more, 2 fewer, 3 both)";
pub const AT_LIMIT: &str = "opening a generator, a figure at the limit (0, 15)";
pub const NOT_OWN: &str = "15 (1 ceilings, 2 leasts, 3 both, 4 crossing, 5 none)";
pub const NOT_OWN_ROUNDS: &str = "15, and closing takes so many rounds";
pub const LOOSE_UPPER: &str = "15 for one ceiling alone, window";
pub const LOOSE_LOWER: &str = "15 for one least alone, window";
pub const SENT: &str = "a generator opened and sent, horizon up to";
pub const LO: &str = "generator, the window that settled lo (0: none)";
pub const EXTENDABLE: &str = "a pair has extendable streams (0 none, 1 some)";
pub const OPENED: &str = "opening a generator, by search (0 opened, 15 not)";
pub const START: &str = "a start (0 not extendable, 1 extendable)";
pub const JUDGED: &str = "a stream, by search (0 passed, 1 many, 2 few, 4 lost)";
pub const EQUAL: &str = "two closures (0 differ, 1 equal)";
pub const MONITOR_WORDS_OPENED: &str = "opening a monitor's words (0: opened)";
pub const GENERATOR_WORDS_OPENED: &str = "opening a generator's words (0: opened)";
pub const CUT: &str = "lists (0 whole, 1 pieces, 2 ticks, 3 without margins)";
pub const PIECE: &str = "room of a piece (0 none, 1 less, 2 as due, 3 more, 4 empty)";
pub const MARGINS_ROOM: &str = "room for margins (0 none, 1 less, 2 as due, 3 more)";
pub const SEAM: &str = "a seam (0 none held, 1 some; 2, 3 the same, failed)";
pub const BUILT_RUN: &str = "runs on words by hand (0 ran, 12 refused)";
pub const BUILT_WHY: &str = "12 for (length, sizes 1 to 3, figures 4, 5; 10 more: empty)";
pub const BUILT_TAKEN: &str = "taken (past H 0, 1; no ceilings 2, 3; marks 4, 5; bits 6)";
pub const MONITOR_LENGTH: &str = "12 for a monitor's words of this number";
pub const GENERATOR_LENGTH: &str = "12 for a generator's words of this number";
pub const BUILT_VERDICT: &str = "the first tick on words by hand (0 to 4 verdicts)";
pub const BUILT_LATER: &str = "later ticks on words by hand (0 to 4 verdicts)";
pub const BUILT_BOTH: &str = "words by hand, many and few at once, 1 in one window";
pub const BUILT_COUNT: &str = "sent by hand (0 a count, 1 none; later 2, 3, 4 none again)";
pub const BUILT_LOOK: &str = "looks at words by hand (0 a range, 12 or 13 refused)";
pub const PREVIEW_BUILT: &str = "previews by hand (0 to 4; 10, 11 of none; 20, 30: 12)";
pub const PREVIEW_PLACE: &str = "previews of long lists, the place that is rejected";
pub const RENDERED: &str = "rendering refused with (0: a text)";
pub const RENDER_ROOM: &str = "rendered into a list (0 short, 1 exact, 2 longer)";
pub const LONG_MANY: &str = "too many after thousands of ticks, window";
pub const LONG_FEW: &str = "too few after thousands of ticks, window";
pub const LONG_LOST: &str = "lost after thousands of ticks, window";
pub const LONG_UNLIMITED: &str = "too few after thousands without ceilings, window";
pub const LONG_AFTER: &str = "ticks after the rejected one of a long list";
pub const LONG_PLACE: &str = "it is, where two are taken (0 first, 1 second, 2 alone)";
pub const LONG_TOTAL: &str = "a long list's counts (0 below 2^32, 1 above)";
pub const LONG_SENT: &str = "thousands of ticks sent, horizon up to";
pub const BORDER_COUNT: &str = "a count amid a list";
pub const BORDER_HELD: &str = "held at a power of two (0 less, 1 as much, 2 more)";
pub const BORDER_LIST: &str = "counted at a power of two (0 less, 1 as much, 2 more)";
pub const BORDER_FEW: &str = "too few after such sums, window (0: passed)";
pub const BORDER_SENT: &str = "sent at a power of two (0 less, 1 as much, 2 more)";
pub const BORDER_SENT_AFTER: &str = "sent after holding such sums";

const SOME_WINDOWS: &[u32] = &[1, 2, 3, 4, 8, 12, 256];
/// Horizons by kind, each up to one of these.
const HORIZONS: &[u32] = &[1, 2, 3, 4, 8, 12, 64, 255, 256];

/// Windows that long lists must break.
const LONG_WINDOWS: &[u32] = &[1, 16, 255, 256];

/// Places at the beginning of a list, and about the ends of pieces of 1,024 counts: so many at a time the product tries.
pub const SEAMS: [u32; 10] = [0, 1, 1_022, 1_023, 1_024, 1_025, 2_047, 2_048, 2_049, 3_072];

/// How many ticks come after the one that is rejected: none, few, and about one and two times 64.
pub const AFTER_REJECTION: [u32; 7] = [0, 3, 62, 63, 64, 65, 130];
/// The powers of two from 29 to 32, each with one less, as much and one more.
const POWERS: &[u32] = &[290, 291, 292, 300, 301, 302, 310, 311, 312, 320, 321, 322];

/// The kind of a horizon.
pub fn horizon_end(horizon: usize) -> u32 {
    HORIZONS.iter().find(|&&end| horizon <= end as usize).map_or(0, |&end| end)
}

/// What must be seen in a whole run.
const DUE: &[(&str, &[u32])] = &[
    (CLOSING, &[1, 2, 3, 4, 5]),
    (ROUNDS, &[0, 1, 2, 3, 4, 5, 6, 7, 8, 9]),
    (TWO_FAULTS, &[12, 13, 14, 15, 23, 24, 25, 34, 35, 45]),
    (READING, &[6, 7, 8, 9, 10, 11]),
    (HORIZON, &[1, 2, 3, 255, 256]),
    (FIRST_FAULT, &[67, 68, 69, 78, 79, 87, 89, 97, 98]),
    (ONE_RECORD, &[78, 79, 89]),
    (SHORT, &[6, 7, 8, 9, 10, 11]),
    (REPORT, &[0, 5, 6, 7, 8, 9, 10]),
    (ROOM, &[0, 1, 2]),
    (PROGRAM, &[0, 5, 6, 7, 8, 9, 10]),
    (MONITOR, &[0, 1, 2, 4, 5]),
    (GENERATOR, &[0, 1, 2, 4, 15]),
    (OPENING, &[102, 104, 105, 115, 204, 205, 215, 405, 415]),
    (VERDICT, &[0, 1, 2, 3, 4]),
    (MANY, SOME_WINDOWS),
    (FEW, SOME_WINDOWS),
    (FAILED, &[0, 1, 2, 3]),
    (REJECTED, &[0, 1]),
    // With one window every pair that has a closure is its own, so nothing is lost.
    (LOST_FIRST, &[2, 3, 4, 8, 12, 64, 255, 256]),
    (LOST_BETWEEN, &[4, 8, 12, 64, 255, 256]),
    (LOST_LAST, &[3, 4, 8, 12, 64, 255, 256]),
    (LOST_WINDOW, &[1, 2, 3, 4, 8, 11, 255]),
    (LOST_BY, &[1, 2]),
    (BUILT, &[0, 1, 2, 3, 4, 12]),
    (BUILT_TWELVE, &[0, 1, 2]),
    (BUILT_REJECTED, &[0, 1]),
    (BUILT_LOOSER, &[0, 4]),
    (BOTH, &[0, 1]),
    (BUILT_SENT, &[0, 12, 13]),
    (BUILT_MARGIN, &[0, 1, 2]),
    (RUN, &[0, 5]),
    (RUN_TICK, &[0, 1, 2, 3, 4, 12]),
    (RUN_MARGIN, &[0, 1, 2]),
    (MARGIN_WINDOW, &[1, 2, 3, 4, 5, 6, 7, 8, 256]),
    (MARGIN_BY, &[1, 2, 3]),
    (MARGIN_SHARED, &[1, 2]),
    (MARGIN_REJECTED, &[0, 1]),
    (MARGIN_LOST, &[1, 2]),
    (MARGIN_CROSSING, &[1, 2]),
    (MARGIN_CLOSED, &[0, 1, 2]),
    (MARGIN_PAST, &[0, 1, 2, 3]),
    (AT_LIMIT, &[0, 15]),
    (NOT_OWN, &[1, 2, 3, 4, 5]),
    (NOT_OWN_ROUNDS, &[1, 2, 3, 4, 5]),
    // Those of a horizon of 256 are tried one after the other (`known_streams`).
    (LOOSE_UPPER, &[1, 2, 3, 4, 8, 12]),
    (LOOSE_LOWER, &[1, 2, 3, 4, 8, 12]),
    (SENT, HORIZONS),
    (LO, &[0, 1, 2, 3, 8, 256]),
    (EXTENDABLE, &[0, 1]),
    (OPENED, &[0, 15]),
    (START, &[0, 1]),
    (JUDGED, &[0, 1, 2, 4]),
    (EQUAL, &[0, 1]),
    (MOSTS, &[0, 1, 2]),
    (PROGRAM_MOSTS, &[0, 1, 2]),
    (UNLIMITED_HORIZON, &[1, 2, 3, 255, 256]),
    // The records have no fault, so there is nothing left to refuse but short lists; and no text of them is without a closure.
    (UNLIMITED_READING, &[11]),
    (UNLIMITED_REPORT, &[0]),
    (UNLIMITED_CLOSING, &[1, 2, 3, 4]),
    (UNLIMITED_ROUNDS, &[0, 1, 2, 3, 4, 5, 6, 7, 8]),
    (UNLIMITED_FAULTS, &[12, 13, 14, 23, 24, 34]),
    (UNLIMITED_AT, &[65_535, 65_536, 16_776_960, 16_776_961]),
    (UNLIMITED_CEILINGS, &[0, 1, 10, 11]),
    (UNLIMITED_AGAIN, &[0, 4]),
    (UNLIMITED_MONITOR, &[0, 1, 2, 4]),
    (UNLIMITED_VERDICT, &[0, 2, 3]),
    (UNLIMITED_FEW, SOME_WINDOWS),
    (UNLIMITED_OVER, &[0]),
    (UNLIMITED_ON_CLOSURE, &[0, 4]),
    (UNLIMITED_GENERATOR, &[0, 1, 2, 4, 15]),
    (UNLIMITED_OPENING, &[102, 104, 115, 204, 215, 415]),
    (UNLIMITED_OPEN_AT, &[65_535, 65_536, 16_776_960, 16_776_961]),
    (UNLIMITED_SENT, &[0, 1, 2]),
    (UNLIMITED_LO, &[0, 1, 2, 3, 8, 256]),
    (UNLIMITED_BUILT, &[0, 2, 3, 12]),
    (UNLIMITED_BUILT_SENT, &[0, 12]),
    (UNLIMITED_NO_EFFECT, &[0, 1, 2, 3]),
    (UNLIMITED_LARGEST, &[0]),
    (UNLIMITED_MARGIN, &[0, 1, 2]),
    (UNLIMITED_RUN, &[0]),
    (UNLIMITED_RUN_TICK, &[0, 2, 3]),
    (MONITOR_WORDS_OPENED, &[0, 1, 2, 4, 5, 12]),
    (GENERATOR_WORDS_OPENED, &[0, 1, 2, 4, 12, 15]),
    (CUT, &[0, 1, 2, 3]),
    (PIECE, &[0, 1, 2, 3, 4]),
    (MARGINS_ROOM, &[0, 1, 2, 3]),
    (SEAM, &[0, 1, 2, 3]),
    (BUILT_RUN, &[0, 12]),
    (BUILT_WHY, &[0, 1, 2, 3, 4, 5, 10, 11, 12, 13, 14, 15]),
    (BUILT_TAKEN, &[0, 1, 2, 3, 4, 5, 6]),
    (MONITOR_LENGTH, &[0, 1, 770, 771, 772, 1_283, 1_285]),
    (GENERATOR_LENGTH, &[0, 1, 770, 772, 1_283, 1_284, 1_285]),
    (BUILT_VERDICT, &[0, 1, 2, 3, 4]),
    (BUILT_LATER, &[0, 1, 2, 3, 4]),
    (BUILT_BOTH, &[0, 1]),
    (BUILT_COUNT, &[0, 1, 2, 3, 4]),
    (BUILT_LOOK, &[0, 12, 13]),
    // The verdict on the first that is rejected; an empty list, on a state that has not failed and on one that has; refused with 12, of
    // some counts and of none.
    (PREVIEW_BUILT, &[0, 1, 2, 3, 4, 10, 11, 20, 30]),
    (PREVIEW_PLACE, &SEAMS),
    (RENDERED, &[0, 1, 2, 4]),
    (RENDER_ROOM, &[0, 1, 2]),
    (LONG_MANY, LONG_WINDOWS),
    (LONG_FEW, LONG_WINDOWS),
    (LONG_LOST, LONG_WINDOWS),
    (LONG_UNLIMITED, LONG_WINDOWS),
    (LONG_AFTER, &AFTER_REJECTION),
    (LONG_PLACE, &[0, 1, 2]),
    (LONG_TOTAL, &[0, 1]),
    (LONG_SENT, &[64, 255, 256]),
    (
        BORDER_COUNT,
        &[
            16_776_960,
            16_776_961,
            536_870_911,
            536_870_912,
            536_870_913,
            2_147_483_648,
            4_294_967_294,
            4_294_967_295,
        ],
    ),
    (BORDER_HELD, POWERS),
    (BORDER_LIST, POWERS),
    (BORDER_FEW, &[0, 1, 2, 3, 4]),
    // 255 ticks of at most 16,776,960 have less than 2^32 together.
    (BORDER_SENT, &[290, 291, 292, 300, 301, 302, 310, 311, 312]),
    (BORDER_SENT_AFTER, POWERS),
];

impl Tally {
    pub fn note(&mut self, kind: &'static str, number: u32) {
        *self.seen.entry((kind, number)).or_insert(0) += 1;
    }

    pub fn merge(&mut self, other: Tally) {
        for (key, times) in other.seen {
            *self.seen.entry(key).or_insert(0) += times;
        }
    }

    /// How often each number that is due came up, and how often others did.
    pub fn print(&self) {
        println!("answers seen, each number with how often:");
        for (kind, due) in DUE {
            let times = |number: &u32| self.seen.get(&(*kind, *number)).copied().unwrap_or(0);
            let shown: Vec<String> = due.iter().map(|number| format!("{number}: {}", times(number))).collect();
            let all: u64 = self.seen.iter().filter(|(key, _)| key.0 == *kind).map(|(_, times)| times).sum();
            let others = all - due.iter().map(times).sum::<u64>();
            let rest = if others > 0 { format!("  others: {others}") } else { String::new() };
            println!("  {kind:<54} {}{rest}", shown.join("  "));
        }
    }

    /// What should have come up and did not.
    pub fn missing(&self) -> Vec<String> {
        let mut list = Vec::new();
        for (kind, numbers) in DUE {
            for number in *numbers {
                if !self.seen.contains_key(&(*kind, *number)) {
                    list.push(format!("{kind} {number}"));
                }
            }
        }
        list
    }
}
