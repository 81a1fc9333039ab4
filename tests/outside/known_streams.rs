//! Streams with answers worked out beforehand, and choices.

use crate::pair::Pair;
use crate::subject::{Subject, LIMIT, LONGEST_HORIZON, LOST};

type Figures = &'static [u32];

/// A pair, and streams with what a monitor on it says of them.
struct Judging {
    upper: Figures,
    lower: Figures,
    mark: u32,
    streams: &'static [(Figures, Figures)],
}

const PUBLISHED: Judging = Judging {
    upper: &[3, 6, 3, 12, 9],
    lower: &[0, 0, 0, 0, 5],
    mark: 0,
    // One a tick is all that goes on for ever. The first stream conforms for six ticks; in the third, windows of 5 tell.
    streams: &[
        (&[0, 2, 1, 0, 2, 0], &[LOST, 3_000, 3_000, 3_000, 3_000, 3_000]),
        (&[1, 1, 1, 0, 2], &[0, 0, 0, LOST, 3_000]),
        (&[1, 1, 1, 1, 1, 1, 0, 1], &[0, 0, 0, 0, 0, 0, 2_005, 3_000]),
        (&[1, 2, 0], &[0, LOST, 3_000]),
        (&[1, 1, 2, 1], &[0, 0, 1_003, 3_000]),
        (&[4, 1], &[1_001, 3_000]),
    ],
};

const JUDGINGS: &[Judging] = &[
    PUBLISHED,
    // Implied: 1 at least in two ticks, as five have 4 and three at most 3; then 2 at most in one.
    Judging {
        upper: &[3, 3, 3, 12, 15],
        lower: &[0, 0, 0, 0, 4],
        mark: 0,
        streams: &[
            (&[0, 0, 3], &[0, LOST, 3_000]),
            (&[3, 0, 0], &[LOST, 3_000, 3_000]),
            (&[0, 1, 0, 0, 4], &[0, 0, 0, LOST, 3_000]),
            (&[0, 2, 0, 1, 1, 1, 0], &[0, 0, 0, 0, 0, 0, 2_005]),
        ],
    },
    // Implied: 3 at most in one tick. Once there is a tick before it, the window of two says no less.
    Judging {
        upper: &[5, 3],
        lower: &[0, 0],
        mark: 0,
        streams: &[(&[4, 0], &[LOST, 3_000]), (&[3, 0, 4, 0], &[0, 0, 1_002, 3_000])],
    },
    // Implied: 1 at least in three ticks, as four have 3 and one at most 2.
    Judging {
        upper: &[2, 3, 5, 5],
        lower: &[0, 0, 0, 3],
        mark: 0,
        streams: &[(&[0, 0, 0, 0], &[0, 0, LOST, 3_000]), (&[2, 0, 0, 0, 2], &[0, 0, 0, 2_004, 3_000])],
    },
    // The closure of that.
    Judging {
        upper: &[2, 3, 5, 5],
        lower: &[0, 0, 1, 3],
        mark: 0,
        streams: &[(&[0, 0, 0, 0], &[0, 0, 2_003, 3_000])],
    },
    // Without ceilings: nothing is too many, and nothing is lost.
    Judging {
        upper: &[0, 1, 2, 3, 4],
        lower: &[0, 0, 2, 0, 4],
        mark: 1,
        streams: &[
            (&[u32::MAX, u32::MAX, u32::MAX, 0, 0, 1], &[0, 0, 0, 0, 0, 2_003]),
            (&[0, 0, 2, 0, 1, 1], &[0, 0, 0, 0, 2_005, 3_000]),
            (&[0, 1, 0], &[0, 0, 2_003]),
            (&[0, 0, 2, 2, 0, 0, 2], &[0, 0, 0, 0, 0, 0, 0]),
        ],
    },
    // Not closed, and yet what goes wrong shows at once in a window as given.
    Judging {
        upper: &[0, 0],
        lower: &[LIMIT, 0],
        mark: 65_536,
        streams: &[(&[LIMIT, LIMIT + 1, LIMIT - 1], &[0, 0, 2_001])],
    },
];

/// The same without ceilings.
const UNLIMITED_OPENINGS: &[(Figures, Figures, u32, u32)] = &[
    (&[], &[], 1, 1),
    (&[2], &[7, 7], 2, 2),
    (&[2], &[LIMIT + 1], 4, 4),
    // Not closed too: 4 comes first.
    (&[2, 2], &[1, LIMIT + 1], 4, 4),
    (&[0, 0], &[LIMIT + 1, 0], 4, 4),
    (&[2], &[7], 0, 0),
    (&[0], &[LIMIT], 0, 0),
    (&[u32::MAX, LIMIT + 1], &[0, LIMIT], 0, 0),
    (&[0, 0], &[LIMIT, LIMIT], 0, 15),
    (&[9, 9], &[1, 1], 0, 15),
    (&[9, 9], &[1, 2], 0, 0),
    (&[9, 9, 9], &[1, 2, 2], 0, 15),
    (&[9, 9, 9, 9], &[0, 2, 2, 3], 0, 15),
    (&[9, 9, 9, 9], &[0, 2, 2, 4], 0, 0),
    // The closure of 65,535 in one tick: closing it again is refused, opening on it is not.
    (&[0, 0], &[65_535, 131_070], 0, 0),
];

/// Pairs with what opening a monitor gives back, and what opening a generator does.
const OPENINGS: &[(Figures, Figures, u32, u32)] = &[
    (&[], &[], 1, 1),
    (&[2], &[7, 7], 2, 2),
    // It crosses too: 4 comes first.
    (&[2], &[LIMIT + 1], 4, 4),
    (&[2], &[7], 5, 15),
    (&[2, 2, 5], &[0, 0, 4], 5, 15),
    (PUBLISHED.upper, PUBLISHED.lower, 0, 15),
    // A ceiling that is loose and nothing else: no stream is lost. Then a least.
    (&[1, 3], &[0, 0], 0, 15),
    (&[1, 2], &[1, 1], 0, 15),
    (&[5, 3], &[0, 0], 0, 15),
    (&[1, 2], &[0, 2], 0, 15),
    (&[2, 3, 5, 5], &[0, 0, 0, 3], 0, 15),
    (&[2, 3, 5, 5], &[0, 0, 1, 3], 0, 0),
    (&[7], &[2], 0, 0),
    (&[0], &[0], 0, 0),
    (&[LIMIT], &[LIMIT], 0, 0),
    (&[LIMIT, LIMIT], &[0, 0], 0, 0),
    (&[LIMIT, LIMIT], &[0, LIMIT], 0, 0),
    (&[LIMIT, LIMIT], &[LIMIT, LIMIT], 5, 15),
];

fn expect(name: &str, expected: &[u32], came: &[u32]) -> Result<(), String> {
    if expected == came {
        return Ok(());
    }
    Err(format!("{name}\nexpected {expected:?}\ncame {came:?}"))
}

fn check_judging(subject: &dyn Subject, known: &Judging) -> Result<(), String> {
    for (counts, verdicts) in known.streams {
        let mut script = counts.to_vec();
        subject.judge(known.upper, known.lower, known.mark, &mut script);
        let pair = Pair::marked(known.upper, known.lower, known.mark);
        let name = format!("judge {counts:?}\n{}", pair.shown());
        expect(&name, verdicts, &script)?;
    }
    Ok(())
}

/// What an opening gives back, with two entries that are run where it is not refused.
fn check_opened_with(name: &str, number: u32, open: impl Fn(&mut [u32]) -> u32) -> Result<(), String> {
    expect(name, &[number], &[open(&mut [1, 2])])
}

fn check_opened_withs(subject: &dyn Subject) -> Result<(), String> {
    let limited = OPENINGS.iter().map(|opening| (opening, 0));
    let unlimited = UNLIMITED_OPENINGS.iter().map(|opening| (opening, 1));
    for ((upper, lower, judge, generate), mark) in limited.chain(unlimited) {
        let name = format!("1, 2\n{}", Pair::marked(upper, lower, mark).shown());
        check_opened_with(&format!("judge {name}"), *judge, |script| subject.judge(upper, lower, mark, script))?;
        check_opened_with(&format!("generate {name}"), *generate, |script| {
            subject.generate(upper, lower, mark, script)
        })?;
    }
    Ok(())
}

/// The closure of the published pair: one a tick, whatever the choices.
fn check_one_a_tick(subject: &dyn Subject) -> Result<(), String> {
    let mut choices = [0, 2, 1, 0, u32::MAX, 7, 0, 1];
    let number = subject.generate(&[1, 2, 3, 4, 5], &[1, 2, 3, 4, 5], 0, &mut choices);
    expect("generate on one a tick", &[0], &[number])?;
    expect("generate on one a tick", &[1; 8], &choices)
}

/// One a tick again, with the longest horizon. With any one figure higher or lower by one, the others settle it or it crosses.
fn check_each_figure(subject: &dyn Subject) -> Result<(), String> {
    let ticks: Vec<u32> = (1..=LONGEST_HORIZON as u32).collect();
    let name = "generate on one a tick, horizon 256";
    check_opened_with(name, 0, |script| subject.generate(&ticks, &ticks, 0, script))?;
    for window in 1..=LONGEST_HORIZON {
        for figure in [window as u32 - 1, window as u32 + 1] {
            let mut off = ticks.clone();
            off[window - 1] = figure;
            let place = format!("{figure} for window {window}");
            check_opened_with(&format!("{name}, ceiling {place}"), 15, |script| {
                subject.generate(&off, &ticks, 0, script)
            })?;
            check_opened_with(&format!("{name}, least {place}"), 15, |script| {
                subject.generate(&ticks, &off, 0, script)
            })?;
        }
    }
    Ok(())
}

/// On a closed pair, after 2, 1 the counts 0 to 2 can follow, after 2, 1, 0, 2 the counts 0 and 1: the next choice of 2 shows it.
fn check_range(subject: &dyn Subject) -> Result<(), String> {
    let (upper, lower) = ([2, 3, 5, 5], [0, 0, 1, 3]);
    for (choice, count) in [(0, 0), (1, 1), (2, 2), (3, 0), (u32::MAX, 0)] {
        let mut choices = [2, 1, choice];
        let number = subject.generate(&upper, &lower, 0, &mut choices);
        let name = format!("generate with 2, 1, {choice}");
        expect(&name, &[0], &[number])?;
        expect(&name, &[2, 1, count], &choices)?;
    }
    for (choice, count) in [(0, 0), (1, 1), (2, 0), (3, 1)] {
        let mut choices = [2, 1, 0, 2, choice];
        let number = subject.generate(&upper, &lower, 0, &mut choices);
        let name = format!("generate with 2, 1, 0, 2, {choice}");
        expect(&name, &[0], &[number])?;
        expect(&name, &[2, 1, 0, 2, count], &choices)?;
    }
    Ok(())
}

/// Without ceilings, on leasts of 2 in three ticks and 4 in five: the range is from what is missing up to the limit.
fn check_unlimited_range(subject: &dyn Subject) -> Result<(), String> {
    let choices = [0, LIMIT, LIMIT + 1, LIMIT + 2, 0, 0, 0, 0, 0, u32::MAX];
    // The first four have a range from 0 on; then three ticks ask for one, five for two, and five for one; at last the range is from 1 to
    // 16,776,960, and the largest choice is 65,535 more than 256 times as many counts.
    let sent = [0, LIMIT, 0, 1, 1, 0, 2, 0, 1, 65_536];
    let mut script = choices;
    let number = subject.generate(&[0; 5], &[0, 0, 2, 2, 4], 1, &mut script);
    let name = "generate without ceilings";
    expect(name, &[0], &[number])?;
    expect(name, &sent, &script)
}

pub fn check(subject: &dyn Subject) -> Result<(), String> {
    for known in JUDGINGS {
        check_judging(subject, known)?;
    }
    check_opened_withs(subject)?;
    check_one_a_tick(subject)?;
    check_each_figure(subject)?;
    check_range(subject)?;
    check_unlimited_range(subject)
}
