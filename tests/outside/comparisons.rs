//! What is compared, and how much of it.

use crate::random::Rng;
use crate::subject::Subject;
use crate::tally::Tally;
use crate::workers::Work;
use crate::{borders, closings, damages, known, long_lists, lost, pieces, promises, reading, renders, scripts, sendings};
use crate::{unlimited_closings, unlimited_scripts};

pub struct Comparison {
    pub name: &'static str,
    /// How many cases in a run with factor 1.
    pub cases: u64,
    /// How many for a mutant: none where one takes seconds.
    pub sample: u64,
    pub one: fn(&dyn Subject, &mut Rng, &mut Tally) -> Result<(), String>,
}

/// The comparison by which mutants are judged alone too: it uses no expected figures.
pub const PROMISES: &str = "promises of closures";

/// Those that tell many mutants apart in little time stand first.
pub const COMPARISONS: &[Comparison] = &[
    Comparison {
        name: "closings",
        cases: 1_000_000,
        sample: 2_000,
        one: closings::compare,
    },
    Comparison {
        name: "words by hand",
        cases: 200_000,
        sample: 2_000,
        one: damages::compare,
    },
    Comparison {
        name: "rendering",
        cases: 20_000,
        sample: 200,
        one: renders::compare,
    },
    Comparison {
        name: "texts",
        cases: 100_000,
        sample: 4_000,
        one: reading::compare_reading,
    },
    Comparison {
        name: "monitors in pieces",
        cases: 10_000,
        sample: 100,
        one: pieces::compare_monitor,
    },
    Comparison {
        name: "generators in pieces",
        cases: 10_000,
        sample: 100,
        one: pieces::compare_generator,
    },
    Comparison {
        name: "monitor scripts",
        cases: 20_000,
        sample: 600,
        one: scripts::compare_monitor,
    },
    Comparison {
        name: "generator scripts",
        cases: 20_000,
        sample: 600,
        one: sendings::compare,
    },
    Comparison {
        name: PROMISES,
        cases: 20_000,
        sample: 300,
        one: promises::compare,
    },
    Comparison {
        name: "lost, by search",
        cases: 10_000,
        sample: 100,
        one: lost::compare,
    },
    Comparison {
        name: "closings, long",
        cases: 3_000,
        sample: 100,
        one: closings::compare_long,
    },
    Comparison {
        name: "closings, unlimited",
        cases: 200_000,
        sample: 2_000,
        one: unlimited_closings::compare,
    },
    Comparison {
        name: "monitors, unlimited",
        cases: 10_000,
        sample: 300,
        one: unlimited_scripts::compare_monitor,
    },
    Comparison {
        name: "generators, unlimited",
        cases: 10_000,
        sample: 300,
        one: unlimited_scripts::compare_generator,
    },
    Comparison {
        name: "promises, unlimited",
        cases: 3_000,
        sample: 100,
        one: promises::compare_unlimited,
    },
    Comparison {
        name: "borders, monitor",
        cases: 4_000,
        sample: 60,
        one: borders::compare_monitor,
    },
    Comparison {
        name: "borders, generator",
        cases: 4_000,
        sample: 60,
        one: borders::compare_generator,
    },
    Comparison {
        name: "long lists, monitor",
        cases: 500,
        sample: 8,
        one: long_lists::compare_monitor,
    },
    Comparison {
        name: "previews",
        cases: 2_000,
        sample: 40,
        one: long_lists::compare_preview,
    },
    Comparison {
        name: "every window",
        cases: 1,
        sample: 0,
        one: long_lists::compare_every_window,
    },
    Comparison {
        name: "long lists, generator",
        cases: 300,
        sample: 3,
        one: long_lists::compare_generator,
    },
    Comparison {
        name: "known figures",
        cases: 1,
        sample: 1,
        one: known::compare,
    },
];

/// The number of the comparison that the figures program stands in, which no mutant has.
pub const PROGRAM: usize = COMPARISONS.len();
pub const PROGRAM_CASES: u64 = 2_000;

/// The same numbers for the product and for mutants: a sample is the first cases of the whole.
pub fn work_of(number: usize, cases: u64, seed: u64) -> Work {
    Work {
        seed,
        comparison: number as u64,
        cases,
        chunk: 50,
    }
}
