//! The outside tests: an implementation written from the rules alone, compared with the product over its C boundary and with its
//! figures program, on many inputs that a seed settles.
//!
//!     outside FIGURES LIMITS [SEED [FACTOR]]
//!
//! FIGURES is the path of the figures program, LIMITS that of the output that is stored for the program `limits`. The seed is 1 unless
//! given, and the factor multiplies the number of cases.

mod borders;
mod built;
mod calls;
mod closings;
mod comparisons;
mod damages;
mod draws;
mod extensions;
mod fault_list;
mod faults;
mod faulty_closing;
mod faulty_margins;
mod faulty_monitor;
mod faulty_report;
mod faulty_streams;
mod faulty_text;
mod faulty_words;
mod known;
mod known_streams;
mod known_words;
mod limits;
mod long_lists;
mod lost;
mod margins;
mod mutants;
mod odd_texts;
mod openings;
mod pair;
mod pairs;
mod paths;
mod pieces;
mod product;
mod promises;
mod random;
mod reading;
mod reference;
mod renders;
mod rounds;
mod runs;
mod script_cases;
mod scripts;
mod sendings;
mod states;
mod streams;
mod subject;
mod sums;
mod tally;
mod text;
mod texts;
mod trace;
mod unlimited_closings;
mod unlimited_pairs;
mod unlimited_scripts;
mod window_sums;
mod words;
mod workers;

use std::process::ExitCode;

use comparisons::{work_of, COMPARISONS, PROGRAM, PROGRAM_CASES};
use product::Product;
use tally::Tally;
use workers::{Case, Work};

struct Arguments {
    figures: String,
    limits: String,
    seed: u64,
    factor: u64,
}

fn arguments() -> Result<Arguments, String> {
    let given: Vec<String> = std::env::args().skip(1).collect();
    let number = |place: usize| {
        given
            .get(place)
            .map_or(Ok(1), |text| text.parse::<u64>().map_err(|error| format!("{text}: {error}")))
    };
    match given.as_slice() {
        [figures, limits, ..] if given.len() <= 4 => Ok(Arguments {
            figures: figures.clone(),
            limits: limits.clone(),
            seed: number(2)?,
            factor: number(3)?,
        }),
        _ => Err("usage: outside FIGURES LIMITS [SEED [FACTOR]]".to_string()),
    }
}

/// One comparison whole, with a line on what was run.
fn run(name: &str, work: Work, case: &Case, tally: &mut Tally) -> Result<(), String> {
    match work.run(case, tally) {
        Ok(()) => {
            println!("  {name:<24} {:>9} agree", work.cases);
            Ok(())
        }
        Err(difference) => Err(format!("{name}, case {}:\n{}", difference.case, difference.message)),
    }
}

/// All comparisons with the product, and how often each answer came up.
fn run_product(given: &Arguments) -> Result<Tally, String> {
    let mut tally = Tally::default();
    println!("  {:<24} {:>9} agree", limits::NAME, limits::compare(&given.limits, &mut tally)?);
    for (number, comparison) in COMPARISONS.iter().enumerate() {
        let work = work_of(number, comparison.cases * given.factor, given.seed);
        run(
            comparison.name,
            work,
            &|rng, tally| (comparison.one)(&Product, rng, tally),
            &mut tally,
        )?;
    }
    let work = work_of(PROGRAM, PROGRAM_CASES * given.factor, given.seed);
    run(
        "figures program",
        work,
        &|rng, tally| reading::compare_program(&given.figures, rng, tally),
        &mut tally,
    )?;
    Ok(tally)
}

fn run_all(given: &Arguments) -> Result<(), String> {
    println!("outside: seed {}, factor {}", given.seed, given.factor);
    let tally = run_product(given)?;
    tally.print();
    println!("mutants, {}:", fault_list::MUTANTS.len());
    let missed = mutants::run(given.seed);
    let missing = tally.missing();
    if !missing.is_empty() {
        return Err(format!("never seen: {}", missing.join("; ")));
    }
    match missed {
        0 => Ok(()),
        _ => Err(format!("{missed} mutants are not told apart as they should be")),
    }
}

fn main() -> ExitCode {
    match arguments().and_then(|given| run_all(&given)) {
        Ok(()) => {
            println!(
                "outside: all agree, {} of {} mutants caught",
                fault_list::MUTANTS.len(),
                fault_list::MUTANTS.len()
            );
            ExitCode::SUCCESS
        }
        Err(message) => {
            println!("outside: FAILED\n{message}");
            ExitCode::FAILURE
        }
    }
}
