//! The mutants through the same comparisons as the product. One that is not caught shows that the comparisons are too weak.

use std::sync::atomic::{AtomicUsize, Ordering};
use std::sync::Mutex;
use std::thread;

use crate::comparisons::{work_of, COMPARISONS, PROMISES};
use crate::fault_list::MUTANTS;
use crate::faults::Fault;
use crate::faulty_closing::Faulty;
use crate::limits;
use crate::subject::Subject;
use crate::words::Kind;
use crate::workers::locked;

impl Subject for Faulty {
    fn close(&self, upper: &[u32], lower: &[u32], mark: u32, closed_upper: &mut [u32], closed_lower: &mut [u32]) -> u64 {
        self.close_into(self.lists(upper, lower, mark), closed_upper, closed_lower)
    }

    fn read(&self, text: &[u8], upper: &mut [u32], lower: &mut [u32]) -> u64 {
        self.read_into(text, upper, lower)
    }

    fn report(&self, text: &[u8], output: &mut [u8]) -> usize {
        self.report_into(text, output)
    }

    fn render(&self, upper: &[u32], lower: &[u32], mark: u32, output: &mut [u8]) -> i64 {
        self.render_into(self.lists(upper, lower, mark), output)
    }

    fn open_monitor(&self, upper: &[u32], lower: &[u32], mark: u32, state: &mut [u32]) -> u32 {
        self.open_into(Kind::Monitor, self.lists(upper, lower, mark), mark, state)
    }

    fn open_generator(&self, upper: &[u32], lower: &[u32], mark: u32, state: &mut [u32]) -> u32 {
        self.open_into(Kind::Generator, self.lists(upper, lower, mark), mark, state)
    }

    fn run_monitor(&self, state: &mut [u32], counts: &[u32], verdicts: &mut [u32], margins: &mut [i64]) -> i64 {
        self.run_on(Kind::Monitor, state, counts, verdicts, margins)
    }

    fn preview(&self, state: &mut [u32], counts: &[u32], verdict: &mut u32) -> i64 {
        self.preview_on(state, counts, verdict)
    }

    fn run_generator(&self, state: &mut [u32], choices: &[u32], counts: &mut [u32]) -> i64 {
        self.run_on(Kind::Generator, state, choices, counts, &mut [])
    }

    fn look(&self, state: &[u32]) -> i64 {
        self.look_at(state)
    }
}

/// What caught a mutant, and after how many cases of that comparison.
#[derive(Clone, Default)]
struct Caught {
    first: Option<(&'static str, u64)>,
    by_promises: bool,
}

/// The case in which a comparison tells a mutant apart.
fn told_by(number: usize, fault: Fault, seed: u64) -> Option<u64> {
    let comparison = &COMPARISONS[number];
    let subject = Faulty { fault };
    let work = work_of(number, comparison.sample, seed);
    work.run_alone(&|rng, tally| (comparison.one)(&subject, rng, tally))
        .err()
        .map(|difference| difference.case)
}

fn catch(fault: Fault, seed: u64) -> Caught {
    let mut caught = Caught::default();
    for (number, comparison) in COMPARISONS.iter().enumerate() {
        // Only the promises are asked about a mutant that was caught already.
        if caught.first.is_some() && comparison.name != PROMISES {
            continue;
        }
        if let Some(case) = told_by(number, fault, seed) {
            caught.first = caught.first.or(Some((comparison.name, case)));
            caught.by_promises |= comparison.name == PROMISES;
        }
    }
    if caught.first.is_none() {
        let subject = Faulty { fault };
        caught.first = limits::told_apart(|run| subject.course(run));
    }
    caught
}

/// Each mutant with what caught it, in the order of the list.
fn run_all(seed: u64) -> Vec<Caught> {
    let next = AtomicUsize::new(0);
    let found = Mutex::new(vec![Caught::default(); MUTANTS.len()]);
    let worker = || loop {
        let place = next.fetch_add(1, Ordering::SeqCst);
        if place >= MUTANTS.len() {
            break;
        }
        let caught = catch(MUTANTS[place].0, seed);
        locked(&found)[place] = caught;
    };
    thread::scope(|scope| {
        scope.spawn(worker);
        scope.spawn(worker);
    });
    found.into_inner().unwrap_or_default()
}

/// Prints a line for each mutant; how many were not caught. The same implementation without a fault must not be caught: else what
/// catches the mutants may not be their faults.
pub fn run(seed: u64) -> usize {
    let mut missed = 0;
    if let Some((name, case)) = catch(Fault::NoFault, seed).first {
        println!("  THE ONE WITHOUT A FAULT CAUGHT by {name}, case {case}");
        missed += 1;
    }
    for ((_, description), caught) in MUTANTS.iter().zip(run_all(seed)) {
        let promises = if caught.by_promises { ", and by the promises" } else { "" };
        match caught.first {
            Some((name, case)) => println!("  {description:<50} caught by {name}, case {case}{promises}"),
            None => {
                println!("  {description:<50} NOT CAUGHT");
                missed += 1;
            }
        }
    }
    missed
}
