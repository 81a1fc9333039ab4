//! What the product's operations take, called over its C boundary, against plain Rust and against the fastest forms in integers that were
//! found. Times differ from run to run; the ratios of one run are what counts, so the contenders take turns.
//!
//!     bench [REPETITIONS]
//!
//! The contenders' results are compared before their times. With 0 repetitions nothing is timed: the program only compares the results on
//! every case, prints one line and ends with 0, or with another number where some differ. Without an argument there are 9 repetitions.

mod builds;
mod cases;
mod contender;
mod fastest;
mod plain;
// Of the two files that the outside tests have too, not all is timed.
#[allow(dead_code)]
#[path = "../outside/product.rs"]
mod product;
mod ring;
#[allow(dead_code)]
#[path = "../outside/subject.rs"]
mod subject;

use cases::Case;
use contender::Contender;

/// The best time of each contender for one call of a case, in nanoseconds.
fn best_times(case: &Case, contenders: &[Contender], repetitions: u32) -> Vec<f64> {
    let mut best = vec![f64::INFINITY; contenders.len()];
    for _ in 0..repetitions {
        for (place, contender) in contenders.iter().enumerate() {
            let time = (case.run)(case, contender).time;
            best[place] = best[place].min(time.as_nanos() as f64 / case.calls as f64);
        }
    }
    best
}

/// Times are compared only where the results agree.
fn check(case: &Case, contenders: &[Contender]) -> Result<(), String> {
    let expected = (case.run)(case, &contenders[0]).results;
    for contender in &contenders[1..] {
        if (case.run)(case, contender).results != expected {
            return Err(format!("{}: {} and {} differ", case.name, contenders[0].name, contender.name));
        }
    }
    Ok(())
}

fn run(repetitions: u32) -> Result<(), String> {
    let contenders = contender::all();
    print!("{:<28}", "nanoseconds, best of runs");
    contenders.iter().for_each(|contender| print!("{:>16}", contender.name));
    contenders[1..]
        .iter()
        .for_each(|contender| print!("{:>16}", format!("to {}", contender.name)));
    println!();
    for case in cases::all() {
        check(&case, &contenders)?;
        let best = best_times(&case, &contenders, repetitions);
        print!("{:<28}", case.name);
        best.iter().for_each(|time| print!("{time:>16.1}"));
        best[1..].iter().for_each(|time| print!("{:>16.2}", best[0] / time));
        println!();
    }
    Ok(())
}

/// The results alone, of all contenders on all cases, and on those that are too short to time.
fn compare() -> Result<(), String> {
    let contenders = contender::all();
    let short = cases::rejected().into_iter().chain(cases::not_closed());
    let cases: Vec<Case> = cases::all().into_iter().chain(short).collect();
    cases.iter().try_for_each(|case| check(case, &contenders))?;
    println!("bench: {} cases, all contenders agree", cases.len());
    Ok(())
}

fn main() {
    let repetitions = std::env::args().nth(1).and_then(|text| text.parse().ok()).unwrap_or(9);
    let outcome = if repetitions == 0 { compare() } else { run(repetitions) };
    if let Err(message) = outcome {
        println!("bench: FAILED, {message}");
        std::process::exit(1);
    }
}
