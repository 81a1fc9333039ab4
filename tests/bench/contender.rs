//! Those whose times are compared.

use crate::product::Product;
use crate::subject::{Subject, GENERATOR_WORDS, MONITOR_WORDS, PASSED};
use crate::{builds, plain};

/// A monitor or a generator that was opened. Each contender keeps it in a form of its own.
pub trait State {
    /// A list in one call, and the margins of as many ticks as there is room for.
    fn run(&mut self, list: &[u32], answers: &mut [u32], margins: &mut [i64]);

    /// A call for each entry, on the state that the one before it left.
    fn run_each(&mut self, list: &[u32], answers: &mut [u32]) {
        for place in 0..list.len() {
            self.run(&list[place..=place], &mut answers[place..=place], &mut []);
        }
    }
}

/// All with ceilings: the mark of a pair is not set, and no closing, opening or list without them is timed. An opening that is refused
/// gives its number.
type Close = fn(&[u32], &[u32], &mut [u32], &mut [u32]) -> u64;
type Open = fn(&[u32], &[u32]) -> Result<Box<dyn State>, u32>;
type Read = fn(&[u8], &mut [u32], &mut [u32]) -> u64;

/// A monitor that was opened, and tries lists.
pub trait Preview {
    /// How many counts pass, from the first on, and the verdict on the one behind them, or that of a pass.
    fn preview(&mut self, counts: &[u32]) -> (usize, u32);
}

/// On curves that are not refused, after counts that pass.
type OpenPreview = fn(&[u32], &[u32], &[u32]) -> Result<Box<dyn Preview>, u32>;

/// Runs counts that pass, and keeps no answer.
pub fn hold(monitor: &mut dyn State, counts: &[u32]) {
    monitor.run(counts, &mut vec![PASSED; counts.len()], &mut []);
}

pub struct Contender {
    pub name: &'static str,
    pub close: Close,
    pub monitor: Open,
    pub preview: OpenPreview,
    pub generator: Open,
    pub read: Read,
}

/// The product's states are words.
struct Monitor([u32; MONITOR_WORDS]);
struct Generator([u32; GENERATOR_WORDS]);

impl State for Monitor {
    fn run(&mut self, list: &[u32], answers: &mut [u32], margins: &mut [i64]) {
        Product.run_monitor(&mut self.0, list, answers, margins);
    }
}

impl Preview for Monitor {
    fn preview(&mut self, counts: &[u32]) -> (usize, u32) {
        let mut verdict = PASSED;
        let place = Product.preview(&mut self.0, counts, &mut verdict);
        (place as usize, verdict)
    }
}

impl State for Generator {
    fn run(&mut self, list: &[u32], answers: &mut [u32], _: &mut [i64]) {
        Product.run_generator(&mut self.0, list, answers);
    }
}

fn opened(upper: &[u32], lower: &[u32]) -> Result<Box<Monitor>, u32> {
    let mut state = Box::new(Monitor([0; MONITOR_WORDS]));
    match Product.open_monitor(upper, lower, 0, &mut state.0) {
        0 => Ok(state),
        number => Err(number),
    }
}

fn open_generator(upper: &[u32], lower: &[u32]) -> Result<Box<dyn State>, u32> {
    let mut state = Box::new(Generator([0; GENERATOR_WORDS]));
    match Product.open_generator(upper, lower, 0, &mut state.0) {
        0 => Ok(state),
        number => Err(number),
    }
}

/// The product first. The last runs only where the machine has the instructions.
pub fn all() -> Vec<Contender> {
    let mut list = vec![
        Contender {
            name: "product",
            close: |upper, lower, closed_upper, closed_lower| Product.close(upper, lower, 0, closed_upper, closed_lower),
            monitor: |upper, lower| Ok(opened(upper, lower)?),
            preview: |upper, lower, held| {
                let mut monitor = opened(upper, lower)?;
                hold(&mut *monitor, held);
                Ok(monitor)
            },
            generator: open_generator,
            read: |text, upper, lower| Product.read(text, upper, lower),
        },
        Contender {
            name: "plain",
            close: plain::close,
            monitor: |upper, lower| Ok(plain::open_monitor(upper, lower)?),
            preview: |upper, lower, held| {
                let mut monitor = plain::open_monitor(upper, lower)?;
                hold(&mut *monitor, held);
                Ok(monitor)
            },
            generator: plain::open_generator,
            read: plain::read,
        },
        Contender {
            name: "fastest",
            close: builds::close,
            monitor: builds::open_monitor,
            preview: builds::open_preview,
            generator: builds::open_generator,
            read: builds::read,
        },
    ];
    list.extend(builds::with_avx2());
    list
}
