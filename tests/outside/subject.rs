//! What is tested: ten operations on lists. The product is one implementor; the reference and every mutant are others.

/// The greatest figure of a pair.
pub const LIMIT: u32 = 16_776_960;
/// The greatest least of a pair without ceilings that is to be closed.
pub const LEAST_LIMIT: u32 = 65_535;
/// The greatest horizon.
pub const LONGEST_HORIZON: usize = 256;
/// The greatest length of a text, in bytes.
pub const LONGEST_TEXT: usize = 16_384;
/// The promised bound on what a report writes.
pub const LONGEST_REPORT: usize = 5_799;
/// The greatest least or most in a text.
pub const TEXT_LIMIT: u32 = 65_535;
/// The first line of a text and of a report.
pub const HEADER: &[u8] = b"window,least,most";

/// The bit of an answer that says that the pair has no ceilings. What is below it is the value.
pub const UNLIMITED: u64 = 65_536;

/// How many words a state has.
pub const GENERATOR_WORDS: usize = 771;
pub const MONITOR_WORDS: usize = 1_284;

/// Answers of ticks: verdicts, and a refusal in the place of a count.
pub const PASSED: u32 = 0;
pub const TOO_MANY: u32 = 1_000;
pub const TOO_FEW: u32 = 2_000;
pub const ALREADY_FAILED: u32 = 3_000;
pub const LOST: u32 = 4_000;
pub const REFUSED: u32 = 4_000_000_000;
/// What stands for a count where there is none that could be sent.
pub const NO_COUNT: u32 = REFUSED + 13;

/// What a script comes to that did not run to its end. No opening is refused with this.
const CUT_SHORT: u32 = REFUSED;

/// A pair is its ceilings, its leasts and its mark: any number but 0 says that there are no ceilings, and that the first list gives the
/// horizon and nothing else. A state is a list of words (`words`).
pub trait Subject: Sync {
    fn close(&self, upper: &[u32], lower: &[u32], mark: u32, closed_upper: &mut [u32], closed_lower: &mut [u32]) -> u64;
    fn read(&self, text: &[u8], upper: &mut [u32], lower: &mut [u32]) -> u64;
    fn report(&self, text: &[u8], output: &mut [u8]) -> usize;
    fn render(&self, upper: &[u32], lower: &[u32], mark: u32, output: &mut [u8]) -> i64;
    fn open_monitor(&self, upper: &[u32], lower: &[u32], mark: u32, state: &mut [u32]) -> u32;
    fn open_generator(&self, upper: &[u32], lower: &[u32], mark: u32, state: &mut [u32]) -> u32;
    fn run_monitor(&self, state: &mut [u32], counts: &[u32], verdicts: &mut [u32], margins: &mut [i64]) -> i64;
    /// The state is lent so that a fault could write it.
    fn preview(&self, state: &mut [u32], counts: &[u32], verdict: &mut u32) -> i64;
    fn run_generator(&self, state: &mut [u32], choices: &[u32], counts: &mut [u32]) -> i64;
    fn look(&self, state: &[u32]) -> i64;

    /// A script: a monitor is opened on the pair and gets the whole list, and what is answered takes the place of the counts.
    fn judge(&self, upper: &[u32], lower: &[u32], mark: u32, script: &mut [u32]) -> u32 {
        let mut state = [0; MONITOR_WORDS];
        let number = self.open_monitor(upper, lower, mark, &mut state);
        if number != 0 {
            return number;
        }
        let counts = script.to_vec();
        whole(self.run_monitor(&mut state, &counts, script, &mut []), script)
    }

    /// The same with a generator and choices.
    fn generate(&self, upper: &[u32], lower: &[u32], mark: u32, script: &mut [u32]) -> u32 {
        let mut state = [0; GENERATOR_WORDS];
        let number = self.open_generator(upper, lower, mark, &mut state);
        if number != 0 {
            return number;
        }
        let choices = script.to_vec();
        whole(self.run_generator(&mut state, &choices, script), script)
    }
}

/// 0 where as many ticks ran as the script has entries.
fn whole(ran: i64, script: &[u32]) -> u32 {
    if ran == script.len() as i64 {
        0
    } else {
        CUT_SHORT
    }
}

/// The answer of a refused closing or reading.
pub fn refused(number: u32) -> u64 {
    u64::from(number) << 32
}

/// The answer of any other.
pub fn answered(value: u32, unlimited: bool) -> u64 {
    u64::from(value) + if unlimited { UNLIMITED } else { 0 }
}

/// The refusal's number in an answer, 0 where there is none.
pub fn refusal_of(answer: u64) -> u32 {
    (answer >> 32) as u32
}

/// The value in an answer: the count of rounds, or the horizon.
pub fn value_of(answer: u64) -> u32 {
    (answer % UNLIMITED) as u32
}

/// The mark in an answer, as a number that a call takes.
pub fn mark_of(answer: u64) -> u32 {
    u32::from(answer & UNLIMITED != 0)
}

/// An answer, as it is shown when it differs.
pub fn shown(answer: u64) -> String {
    let rest = answer as u32 as u64 / UNLIMITED;
    format!("refusal {} value {} above it {rest}", refusal_of(answer), value_of(answer))
}
