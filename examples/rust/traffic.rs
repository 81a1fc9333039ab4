//! Reads a constraint text and closes its curves; opens a generator on the curves as written, which is refused, and on the closed ones,
//! and judges the twenty ticks that it sends; then a stream that goes wrong, and a start that keeps the curves as written and is lost; and
//! tries two bursts before either is sent. After that a text with leasts alone; at last a million ticks in pieces.
//!
//!     rustc --edition 2021 examples/rust/traffic.rs -L native=target/staticlib -l static=exports -o target/traffic

extern "C" {
    fn calgedze_close(
        upper: *const u32,
        upper_length: usize,
        lower: *const u32,
        lower_length: usize,
        unlimited: u32,
        closed_upper: *mut u32,
        closed_upper_length: usize,
        closed_lower: *mut u32,
        closed_lower_length: usize,
    ) -> u64;
    fn calgedze_read(
        text: *const u8,
        text_length: usize,
        upper: *mut u32,
        upper_length: usize,
        lower: *mut u32,
        lower_length: usize,
    ) -> u64;
    fn calgedze_monitor_open(
        upper: *const u32,
        upper_length: usize,
        lower: *const u32,
        lower_length: usize,
        unlimited: u32,
        state: *mut u32,
        state_length: usize,
    ) -> u32;
    fn calgedze_generator_open(
        upper: *const u32,
        upper_length: usize,
        lower: *const u32,
        lower_length: usize,
        unlimited: u32,
        state: *mut u32,
        state_length: usize,
    ) -> u32;
    fn calgedze_monitor_run(
        state: *mut u32,
        state_length: usize,
        counts: *const u32,
        counts_length: usize,
        verdicts: *mut u32,
        verdicts_length: usize,
        margins: *mut i64,
        margins_length: usize,
    ) -> i64;
    fn calgedze_monitor_preview(state: *const u32, state_length: usize, counts: *const u32, counts_length: usize, verdict: *mut u32)
        -> i64;
    fn calgedze_generator_run(
        state: *mut u32,
        state_length: usize,
        choices: *const u32,
        choices_length: usize,
        counts: *mut u32,
        counts_length: usize,
    ) -> i64;
}

const GENERATOR_WORDS: usize = 771;
const MONITOR_WORDS: usize = 1_284;

/// A refusal by its number.
#[derive(Debug)]
struct Refusal(u32);

/// The ceilings (upper curve) and the leasts (lower curve) of the windows of 1, 2, 3 and so on ticks. The mark is 1 where there are no
/// ceilings; of the first list only the length has an effect then.
struct Curves {
    upper: Vec<u32>,
    lower: Vec<u32>,
    unlimited: u32,
}

/// States are words; what stands where is told in the header. A state changes with each list that it is given.
struct Generator([u32; GENERATOR_WORDS]);
struct Monitor([u32; MONITOR_WORDS]);

enum Verdict {
    Passed,
    TooMany(u32),
    TooFew(u32),
    Lost,
    AlreadyFailed,
}

/// An answer has a refusal's number in its upper half; or in its lower a value, and one bit above that, the pair's mark.
fn value_and_mark(answer: u64) -> Result<(u32, u32), Refusal> {
    match (answer >> 32) as u32 {
        0 => Ok((answer as u32 % 65_536, answer as u32 / 65_536)),
        number => Err(Refusal(number)),
    }
}

/// An opening gives back 0 or the number of its refusal.
fn opened<T>(number: u32, state: T) -> Result<T, Refusal> {
    match number {
        0 => Ok(state),
        number => Err(Refusal(number)),
    }
}

/// A run or a preview gives back a number of ticks, or that of its refusal, negative: 12, for words that are no state, which none of
/// these are.
fn ran(number: i64) -> Result<usize, Refusal> {
    match number {
        0.. => Ok(number as usize),
        number => Err(Refusal(-number as u32)),
    }
}

fn read(text: &[u8]) -> Result<Curves, Refusal> {
    // No text names a window longer than 256 ticks.
    let (mut upper, mut lower) = (vec![0; 256], vec![0; 256]);
    // SAFETY: each pointer goes with the length of its list, and the two lists that are written are apart.
    let answer = unsafe { calgedze_read(text.as_ptr(), text.len(), upper.as_mut_ptr(), 256, lower.as_mut_ptr(), 256) };
    let (horizon, unlimited) = value_and_mark(answer)?;
    upper.truncate(horizon as usize);
    lower.truncate(horizon as usize);
    Ok(Curves { upper, lower, unlimited })
}

impl Curves {
    /// The closed curves and the count of rounds that it took.
    fn close(&self) -> Result<(Curves, u32), Refusal> {
        let horizon = self.upper.len();
        let mut closed = Curves {
            upper: vec![0; horizon],
            lower: vec![0; horizon],
            unlimited: 0,
        };
        let (closed_upper, closed_lower) = (closed.upper.as_mut_ptr(), closed.lower.as_mut_ptr());
        // SAFETY: all four lists have `horizon` entries, and the two that are written are apart from the others.
        let answer = unsafe {
            calgedze_close(
                self.upper.as_ptr(),
                horizon,
                self.lower.as_ptr(),
                horizon,
                self.unlimited,
                closed_upper,
                horizon,
                closed_lower,
                horizon,
            )
        };
        let (rounds, unlimited) = value_and_mark(answer)?;
        closed.unlimited = unlimited;
        Ok((closed, rounds))
    }

    /// It opens on closed curves only.
    fn generator(&self) -> Result<Generator, Refusal> {
        let mut state = Generator([0; GENERATOR_WORDS]);
        let (upper, lower, horizon, words) = (self.upper.as_ptr(), self.lower.as_ptr(), self.upper.len(), state.0.as_mut_ptr());
        // SAFETY: each pointer goes with the length of its list.
        let number = unsafe { calgedze_generator_open(upper, horizon, lower, horizon, self.unlimited, words, GENERATOR_WORDS) };
        opened(number, state)
    }

    fn monitor(&self) -> Result<Monitor, Refusal> {
        let mut state = Monitor([0; MONITOR_WORDS]);
        let (upper, lower, horizon, words) = (self.upper.as_ptr(), self.lower.as_ptr(), self.upper.len(), state.0.as_mut_ptr());
        // SAFETY: each pointer goes with the length of its list.
        let number = unsafe { calgedze_monitor_open(upper, horizon, lower, horizon, self.unlimited, words, MONITOR_WORDS) };
        opened(number, state)
    }
}

impl Generator {
    /// The counts that it sends for these choices. One that was opened always has a count to send.
    fn send(&mut self, choices: &[u32]) -> Result<Vec<u32>, Refusal> {
        let (words, ticks, mut counts) = (self.0.as_mut_ptr(), choices.len(), vec![0; choices.len()]);
        // SAFETY: each pointer goes with the length of its list, and the two lists that are written are apart from the others.
        ran(unsafe { calgedze_generator_run(words, GENERATOR_WORDS, choices.as_ptr(), ticks, counts.as_mut_ptr(), ticks) })?;
        Ok(counts)
    }
}

impl Monitor {
    /// What it says of these counts, and how near each tick comes to the curves as they were given.
    fn judge(&mut self, counts: &[u32]) -> Result<Vec<(Verdict, i64)>, Refusal> {
        let ticks = counts.len();
        let (mut verdicts, mut margins) = (vec![0; ticks], vec![0; ticks]);
        // SAFETY: each pointer goes with the length of its list, and the three lists that are written are apart from the others.
        ran(unsafe {
            calgedze_monitor_run(
                self.0.as_mut_ptr(),
                MONITOR_WORDS,
                counts.as_ptr(),
                ticks,
                verdicts.as_mut_ptr(),
                ticks,
                margins.as_mut_ptr(),
                ticks,
            )
        })?;
        Ok(verdicts.into_iter().map(verdict).zip(margins).collect())
    }

    /// How many of these counts would pass, from the first on, and what it would say to the one behind them; `Passed` where there is none.
    /// It stays as it is.
    fn preview(&self, counts: &[u32]) -> Result<(usize, Verdict), Refusal> {
        let (words, ticks, mut entry) = (self.0.as_ptr(), counts.len(), 0);
        // SAFETY: each pointer goes with the length of its list, and the verdict is no entry of either.
        let passing = ran(unsafe { calgedze_monitor_preview(words, MONITOR_WORDS, counts.as_ptr(), ticks, &mut entry) })?;
        Ok((passing, verdict(entry)))
    }
}

fn verdict(entry: u32) -> Verdict {
    match entry {
        0 => Verdict::Passed,
        1_001..=1_256 => Verdict::TooMany(entry - 1_000),
        2_001..=2_256 => Verdict::TooFew(entry - 2_000),
        3_000 => Verdict::AlreadyFailed,
        4_000 => Verdict::Lost,
        _ => unreachable!("a monitor has no other answer"),
    }
}

fn print_curves(name: &str, curves: &Curves) {
    match curves.unlimited {
        0 => println!("{name}: upper {:?}, lower {:?}", curves.upper, curves.lower),
        _ => println!("{name}: no ceilings, lower {:?}", curves.lower),
    }
}

fn passed(verdicts: &[(Verdict, i64)]) -> usize {
    verdicts.iter().filter(|(verdict, _)| matches!(verdict, Verdict::Passed)).count()
}

fn print_verdicts(counts: &[u32], verdicts: &[(Verdict, i64)]) {
    println!("{} of {} ticks passed", passed(verdicts), verdicts.len());
    for (tick, (count, (verdict, margin))) in counts.iter().zip(verdicts).enumerate() {
        match verdict {
            Verdict::Passed => {}
            Verdict::TooMany(window) => println!("tick {tick}, count {count}: too many in the window of {window}, margin {margin}"),
            Verdict::TooFew(window) => println!("tick {tick}, count {count}: too few in the window of {window}, margin {margin}"),
            Verdict::Lost => println!("tick {tick}, count {count}: lost, no stream that goes on begins like this"),
            Verdict::AlreadyFailed => println!("tick {tick}, count {count}: already failed"),
        }
    }
}

fn run() -> Result<(), Refusal> {
    // At most 3 in two ticks, 4 to 9 in five, 10 to 14 in eight.
    let given = read(b"window,least,most\r\n2,0,3\r\n5,4,9\r\n8,10,14\r\n")?;
    print_curves("as written", &given);
    let (closed, rounds) = given.close()?;
    print_curves("closed", &closed);
    println!("rounds that changed a figure: {rounds}");

    let choices: Vec<u32> = (0..20).map(|tick| 7 * tick * tick + 3).collect();
    if let Err(Refusal(number)) = given.generator() {
        println!("a generator on the curves as written: refused with {number}");
    }
    let sent = closed.generator()?.send(&choices)?;
    println!("sent: {sent:?}");
    print_verdicts(&sent, &closed.monitor()?.judge(&sent)?);

    // The same traffic with two messages missing in tick 16: every window up to 7 ticks still has enough.
    let mut wrong = sent.clone();
    wrong[16] -= 2;
    print_verdicts(&wrong, &closed.monitor()?.judge(&wrong)?);

    // On the curves as written: 3 in four ticks keep every figure so far, but the next four have 6 at most, and eight need 10.
    let start = [2, 0, 1, 0, 2, 1];
    print_verdicts(&start, &given.monitor()?.judge(&start)?);

    // Two bursts that could follow what was sent, tried before either is. Two ticks have 3 at most.
    let mut monitor = given.monitor()?;
    monitor.judge(&sent)?;
    for burst in [[2, 1, 2, 2], [2, 1, 2, 1]] {
        match monitor.preview(&burst)? {
            (_, Verdict::Passed) => println!("tried {burst:?}: all would pass"),
            (place, Verdict::TooMany(window)) => println!("tried {burst:?}: place {place} has too many in the window of {window}"),
            (place, _) => println!("tried {burst:?}: place {place} would be rejected"),
        }
    }
    sporadic()?;
    long_stream(&given, &closed)
}

/// A bus with leasts alone: 2 in three ticks, 4 in five. No count is too many, and no stream is lost.
fn sporadic() -> Result<(), Refusal> {
    let given = read(b"window,least,most\r\n3,2,\r\n5,4,\r\n")?;
    print_curves("sporadic", &given);
    let (closed, rounds) = given.close()?;
    print_curves("closed", &closed);
    println!("rounds that changed a figure: {rounds}");
    // A choice of 0 is the fewest messages that keep every window; one of 16,776,960 sends as many where the fewest is 0, as here.
    let sent = closed.generator()?.send(&[0, 0, 0, 0, 0, 0, 16_776_960, 0, 0, 0])?;
    println!("sent: {sent:?}");
    let heard = [4_000_000_000, 0, 0, 1, 0, 3];
    print_verdicts(&heard, &given.monitor()?.judge(&heard)?);
    Ok(())
}

/// A thousand lists of a thousand ticks each, on one generator and one monitor: pieces of one stream. The monitor is opened on the curves
/// as written, and passes all that keeps the closed ones.
fn long_stream(given: &Curves, closed: &Curves) -> Result<(), Refusal> {
    let (mut generator, mut monitor) = (closed.generator()?, given.monitor()?);
    let (mut messages, mut rejected, mut number) = (0, 0, 1u32);
    for _ in 0..1_000 {
        let choices: Vec<u32> = (0..1_000)
            .map(|_| {
                number = number.wrapping_mul(1_664_525).wrapping_add(1_013_904_223);
                number >> 8
            })
            .collect();
        let sent = generator.send(&choices)?;
        messages += sent.iter().sum::<u32>();
        rejected += sent.len() - passed(&monitor.judge(&sent)?);
    }
    println!("1000000 ticks in pieces of 1000: {messages} messages sent, {rejected} ticks rejected");
    Ok(())
}

fn main() {
    if let Err(Refusal(number)) = run() {
        println!("refused with {number}");
    }
}
