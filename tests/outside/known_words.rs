//! Words, runs, previews, looks and texts with answers worked out beforehand.

use crate::subject::{Subject, GENERATOR_WORDS, LIMIT, MONITOR_WORDS, NO_COUNT};

/// A list of 0s, but for the entries from each place on.
fn words(length: usize, parts: &[(usize, &[u32])]) -> Vec<u32> {
    let mut list = vec![0; length];
    for (place, part) in parts {
        list[*place..place + part.len()].copy_from_slice(part);
    }
    list
}

fn expect<T: PartialEq + std::fmt::Debug>(name: &str, expected: T, came: T) -> Result<(), String> {
    if expected == came {
        return Ok(());
    }
    Err(format!("{name}\nexpected {expected:?}\ncame {came:?}"))
}

/// The README's example of margins: at most 10 in one tick, 16 in two and 20 in three, and at least 2 in two and 4 in three. These curves
/// are closed.
fn check_margins(subject: &dyn Subject) -> Result<(), String> {
    let (upper, lower) = ([10, 16, 20], [0, 2, 4]);
    let mut state = vec![5; MONITOR_WORDS];
    expect("open the example's monitor", 0, subject.open_monitor(&upper, &lower, 0, &mut state))?;
    let opened = [(0, &[3, 0][..]), (2, &upper), (258, &lower), (771, &upper), (1_027, &lower)];
    expect("the example's words", words(MONITOR_WORDS, &opened), state.clone())?;
    let (mut verdicts, mut margins) = ([9; 8], [9; 5]);
    let ran = subject.run_monitor(&mut state, &[5, 6, 6, 7, 7, 12, 1], &mut verdicts, &mut margins);
    expect("the example's verdicts", (7, [0, 0, 0, 0, 0, 1_001, 3_000, 9]), (ran, verdicts))?;
    expect("the example's margins", [5, 4, 3, 1, 0], margins)?;
    let after = [&opened[..], &[(514, &[2, 7, 7]), (1_283, &[1])]].concat();
    expect("the example's words after it", words(MONITOR_WORDS, &after), state.clone())?;
    let mut margins = [9; 2];
    state[1_283] = 7;
    let ran = subject.run_monitor(&mut state, &[1], &mut verdicts[..1], &mut margins);
    expect("a tick after it", (1, 3_000, [0, 9], 7), (ran, verdicts[0], margins, state[1_283]))?;
    state[1_283] = 0;
    let ran = subject.run_monitor(&mut state, &[12], &mut verdicts[..1], &mut margins);
    expect(
        "its last count by itself",
        (1, 1_001, [-6, 9], 1),
        (ran, verdicts[0], margins, state[1_283]),
    )
}

/// The published pair as it is read, in a generator built by hand: after 0, 2, 1, 0, 2, 0 three ticks have 1 at most, and five need 2.
fn check_stuck(subject: &dyn Subject) -> Result<(), String> {
    let pair = [(0, &[5, 0][..]), (2, &[3, 6, 3, 12, 9]), (258, &[0, 0, 0, 0, 5])];
    let mut state = words(GENERATOR_WORDS, &pair);
    state[770] = 99;
    expect("a look at the published pair", 3 << 32, subject.look(&state))?;
    let mut counts = [1; 8];
    let ran = subject.run_generator(&mut state, &[0, 2, 1, 0, 0, 0, 5, 5], &mut counts);
    let sent = [0, 2, 1, 0, 2, 0, NO_COUNT, NO_COUNT];
    expect("counts of the published pair", (8, sent), (ran, counts))?;
    let mut after = words(GENERATOR_WORDS, &[&pair[..], &[(514, &[4, 1, 0, 2, 0])]].concat());
    after[770] = 99;
    expect("its words after that", &after, &state)?;
    expect("a look where there is no count", -13, subject.look(&state))?;
    state[514] = 5;
    expect("a look at as many held ticks as the horizon", -12, subject.look(&state))?;
    expect("an empty list there", -12, subject.run_generator(&mut state, &[], &mut []))
}

/// On a closed pair, after 2, 1 the counts 0 to 2 can follow, after two more 0 and 1; without ceilings, what is missing up to the limit.
fn check_looks(subject: &dyn Subject) -> Result<(), String> {
    let mut state = [0; GENERATOR_WORDS];
    expect("open", 0, subject.open_generator(&[2, 3, 5, 5], &[0, 0, 1, 3], 0, &mut state))?;
    for (choices, range) in [([2, 1], 2 << 32), ([0, 2], 1 << 32)] {
        expect("run", 2, subject.run_generator(&mut state, &choices, &mut [0; 3]))?;
        expect("a look at what can follow", range, subject.look(&state))?;
    }
    expect("open", 0, subject.open_generator(&[7; 3], &[0, 0, 2], 9, &mut state))?;
    expect(
        "words without ceilings",
        words(GENERATOR_WORDS, &[(0, &[3, 1]), (260, &[2])]),
        state.to_vec(),
    )?;
    expect("run", 2, subject.run_generator(&mut state, &[0, 1], &mut [0; 2]))?;
    expect("a look without ceilings", (i64::from(LIMIT) << 32) + 1, subject.look(&state))?;
    expect(
        "a list of words too long",
        12,
        subject.open_generator(&[1], &[1], 0, &mut [0; GENERATOR_WORDS + 1]),
    )
}

fn check_texts(subject: &dyn Subject) -> Result<(), String> {
    for (mark, text) in [
        (0, &b"window,least,most\r\n1,1,30\r\n2,2,6\r\n##"[..]),
        (5, b"window,least,most\r\n1,1,\r\n2,2,\r\n##"),
    ] {
        let mut output = vec![b'#'; text.len()];
        let length = subject.render(&[30, 6], &[1, 2], mark, &mut output);
        expect("render two windows", (text.len() as i64 - 2, text), (length, output.as_slice()))?;
        let mut short = [b'#'; 5];
        expect("their length", length, subject.render(&[30, 6], &[1, 2], mark, &mut short))?;
        expect("five bytes", b"windo", &short)?;
    }
    let refused = [
        (&[][..], &[][..], -1),
        (&[1], &[1, 1], -2),
        (&[LIMIT + 1], &[0], -4),
        (&[0], &[LIMIT + 1], -4),
    ];
    for (upper, lower, number) in refused {
        expect("render", number, subject.render(upper, lower, 0, &mut []))?;
    }
    Ok(())
}

/// On the published pair one message a tick passes. A tick without one is lost, one with four has too many.
fn check_previews(subject: &dyn Subject) -> Result<(), String> {
    let mut state = [0; MONITOR_WORDS];
    expect("open", 0, subject.open_monitor(&[3, 6, 3, 12, 9], &[0, 0, 0, 0, 5], 0, &mut state))?;
    let tried = |state: &[u32], counts: &[u32]| {
        let mut verdict = 7;
        (subject.preview(&mut state.to_vec(), counts, &mut verdict), verdict)
    };
    expect("a preview of ones", (3, 0), tried(&state, &[1, 1, 1]))?;
    expect("a preview of what is lost", (1, 4_000), tried(&state, &[1, 0, 9]))?;
    expect("a preview of four", (0, 1_001), tried(&state, &[4]))?;
    state[1_283] = 1;
    expect("nothing tried on what has failed", (0, 0), tried(&state, &[]))?;
    expect("one tried there", (0, 3_000), tried(&state, &[1]))?;
    state[0] = 257;
    expect("nothing tried on words that are no state", (-12, 7), tried(&state, &[]))?;
    expect("nor on too few", (-12, 7), tried(&state[1..], &[1]))
}

pub fn check(subject: &dyn Subject) -> Result<(), String> {
    check_previews(subject)?;
    check_margins(subject)?;
    check_stuck(subject)?;
    check_looks(subject)?;
    check_texts(subject)
}
