//! Texts through reading, through the report, and through the figures program.

use std::io::Write;
use std::process::{Command, Stdio};

use crate::random::Rng;
use crate::reference::Reference;
use crate::subject::{mark_of, refusal_of, shown, value_of, Subject, LONGEST_HORIZON, LONGEST_REPORT, TEXT_LIMIT};
use crate::tally::{Tally, FIRST_FAULT, HORIZON, MOSTS, ONE_RECORD, PROGRAM, READING, REPORT, ROOM, SHORT};
use crate::tally::{PROGRAM_MOSTS, UNLIMITED_HORIZON, UNLIMITED_READING, UNLIMITED_REPORT};
use crate::texts::Constraint;
use crate::{text, texts};

/// Bytes or entries on either side of a result list, which no call may touch.
const MARGIN: usize = 4;

fn escaped(bytes: &[u8]) -> String {
    format!("b\"{}\"", bytes.escape_ascii())
}

#[derive(PartialEq)]
struct Read {
    answer: u64,
    upper: Vec<u32>,
    lower: Vec<u32>,
}

impl Read {
    fn shown(&self) -> String {
        format!("{}\n  upper {:?}\n  lower {:?}", shown(self.answer), self.upper, self.lower)
    }
}

fn read(subject: &dyn Subject, text: &[u8], upper: &[u32], lower: &[u32]) -> Read {
    let (mut upper, mut lower) = (upper.to_vec(), lower.to_vec());
    let (upper_end, lower_end) = (upper.len() - MARGIN, lower.len() - MARGIN);
    let answer = subject.read(text, &mut upper[MARGIN..upper_end], &mut lower[MARGIN..lower_end]);
    Read { answer, upper, lower }
}

/// Lengths about the horizon that the text has, or about 8 where it has none.
fn result_length(rng: &mut Rng, text: &[u8]) -> usize {
    let horizon = text::pair(text).map_or(8, |pair| pair.horizon());
    match rng.below(10) {
        0..=3 => LONGEST_HORIZON,
        4..=6 => horizon,
        7 => horizon + rng.length(1, 300),
        8 => horizon - 1,
        _ => rng.length(0, horizon),
    }
}

fn note_reading(text: &[u8], answer: u64, tally: &mut Tally) {
    match refusal_of(answer) {
        0 if mark_of(answer) != 0 => tally.note(UNLIMITED_HORIZON, value_of(answer)),
        0 => tally.note(HORIZON, value_of(answer)),
        number => tally.note(READING, number),
    }
    if let Some(mosts) = text::mosts(text) {
        tally.note(MOSTS, mosts);
        if mosts == 0 && refusal_of(answer) != 0 {
            tally.note(UNLIMITED_READING, refusal_of(answer));
        }
    }
}

/// Texts with two faults, as the two numbers: inside one record, and the first record that has one with a later record that has
/// another. A text that is too long or has no header counts as one with 6 first.
fn note_faults(text: &[u8], tally: &mut Tally) {
    let mut deciding: Vec<u32> = text::pair(text).err().into_iter().filter(|&number| number == 6).collect();
    for found in text::all_faults(text) {
        if let &[first, second] = found.as_slice() {
            tally.note(ONE_RECORD, 10 * first + second);
        }
        deciding.extend(found.first());
    }
    if let Some(&first) = deciding.first() {
        if let Some(other) = deciding.iter().find(|&&number| number != first) {
            tally.note(FIRST_FAULT, 10 * first + other);
        }
    }
}

pub fn compare_reading(subject: &dyn Subject, rng: &mut Rng, tally: &mut Tally) -> Result<(), String> {
    let text = texts::any(rng);
    let (upper_length, lower_length) = (result_length(rng, &text), result_length(rng, &text));
    check_reading(
        subject,
        &text,
        &rng.arbitrary(upper_length + 2 * MARGIN),
        &rng.arbitrary(lower_length + 2 * MARGIN),
        tally,
    )?;
    let room = match rng.below(6) {
        0 => rng.length(0, text::report(&text).0.len() + 3),
        1 => text::report(&text).0.len(),
        2 => LONGEST_REPORT + rng.length(0, 300),
        _ => LONGEST_REPORT,
    };
    check_report(subject, &text, room, tally)
}

pub fn check_reading(subject: &dyn Subject, text: &[u8], upper: &[u32], lower: &[u32], tally: &mut Tally) -> Result<(), String> {
    let expected = read(&Reference, text, upper, lower);
    note_reading(text, expected.answer, tally);
    if upper.len().min(lower.len()) == 2 * MARGIN {
        tally.note(SHORT, refusal_of(expected.answer));
    }
    note_faults(text, tally);
    let came = read(subject, text, upper, lower);
    if came == expected {
        return Ok(());
    }
    let input = format!("read {}\n  upper before {upper:?}\n  lower before {lower:?}", escaped(text));
    let note = format!("(result lists are shown with the {MARGIN} entries before and after them)");
    Err(format!("{input}\nexpected {}\ncame {}\n{note}", expected.shown(), came.shown()))
}

fn report(subject: &dyn Subject, text: &[u8], room: usize) -> (usize, Vec<u8>) {
    let mut output = vec![b'#'; room + 2 * MARGIN];
    let length = subject.report(text, &mut output[MARGIN..MARGIN + room]);
    (length, output)
}

pub fn check_report(subject: &dyn Subject, text: &[u8], room: usize, tally: &mut Tally) -> Result<(), String> {
    let expected = report(&Reference, text, room);
    tally.note(REPORT, text::report(text).1);
    if text::mosts(text) == Some(0) {
        tally.note(UNLIMITED_REPORT, text::report(text).1);
    }
    tally.note(ROOM, 1 + u32::from(room > expected.0) - u32::from(room < expected.0));
    let came = report(subject, text, room);
    if came == expected && came.0 <= LONGEST_REPORT {
        return Ok(());
    }
    let lists = format!(
        "expected {} {}\ncame {} {}",
        expected.0,
        escaped(&expected.1),
        came.0,
        escaped(&came.1)
    );
    Err(format!(
        "report {} into a list of {room}\n{lists}\n(lists are shown with the {MARGIN} bytes before and after them)",
        escaped(text)
    ))
}

/// What the program writes for a text on its standard input.
fn run(program: &str, text: &[u8]) -> Result<Vec<u8>, String> {
    let failed = |error: std::io::Error| format!("{program}: {error}");
    let mut child = Command::new(program)
        .stdin(Stdio::piped())
        .stdout(Stdio::piped())
        .spawn()
        .map_err(failed)?;
    if let Some(mut input) = child.stdin.take() {
        // The program may stop reading once it has seen that a text is too long, so a write that fails is none of its faults.
        let _ = input.write_all(text);
    }
    Ok(child.wait_with_output().map_err(failed)?.stdout)
}

pub fn compare_program(program: &str, rng: &mut Rng, tally: &mut Tally) -> Result<(), String> {
    let text = texts::any(rng);
    let (expected, number) = text::report(&text);
    tally.note(PROGRAM, number);
    if let Some(mosts) = text::mosts(&text) {
        tally.note(PROGRAM_MOSTS, mosts);
    }
    let came = run(program, &text)?;
    if came == expected {
        return Ok(());
    }
    Err(format!(
        "{program} given {}\nexpected {}\ncame {}",
        escaped(&text),
        escaped(&expected),
        escaped(&came)
    ))
}

/// Every window with the longest figures.
pub fn longest_good_text() -> Vec<u8> {
    let all: Vec<Constraint> = (1..=LONGEST_HORIZON as u32)
        .map(|window| Constraint {
            window,
            least: 10_000,
            most: Some(TEXT_LIMIT),
        })
        .collect();
    texts::written(&all)
}
