//! Pairs rendered: the number of a refusal or the length, as many bytes as there is room for, and the rest as it was. A text that reading
//! takes gives the pair back.

use crate::pair::Pair;
use crate::random::Rng;
use crate::reference::Reference;
use crate::scripts::spoil_sometimes;
use crate::subject::{answered, Subject, LONGEST_HORIZON, LONGEST_REPORT, TEXT_LIMIT};
use crate::tally::{Tally, RENDERED, RENDER_ROOM};
use crate::{pairs, script_cases, text, unlimited_pairs};

/// Bytes on either side of the output, which no call may touch.
const MARGIN: usize = 4;

fn rendered(subject: &dyn Subject, pair: &Pair, room: usize) -> (i64, Vec<u8>) {
    let mut output = vec![b'#'; room + 2 * MARGIN];
    let number = subject.render(&pair.upper, &pair.lower, pair.mark, &mut output[MARGIN..MARGIN + room]);
    (number, output)
}

/// A pair of few windows or of all, whose figures may be the largest.
fn pair(rng: &mut Rng) -> Pair {
    let horizon = script_cases::horizon(rng);
    let mut pair = match rng.below(4) {
        0 => unlimited_pairs::to_open(rng, horizon),
        1 => Pair::filled(horizon, rng.pick(&[0, 9, 10, 65_535, 16_776_960]), 0),
        _ => pairs::any(rng, horizon),
    };
    spoil_sometimes(rng, &mut pair);
    pair
}

/// A pair within the limits of a text comes back with its mark.
fn check_read_back(subject: &dyn Subject, pair: &Pair, written: &[u8]) -> Result<(), String> {
    if pair.is_over(TEXT_LIMIT) {
        return Ok(());
    }
    let mut read = Pair::filled(LONGEST_HORIZON, 0, 0);
    let answer = subject.read(written, &mut read.upper, &mut read.lower);
    let horizon = pair.horizon();
    let back = Pair::marked(&read.upper[..horizon], &read.lower[..horizon], pair.mark);
    if answer == answered(horizon as u32, pair.unlimited()) && back == *pair {
        return Ok(());
    }
    Err(format!(
        "what is rendered is read as {answer}\n{}\nof\n{}",
        back.shown(),
        pair.shown()
    ))
}

pub fn compare(subject: &dyn Subject, rng: &mut Rng, tally: &mut Tally) -> Result<(), String> {
    let pair = pair(rng);
    let length = Reference.render(&pair.upper, &pair.lower, pair.mark, &mut []).max(0) as usize;
    let room = match rng.below(4) {
        0 => length,
        1 => rng.length(0, length + 9),
        _ => LONGEST_REPORT,
    };
    let (expected, came) = (rendered(&Reference, &pair, room), rendered(subject, &pair, room));
    if came != expected {
        let shown = |(number, bytes): &(i64, Vec<u8>)| format!("{number} b\"{}\"", bytes.escape_ascii());
        let note = format!("(the output is shown with the {MARGIN} bytes before and after it)");
        let input = format!("render\n{}\n  into {room} bytes", pair.shown());
        return Err(format!("{input}\nexpected {}\ncame {}\n{note}", shown(&expected), shown(&came)));
    }
    tally.note(RENDERED, expected.0.min(0).unsigned_abs() as u32);
    if expected.0 < 0 {
        return Ok(());
    }
    tally.note(RENDER_ROOM, u32::from(room >= length) + u32::from(room > length));
    check_read_back(subject, &pair, &text::written(&pair))
}
