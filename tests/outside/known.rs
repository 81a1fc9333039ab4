//! Figures with answers worked out beforehand, so that the reference is held to something outside itself too.

use crate::pair::Pair;
use crate::random::Rng;
use crate::reference::Reference;
use crate::subject::{refusal_of, refused, shown, Subject, LIMIT};
use crate::tally::Tally;
use crate::{closings, known_streams, known_words, pairs, reading, rounds};

type Figures = &'static [u32];

struct Closing {
    upper: Figures,
    lower: Figures,
    mark: u32,
    answer: u64,
    closed_upper: Figures,
    closed_lower: Figures,
}

const fn closes(upper: Figures, lower: Figures, rounds: u64, closed_upper: Figures, closed_lower: Figures) -> Closing {
    Closing {
        upper,
        lower,
        mark: 0,
        answer: rounds,
        closed_upper,
        closed_lower,
    }
}

/// Without ceilings: the list for them stays as it is.
const fn closes_leasts(upper: Figures, lower: Figures, mark: u32, rounds: u64, closed_lower: Figures) -> Closing {
    Closing {
        upper,
        lower,
        mark,
        answer: 65_536 + rounds,
        closed_upper: &NINES,
        closed_lower,
    }
}

const fn refuses(upper: Figures, lower: Figures, number: u64) -> Closing {
    refuses_marked(upper, lower, 0, number)
}

const fn refuses_marked(upper: Figures, lower: Figures, mark: u32, number: u64) -> Closing {
    Closing {
        upper,
        lower,
        mark,
        answer: number << 32,
        closed_upper: &[],
        closed_lower: &[],
    }
}

/// What the result lists hold before a call.
const NINES: [u32; 9] = [9; 9];

const LARGEST: u32 = u32::MAX;

const ONES: Figures = &[1, 2, 3, 4, 5];
const LOOSE: Figures = &[LIMIT, LIMIT, LIMIT, LIMIT, 4, LIMIT];

const CLOSINGS: &[Closing] = &[
    closes(&[7], &[2], 0, &[7], &[2]),
    refuses(&[2], &[7], 5),
    closes(&[0], &[0], 0, &[0], &[0]),
    closes(&[5, 3], &[0, 0], 1, &[3, 3], &[0, 0]),
    closes(&[1, 2], &[0, 2], 1, &[1, 2], &[1, 2]),
    refuses(&[2, 2, 5], &[0, 0, 4], 5),
    closes(&[2, 3, 5, 5], &[0, 0, 0, 3], 1, &[2, 3, 5, 5], &[0, 0, 1, 3]),
    closes(&[3, 6, 3, 12, 9], &[0, 0, 0, 0, 5], 4, ONES, ONES),
    closes(&[LIMIT], &[0], 0, &[LIMIT], &[0]),
    closes(&[LIMIT], &[LIMIT], 0, &[LIMIT], &[LIMIT]),
    refuses(&[LIMIT + 1], &[0], 4),
    refuses(&[0], &[LIMIT + 1], 4),
    refuses(&[], &[], 1),
    refuses(&[], &[1], 1),
    refuses(&[1], &[], 2),
    // Two windows whose rates conflict, though the cycle that they make does not fit in a window of the horizon.
    refuses(LOOSE, &[0, 0, 0, 0, 0, 5], 5),
    closes(LOOSE, &[0, 0, 0, 0, 0, 4], 2, &[4, 4, 4, 4, 4, 8], &[0, 0, 0, 0, 0, 4]),
    // Without ceilings: two in three ticks and four in five are six in eight.
    closes_leasts(&[0; 5], &[0, 0, 2, 0, 4], 1, 1, &[0, 0, 2, 2, 4]),
    closes_leasts(&[LARGEST; 8], &[0, 0, 2, 0, 4, 0, 0, 0], LARGEST, 1, &[0, 0, 2, 2, 4, 4, 4, 6]),
    closes_leasts(&[7; 5], &[1, 0, 0, 0, 0], 65_536, 3, &[1, 2, 3, 4, 5]),
    closes_leasts(&[2], &[7], 2, 0, &[7]),
    closes_leasts(&[0, 0], &[65_535, 0], 1, 1, &[65_535, 131_070]),
    refuses_marked(&[0, 0], &[65_535, 131_070], 1, 4),
    refuses_marked(&[LIMIT], &[65_536], 1, 4),
    refuses_marked(&[], &[], 1, 1),
    refuses_marked(&[1], &[], 1, 2),
];

fn check_closing(subject: &dyn Subject, known: &Closing) -> Result<(), String> {
    let horizon = known.upper.len();
    let (mut closed_upper, mut closed_lower) = (NINES[..horizon].to_vec(), NINES[..horizon].to_vec());
    let answer = subject.close(known.upper, known.lower, known.mark, &mut closed_upper, &mut closed_lower);
    let untouched = answer >> 32 != 0 && closed_upper.iter().chain(&closed_lower).all(|&entry| entry == 9);
    let as_known = known.closed_upper.starts_with(&closed_upper) && closed_lower == known.closed_lower;
    if answer == known.answer && (untouched || as_known) {
        return Ok(());
    }
    let input = Pair::marked(known.upper, known.lower, known.mark).shown();
    let input = format!("close\n{input}");
    let expected = format!("{}\n  {:?}\n  {:?}", shown(known.answer), known.closed_upper, known.closed_lower);
    Err(format!(
        "{input}\nexpected {expected}\ncame {}\n  {closed_upper:?}\n  {closed_lower:?}",
        shown(answer)
    ))
}

const TEXTS: &[(&[u8], &[u8])] = &[
    (
        b"window,least,most\r\n3,0,3\r\n5,5,9\r\n",
        b"window,least,most\r\n1,1,1\r\n2,2,2\r\n3,3,3\r\n4,4,4\r\n5,5,5\r\n",
    ),
    (
        b"window,least,most\r\n3,0,3\r\n5,5,9",
        b"window,least,most\r\n1,1,1\r\n2,2,2\r\n3,3,3\r\n4,4,4\r\n5,5,5\r\n",
    ),
    (b"window,least,most\r\n1,0,65535\r\n", b"window,least,most\r\n1,0,65535\r\n"),
    (b"window,least,most\r\n1,0,65536\r\n", b"refused 8\r\n"),
    (b"window,least,most\r\n0,0,1\r\n", b"refused 8\r\n"),
    (b"window,least,most\r\n257,0,1\r\n", b"refused 8\r\n"),
    (b"window,least,most\r\n1,2,1\r\n", b"refused 5\r\n"),
    (b"window,least,most\r\n1,0,1\r\n1,0,1\r\n1,0\r\n", b"refused 9\r\n"),
    (b"window,least,most", b"refused 10\r\n"),
    (b"window,least,most\r\n", b"refused 10\r\n"),
    (b"window,least,most\r\n\r\n", b"refused 7\r\n"),
    (b"window,least,most\r\n1,0,1\r\n\r\n", b"refused 7\r\n"),
    (b"window,least,most\r", b"refused 6\r\n"),
    (b"window,least,most\n", b"refused 6\r\n"),
    (b"", b"refused 6\r\n"),
    // Records without a most: all of them, or some.
    (
        b"window,least,most\r\n3,2,\r\n5,4,\r\n",
        b"window,least,most\r\n1,0,\r\n2,0,\r\n3,2,\r\n4,2,\r\n5,4,\r\n",
    ),
    (
        b"window,least,most\r\n1,65535,\r\n2,0,",
        b"window,least,most\r\n1,65535,\r\n2,131070,\r\n",
    ),
    (
        b"window,least,most\r\n2,1,\r\n1,0,3\r\n",
        b"window,least,most\r\n1,0,3\r\n2,1,6\r\n",
    ),
    (b"window,least,most\r\n1,0,0\r\n2,1,\r\n", b"refused 5\r\n"),
    (b"window,least,most\r\n1,65536,\r\n", b"refused 8\r\n"),
    (b"window,least,most\r\n1,0,\r\n1,0,\r\n", b"refused 9\r\n"),
    (b"window,least,most\r\n3,7\r\n", b"refused 7\r\n"),
    (b"window,least,most\r\n3,,\r\n", b"refused 7\r\n"),
    (b"window,least,most\r\n3,,7\r\n", b"refused 7\r\n"),
    (b"window,least,most\r\n,1,2\r\n", b"refused 7\r\n"),
    (b"window,least,most\r\n3,1,,\r\n", b"refused 7\r\n"),
    (b"window,least,most\r\n3,1, \r\n", b"refused 7\r\n"),
];

fn check_text(subject: &dyn Subject, text: &[u8], expected: &[u8]) -> Result<(), String> {
    let mut output = vec![b'#'; expected.len() + 9];
    let length = subject.report(text, &mut output);
    if length == expected.len() && output.starts_with(expected) && output[length..].iter().all(|&byte| byte == b'#') {
        return Ok(());
    }
    Err(format!(
        "report b\"{}\"\nexpected b\"{}\"\ncame {length} b\"{}\"",
        text.escape_ascii(),
        expected.escape_ascii(),
        output.escape_ascii()
    ))
}

/// The pair of the long text with a least of 256 in 255 ticks crosses after eight rounds, which only the reference tells.
fn check_crossing() -> Result<(), String> {
    let (mut upper, mut lower) = ([0; 255], [0; 255]);
    Reference.read(b"window,least,most\r\n2,0,2\r\n255,256,65535\r\n", &mut upper, &mut lower);
    let stop = rounds::run(&upper, &lower);
    match (stop.curves.crosses(), stop.rounds) {
        (true, 8) => Ok(()),
        (crosses, rounds) => Err(format!("a crossing after 8 rounds is expected\ncame {crosses} after {rounds}")),
    }
}

/// A least for one tick, and no ceilings: 256 windows take eight rounds, 128 take seven, and 257 are no pair.
fn check_long_leasts(subject: &dyn Subject) -> Result<(), String> {
    for (horizon, answer) in [(128, 65_536 + 7), (256, 65_536 + 8), (257, refused(1))] {
        let mut lower = vec![0; horizon];
        lower[0] = 65_535;
        let (mut closed_upper, mut closed_lower) = (vec![9; 300], vec![9; 300]);
        let came = subject.close(&vec![0; horizon], &lower, 1, &mut closed_upper, &mut closed_lower);
        let ceilings_stay = closed_upper.iter().all(|&entry| entry == 9);
        let last = closed_lower[horizon - 1];
        let closed = refusal_of(answer) != 0 || last == 65_535 * horizon as u32;
        if came != answer || !ceilings_stay || !closed {
            return Err(format!(
                "close {horizon} windows without ceilings, 65535 in one tick\nexpected {}\ncame {}, the last least {last}",
                shown(answer),
                shown(came)
            ));
        }
    }
    Ok(())
}

/// A most for one tick alone fills the ceilings of all 256 windows, up to the largest figure that there is.
fn check_filled_ceilings(subject: &dyn Subject) -> Result<(), String> {
    let (mut upper, mut lower) = ([0; 256], [0; 256]);
    let came = subject.read(b"window,least,most\r\n1,0,65535\r\n256,5,\r\n", &mut upper, &mut lower);
    match (came, upper[0], upper[255], lower[254], lower[255]) {
        (256, 65_535, LIMIT, 0, 5) => Ok(()),
        figures => Err(format!(
            "read a most of 65535 for one tick and a least of 5 for 256\nexpected (256, 65535, {LIMIT}, 0, 5)\ncame {figures:?}"
        )),
    }
}

/// Long lists: 256 windows are a pair, 257 are none; the pair with the most rounds; the longest text that can be good, and longer ones.
fn check_long(subject: &dyn Subject, rng: &mut Rng, tally: &mut Tally) -> Result<(), String> {
    for (horizon, answer) in [(256, 0), (257, refused(1))] {
        let came = subject.close(&vec![LIMIT; horizon], &vec![0; horizon], 0, &mut vec![0; 300], &mut vec![0; 300]);
        if came != answer {
            return Err(format!(
                "close {horizon} windows with no bound\nexpected {}\ncame {}",
                shown(answer),
                shown(came)
            ));
        }
    }
    let nine = pairs::nine_rounds();
    let rounds = subject.close(&nine.upper, &nine.lower, 0, &mut [0; 256], &mut [0; 256]);
    if rounds != 9 {
        return Err(format!(
            "close a ceiling of 200000 for 5 and a least of 10120000 for 253\nexpected 9 rounds\ncame {}",
            shown(rounds)
        ));
    }
    closings::check(subject, &closings::Case::new(rng, nine, 256, 257), true, tally)?;
    check_long_leasts(subject)?;
    check_filled_ceilings(subject)?;
    let mut long = b"window,least,most\r\n2,0,2\r\n255,255,65535\r\n".to_vec();
    for length in [long.len(), 16_384, 16_385] {
        long.resize(length, b'1');
        reading::check_report(subject, &long, 5_799, tally)?;
    }
    for text in [long, reading::longest_good_text(), vec![b'1'; 16_385]] {
        reading::check_reading(subject, &text, &rng.arbitrary(280), &rng.arbitrary(264), tally)?;
        reading::check_report(subject, &text, 5_799, tally)?;
    }
    Ok(())
}

pub fn compare(subject: &dyn Subject, rng: &mut Rng, tally: &mut Tally) -> Result<(), String> {
    check_crossing()?;
    for implementor in [&Reference as &dyn Subject, subject] {
        for known in CLOSINGS {
            check_closing(implementor, known)?;
        }
        for (text, expected) in TEXTS {
            check_text(implementor, text, expected)?;
        }
        known_streams::check(implementor)?;
        known_words::check(implementor)?;
        check_long(implementor, rng, tally)?;
    }
    Ok(())
}
