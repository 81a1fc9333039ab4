//! Constraint texts to try: good ones, ones with several faults, long ones, and those of `odd_texts`.

use crate::odd_texts;
use crate::random::Rng;
use crate::subject::{HEADER, LONGEST_HORIZON, LONGEST_TEXT, TEXT_LIMIT};

pub struct Constraint {
    pub window: u32,
    pub least: u32,
    pub most: Option<u32>,
}

/// Takes the most away from some records, from all, or from none.
fn leave_out_mosts(rng: &mut Rng, list: &mut [Constraint]) {
    let kind = rng.below(4);
    for constraint in list {
        if kind == 0 || (kind == 1 && rng.one_in(2)) {
            constraint.most = None;
        }
    }
}

/// Records about a common rate, so that many of the texts have closed curves.
fn constraints(rng: &mut Rng) -> Vec<Constraint> {
    let (longest, most_events) = match rng.below(100) {
        0 => (LONGEST_HORIZON as u32, 65_535),
        1..=10 => (40, 5_000),
        _ => (rng.pick(&[1, 3, 5, 9, 12]), 40),
    };
    let count = if longest > 200 && rng.one_in(4) {
        longest
    } else {
        rng.between(1, longest.min(9))
    };
    let (events, ticks, slack) = (rng.below(most_events + 1), rng.between(1, longest), rng.pick(&[1, 2, 5, 40]));
    let mut windows: Vec<u32> = (1..=longest).collect();
    let mut list = Vec::new();
    for _ in 0..count {
        let window = windows.swap_remove(rng.length(0, windows.len() - 1));
        let share = window * events / ticks;
        let most = Some((share + rng.below(slack + 1)).min(TEXT_LIMIT));
        let least = share.saturating_sub(rng.below(slack)).min(TEXT_LIMIT) * rng.below(2);
        list.push(Constraint { window, least, most });
    }
    leave_out_mosts(rng, &mut list);
    list
}

pub fn written(list: &[Constraint]) -> Vec<u8> {
    let mut text = HEADER.to_vec();
    text.extend(b"\r\n");
    for constraint in list {
        let most = constraint.most.map_or(String::new(), |most| most.to_string());
        text.extend(format!("{},{},{most}\r\n", constraint.window, constraint.least).bytes());
    }
    text
}

pub fn good(rng: &mut Rng) -> Vec<u8> {
    let mut text = written(&constraints(rng));
    if rng.one_in(3) {
        text.truncate(text.len() - 2);
    }
    text
}

/// Good records among which there are bad ones of several kinds: the first bad one decides.
fn several_faults(rng: &mut Rng) -> Vec<u8> {
    let mut text = written(&[]);
    let mut window = 0;
    for _ in 0..rng.between(2, 6) {
        let repeated = rng.between(0, window).max(1);
        let most = rng.pick(&["7", ""]);
        let record = match rng.below(14) {
            0 => format!("{repeated},0,{most}\r\n"),
            1 => format!("{repeated},0,65536\r\n"),
            2 => format!("{repeated},x,{most}\r\n"),
            3 => format!("257,0,{most}\r\n"),
            4 => "0,99999,01\r\n".to_string(),
            5 => "1,2\r\n".to_string(),
            6 => format!("1,65536,{most}\r\n"),
            7 => format!("{repeated},,{most}\r\n"),
            _ => {
                window += 1;
                format!("{window},0,{most}\r\n")
            }
        };
        text.extend(record.bytes());
    }
    text
}

/// Texts about as long as a text may be, and longer. Each is refused; by which number depends on the first fault in it.
fn long(rng: &mut Rng) -> Vec<u8> {
    let length = rng.pick(&[
        LONGEST_TEXT - 1,
        LONGEST_TEXT,
        LONGEST_TEXT,
        LONGEST_TEXT + 1,
        LONGEST_TEXT + 1,
        LONGEST_TEXT + 2,
        40_000,
    ]);
    let missing = rng.between(0, LONGEST_HORIZON as u32);
    let all: Vec<Constraint> = (1..=LONGEST_HORIZON as u32)
        .map(|window| Constraint {
            window,
            least: 0,
            most: (window != missing).then_some(TEXT_LIMIT),
        })
        .collect();
    let (mut text, filler): (Vec<u8>, &[u8]) = match rng.below(6) {
        0 => (written(&all), b"1,0,1\r\n"),
        1 => (written(&all), b"0"),
        2 => (written(&[]), b"0,0,1\r\n"),
        3 => (written(&[]), b"1"),
        4 => (good(rng), b"\r\n"),
        _ => (HEADER.to_vec(), b","),
    };
    while text.len() < length {
        text.extend(filler);
    }
    text.truncate(length);
    text
}

/// A few records, each with a figure at a limit.
fn at_limits(rng: &mut Rng) -> Vec<u8> {
    let windows = [1, 1, 2, 255, 256, 257, 0, 99_999];
    let figures = [0, 1, 65_534, 65_535, 65_535, 65_536, 99_999];
    let bad = rng.one_in(2);
    let (windows, figures) = if bad {
        (&windows[..], &figures[..])
    } else {
        (&windows[..5], &figures[..5])
    };
    let constraint = |rng: &mut Rng| Constraint {
        window: rng.pick(windows),
        least: rng.pick(figures),
        most: Some(rng.pick(figures)).filter(|_| !rng.one_in(4)),
    };
    let list: Vec<Constraint> = (0..rng.between(1, 2)).map(|_| constraint(rng)).collect();
    written(&list)
}

/// A text of any kind.
pub fn any(rng: &mut Rng) -> Vec<u8> {
    match rng.below(100) {
        0..=25 => good(rng),
        26..=29 => odd_texts::empty_fields(rng),
        30..=49 => odd_texts::edited(rng),
        50..=59 => odd_texts::cut(rng),
        60..=71 => odd_texts::records(rng),
        72..=79 => odd_texts::line_end(rng),
        80..=84 => odd_texts::header(rng),
        85..=97 => several_faults(rng),
        98 => long(rng),
        _ => at_limits(rng),
    }
}
