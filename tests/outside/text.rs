//! Constraint texts by cutting: the text into lines at CR LF, a line into fields at commas.

use crate::pair::{closure, Pair};
use crate::rounds::opening;
use crate::subject::{answered, refused, HEADER, LONGEST_HORIZON, LONGEST_TEXT, TEXT_LIMIT};

struct Record {
    window: u32,
    least: u32,
    most: Option<u32>,
}

/// The parts between the places where CR LF stands; one part more than there are such places.
fn lines(text: &[u8]) -> Vec<&[u8]> {
    let mut parts = Vec::new();
    let mut start = 0;
    let mut place = 0;
    while place < text.len() {
        if text[place..].starts_with(b"\r\n") {
            parts.push(&text[start..place]);
            place += 2;
            start = place;
        } else {
            place += 1;
        }
    }
    parts.push(&text[start..]);
    parts
}

/// A field is a number when writing that number gives the field again, which leaves no room for a sign, a blank or a leading zero.
fn number(field: &[u8]) -> Option<u32> {
    let written = std::str::from_utf8(field).ok()?;
    let value: u32 = written.parse().ok()?;
    if written.len() <= 5 && value.to_string() == written {
        Some(value)
    } else {
        None
    }
}

/// Which of the questions 7, 8 and 9 a line has the answer no to, each asked by itself. `named` has the windows named before.
fn faults(line: &[u8], named: &[u32]) -> Vec<u32> {
    let parts: Vec<&[u8]> = line.split(|&byte| byte == b',').collect();
    let fields: Vec<Option<u32>> = parts.iter().map(|part| number(part)).collect();
    let no_most = parts.len() == 3 && parts[2].is_empty();
    let numbers = if no_most { &fields[..2] } else { &fields[..] };
    let ill_formed = parts.len() != 3 || numbers.contains(&None);
    let ranges = [1..=LONGEST_HORIZON as u32, 0..=TEXT_LIMIT, 0..=TEXT_LIMIT];
    let out_of_range = fields
        .iter()
        .zip(ranges)
        .any(|(field, range)| field.is_some_and(|value| !range.contains(&value)));
    let repeated = fields[0].is_some_and(|window| named.contains(&window));
    let asked = [(7, ill_formed), (8, out_of_range), (9, repeated)];
    asked.iter().filter(|question| question.1).map(|question| question.0).collect()
}

/// The record of a line without faults. Its last field may be empty.
fn record(line: &[u8]) -> Record {
    let value = |field: usize| line.split(|&byte| byte == b',').nth(field).and_then(number);
    Record {
        window: value(0).unwrap_or(0),
        least: value(1).unwrap_or(0),
        most: value(2),
    }
}

/// The lines after the header. The empty part after a last CR LF is no record; the one after a second CR LF is.
fn record_lines(text: &[u8]) -> Vec<&[u8]> {
    let mut parts = lines(text);
    if parts.len() > 1 && parts[parts.len() - 1].is_empty() {
        parts.pop();
    }
    parts.remove(0);
    parts
}

/// The records of a text, or the number of its refusal.
fn records(text: &[u8]) -> Result<Vec<Record>, u32> {
    if text.len() > LONGEST_TEXT || lines(text)[0] != HEADER {
        return Err(6);
    }
    let mut list: Vec<Record> = Vec::new();
    let mut named = Vec::new();
    for line in record_lines(text) {
        if let Some(&number) = faults(line, &named).first() {
            return Err(number);
        }
        list.push(record(line));
        named.push(record(line).window);
    }
    if list.is_empty() {
        return Err(10);
    }
    Ok(list)
}

/// All faults of all lines after the header, whatever else is wrong with the text: those of one line first, then those of the next.
pub fn all_faults(text: &[u8]) -> Vec<Vec<u32>> {
    let mut named = Vec::new();
    let mut list = Vec::new();
    for line in record_lines(text) {
        let found = faults(line, &named);
        if found.is_empty() {
            named.push(record(line).window);
        }
        list.push(found);
    }
    list
}

/// How many of the records of a text without faults have a most: 0 none, 1 some, 2 all.
pub fn mosts(text: &[u8]) -> Option<u32> {
    let list = records(text).ok()?;
    let given = list.iter().filter(|record| record.most.is_some()).count();
    Some(u32::from(given > 0) + u32::from(given == list.len()))
}

/// The pair of a text. Where no record has a most it is unlimited, and its list of ceilings is here as long as the horizon.
pub fn pair(text: &[u8]) -> Result<Pair, u32> {
    let list = records(text)?;
    let horizon = list.iter().map(|record| record.window).max().unwrap_or(0);
    let smallest = list.iter().filter_map(|record| record.most).min();
    let named = |window: u32| list.iter().find(|record| record.window == window);
    let upper = (1..=horizon).map(|window| {
        let most = named(window).and_then(|record| record.most);
        most.unwrap_or(window * smallest.unwrap_or(0))
    });
    let lower = (1..=horizon).map(|window| named(window).map_or(0, |record| record.least));
    Ok(Pair {
        upper: upper.collect(),
        lower: lower.collect(),
        mark: u32::from(smallest.is_none()),
    })
}

/// Reading as a whole: the pair into the first entries of the result lists, and of one of them where there are no ceilings.
pub fn read_into(text: &[u8], upper: &mut [u32], lower: &mut [u32]) -> u64 {
    let found = match pair(text) {
        Err(number) => return refused(number),
        Ok(found) => found,
    };
    let horizon = found.horizon();
    if upper.len() < horizon || lower.len() < horizon {
        return refused(11);
    }
    if !found.unlimited() {
        upper[..horizon].copy_from_slice(&found.upper);
    }
    lower[..horizon].copy_from_slice(&found.lower);
    answered(horizon as u32, found.unlimited())
}

/// The closure of a text's pair, or the number of the refusal. No figure of such a pair is above a limit of closing.
fn closure_of(text: &[u8]) -> Result<Pair, u32> {
    closure(&pair(text)?).ok_or(5)
}

/// The text of a pair: the header and a record for each window.
pub fn written(pair: &Pair) -> Vec<u8> {
    let mut text = format!("{}\r\n", String::from_utf8_lossy(HEADER));
    for window in 1..=pair.horizon() {
        let most = pair.ceiling(window).map_or(String::new(), |most| most.to_string());
        text += &format!("{window},{},{most}\r\n", pair.least(window));
    }
    text.into_bytes()
}

/// All that is to be written for a text, and the number of the refusal in it or 0.
pub fn report(text: &[u8]) -> (Vec<u8>, u32) {
    match closure_of(text) {
        Err(number) => (format!("refused {number}\r\n").into_bytes(), number),
        Ok(closed) => (written(&closed), 0),
    }
}

/// Bytes into a list that may be too short for them; how many there are.
fn put_into(bytes: &[u8], output: &mut [u8]) -> usize {
    let room = bytes.len().min(output.len());
    output[..room].copy_from_slice(&bytes[..room]);
    bytes.len()
}

/// A report as a whole.
pub fn report_into(text: &[u8], output: &mut [u8]) -> usize {
    put_into(&report(text).0, output)
}

/// Rendering as a whole: the questions of an opening on the pair, then its text.
pub fn render_into(pair: &Pair, output: &mut [u8]) -> i64 {
    match opening(pair, None) {
        0 => put_into(&written(pair), output) as i64,
        number => -i64::from(number),
    }
}
