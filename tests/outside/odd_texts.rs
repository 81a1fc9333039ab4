//! Good texts with something changed at some place, and texts put together from parts that are nearly good.

use crate::random::Rng;
use crate::texts::{good, written};

/// Fields that are numbers or nearly are.
const FIELDS: &[&[u8]] = &[
    b"0",
    b"1",
    b"2",
    b"3",
    b"9",
    b"10",
    b"255",
    b"256",
    b"257",
    b"999",
    b"65534",
    b"65535",
    b"65536",
    b"99999",
    b"00",
    b"01",
    b"007",
    b"000",
    b"00000",
    b"100000",
    b"000001",
    b"123456",
    b"4294967296",
    b"4294967297",
    b"18446744073709551617",
    b"",
    b"-1",
    b"-0",
    b"+1",
    b" 1",
    b"1 ",
    b"1.0",
    b"1e2",
    b"0x1",
    b"\"1\"",
    b"'1'",
    b"a",
    b"1a",
    b"1\r",
    b"\r1",
    b"1\n",
    b"\n1",
    b"1\n\r",
    b"\t1",
    b"1_0",
    b"\xd9\xa3",
    b"\xb1",
    b"\xff",
    b"\x00",
    b"1\x00",
    b";",
    b"1;1",
    b"/",
    b":",
];

const BYTES: &[u8] = b"0123456789,,,\r\n-+ \"'aw;/:\x00\x7f\x80\xb1\xff";

fn place(rng: &mut Rng, text: &[u8]) -> usize {
    rng.length(0, text.len())
}

/// One edit at any place.
fn edit(rng: &mut Rng, text: &mut Vec<u8>) {
    let at = place(rng, text);
    match rng.below(4) {
        0 => text.insert(at, rng.pick(BYTES)),
        1 if at < text.len() => {
            text.remove(at);
        }
        2 if at + 1 < text.len() => text.swap(at, at + 1),
        _ if at < text.len() => text[at] = rng.pick(BYTES),
        _ => text.push(rng.pick(BYTES)),
    }
}

pub fn edited(rng: &mut Rng) -> Vec<u8> {
    let mut text = good(rng);
    for _ in 0..rng.between(1, 3) {
        edit(rng, &mut text);
    }
    text
}

pub fn cut(rng: &mut Rng) -> Vec<u8> {
    let mut text = good(rng);
    let at = place(rng, &text);
    text.truncate(at);
    text
}

/// A field that is good as a window or figure mostly.
fn field(rng: &mut Rng) -> Vec<u8> {
    if rng.one_in(3) {
        rng.pick(FIELDS).to_vec()
    } else {
        rng.below(20).to_string().into_bytes()
    }
}

/// Records of which any field may be empty, or be missing together with its comma: only the last of three may.
pub fn empty_fields(rng: &mut Rng) -> Vec<u8> {
    let mut text = written(&[]);
    for window in 1..=rng.between(1, 3) {
        let fields = [window.to_string(), rng.below(9).to_string(), rng.between(7, 20).to_string()];
        let record = match rng.below(8) {
            0 => fields[..2].join(","),
            1 => rng
                .pick(&[",", ",,", ",,,", "1,,", ",1,", ",,1", ",1,2", "3,1,,", "3,1, ", "3,1,0,"])
                .to_string(),
            2..=4 => format!("{},{},", fields[0], fields[1]),
            _ => {
                let left = fields.map(|field| if rng.one_in(8) { String::new() } else { field });
                left.join(",")
            }
        };
        text.extend(record.bytes());
        text.extend(b"\r\n");
    }
    if rng.one_in(3) {
        text.truncate(text.len() - 2);
    }
    text
}

/// Records of any fields, three of them mostly.
pub fn records(rng: &mut Rng) -> Vec<u8> {
    let mut text = written(&[]);
    for _ in 0..rng.between(1, 3) {
        let fields = rng.pick(&[3, 3, 3, 3, 3, 3, 1, 2, 4, 5]);
        let list: Vec<Vec<u8>> = (0..fields).map(|_| field(rng)).collect();
        text.extend(list.join(&b','));
        text.extend(b"\r\n");
    }
    text
}

/// The end of some line another than CR LF, or one more of it.
pub fn line_end(rng: &mut Rng) -> Vec<u8> {
    let text = good(rng);
    let ends: Vec<usize> = (0..text.len()).filter(|&at| text[at..].starts_with(b"\r\n")).collect();
    if ends.is_empty() {
        return text;
    }
    let end = rng.pick(&ends);
    let other: &[u8] = rng.pick(&[
        b"\n" as &[u8],
        b"\r",
        b"\n\r",
        b"\r\r\n",
        b"\r\n\n",
        b"\r\n\r",
        b"\r\n\r\n",
        b"",
        b" \r\n",
        b",\r\n",
        b"\x85",
    ]);
    let mut changed = text[..end].to_vec();
    changed.extend(other);
    changed.extend(&text[end + 2..]);
    changed
}

/// The header by itself, spoilt, or with something else after it.
pub fn header(rng: &mut Rng) -> Vec<u8> {
    let starts: [&[u8]; 12] = [
        b"window,least,most",
        b"window,least,most\r",
        b"window,least,most\n",
        b"window,least,most ",
        b"window,least,most,",
        b"window,least,mosts",
        b"window,least",
        b"Window,least,most",
        b"window,most,least",
        b"\"window\",least,most",
        b"\xef\xbb\xbfwindow,least,most",
        b"",
    ];
    let start = if rng.one_in(3) { starts[0] } else { rng.pick(&starts) };
    let mut text = start.to_vec();
    let ends: [&[u8]; 7] = [
        b"",
        b"\r\n",
        b"\r\n\r\n",
        b"\n1,0,1\r\n",
        b"\r\n1,0,1",
        b"\r\n1,0,1\r\n",
        b"\r\n1,0,1\r\n\r\n",
    ];
    text.extend(rng.pick(&ends));
    text
}
