//! Calls on words: an opening, a run, a preview and a look, each put to a subject and compared in all that it gives back and leaves. Every
//! list has entries on either side that no call may touch.

use crate::pair::Pair;
use crate::random::Rng;
use crate::reference::Reference;
use crate::subject::Subject;
use crate::trace::Trace;
use crate::words::Kind;

const MARGIN: usize = 4;
/// What stands on either side of a list, and before the call in one that is written.
const FILLER: u32 = 77;
const MARGIN_FILLER: i64 = -77;

fn padded<T: Copy>(list: &[T], filler: T) -> Vec<T> {
    [&[filler; MARGIN], list, &[filler; MARGIN]].concat()
}

/// The list itself.
fn inner<T>(list: &mut [T]) -> &mut [T] {
    let end = list.len() - MARGIN;
    &mut list[MARGIN..end]
}

/// A run, and how many answers and margins there is room for.
pub struct Run<'a> {
    pub kind: Kind,
    pub words: &'a [u32],
    pub entries: &'a [u32],
    pub room: usize,
    pub margins: usize,
}

/// What a run gives back, and the lists after it.
#[derive(PartialEq)]
pub struct Came {
    pub number: i64,
    words: Vec<u32>,
    answers: Vec<u32>,
    margins: Vec<i64>,
}

impl Came {
    pub fn words(&mut self) -> &mut [u32] {
        inner(&mut self.words)
    }

    pub fn answers(&mut self) -> &mut [u32] {
        inner(&mut self.answers)
    }

    /// The words are shown where they differ from others.
    fn shown(&self, other: &Came) -> String {
        let words = self.words[MARGIN..].iter().zip(&other.words[MARGIN..]).enumerate();
        let differing: Vec<String> = words
            .filter(|(_, (own, other))| own != other)
            .map(|(place, (own, _))| format!("{place}: {own}"))
            .collect();
        let lists = format!("answers {:?}\n  margins {:?}", self.answers, self.margins);
        format!("{}\n  {lists}\n  words that differ {}", self.number, differing.join(", "))
    }
}

impl Run<'_> {
    /// How many ticks have an entry, and room for their answer.
    pub fn ticks(&self) -> usize {
        self.entries.len().min(self.room)
    }

    /// The lists before the run.
    fn lent(&self) -> Came {
        Came {
            number: 0,
            words: padded(self.words, FILLER),
            answers: vec![FILLER; self.room + 2 * MARGIN],
            margins: vec![MARGIN_FILLER; self.margins + 2 * MARGIN],
        }
    }

    fn put_to(&self, subject: &dyn Subject) -> Came {
        let mut came = self.lent();
        let (words, answers, margins) = (inner(&mut came.words), inner(&mut came.answers), inner(&mut came.margins));
        came.number = self.kind.run(subject, words, self.entries, answers, margins);
        came
    }

    /// What must come of it, by the trace of a list in which its entries stand from a place on.
    fn due(&self, trace: &Trace, place: usize) -> Came {
        let mut due = self.lent();
        let ticks = self.ticks();
        due.number = ticks as i64;
        due.words().copy_from_slice(&trace.words_after(place + ticks));
        due.answers()[..ticks].copy_from_slice(&trace.answers[place..place + ticks]);
        let margins = trace.margins.iter().skip(place).take(ticks);
        inner(&mut due.margins)
            .iter_mut()
            .zip(margins)
            .for_each(|(entry, &margin)| *entry = margin);
        due
    }

    fn compared(&self, came: Came, due: Came) -> Result<Came, String> {
        if came == due {
            return Ok(came);
        }
        let lists = format!("words {:?}\n  entries {:?}", self.words, self.entries);
        let room = format!("room for {} answers and {} margins", self.room, self.margins);
        let note = format!("(lists are shown with the {MARGIN} entries before and after them)");
        let found = format!("expected {}\ncame {}", due.shown(&came), came.shown(&due));
        Err(format!("a run of {}\n  {lists}\n{room}\n{found}\n{note}", self.kind.name()))
    }

    /// Against the reference.
    pub fn check(&self, subject: &dyn Subject) -> Result<Came, String> {
        self.compared(self.put_to(subject), self.put_to(&Reference))
    }

    /// Against a trace of the whole.
    pub fn check_part(&self, subject: &dyn Subject, trace: &Trace, place: usize) -> Result<Came, String> {
        self.compared(self.put_to(subject), self.due(trace, place))
    }
}

/// Lengths that lists of words have: mostly the right one, else another near it, the other state's, or none.
pub fn length(rng: &mut Rng, kind: Kind) -> usize {
    if rng.one_in(8) {
        rng.pick(&[0, 1, 770, 771, 772, 1_283, 1_284, 1_285])
    } else {
        kind.words()
    }
}

/// An opening into words that hold anything before: its number, and the words after it.
pub fn check_opening(subject: &dyn Subject, rng: &mut Rng, kind: Kind, pair: &Pair) -> Result<(u32, Vec<u32>), String> {
    let length = length(rng, kind);
    let before = rng.arbitrary(length);
    let opened = |subject: &dyn Subject| {
        let mut words = padded(&before, FILLER);
        (kind.open(subject, pair, inner(&mut words)), words)
    };
    let (expected, mut came) = (opened(&Reference), opened(subject));
    if came == expected {
        return Ok((came.0, inner(&mut came.1).to_vec()));
    }
    let input = format!("opening {} on\n{}\n  words before {before:?}", kind.name(), pair.shown());
    let note = format!("(words are shown with the {MARGIN} before and after them)");
    Err(format!("{input}\nexpected {expected:?}\ncame {came:?}\n{note}"))
}

/// A preview puts its verdict into the number that is lent for it; its lists must stay as they are.
pub fn check_preview(subject: &dyn Subject, words: &[u32], counts: &[u32], due: Option<(usize, u32)>) -> Result<(), String> {
    let lent = (padded(words, FILLER), padded(counts, FILLER));
    let mut left = lent.clone();
    let mut verdict = [FILLER; 3];
    let number = subject.preview(inner(&mut left.0), inner(&mut left.1), &mut verdict[1]);
    let expected = due.map_or((-12, FILLER), |(place, verdict)| (place as i64, verdict));
    if (number, verdict) == (expected.0, [FILLER, expected.1, FILLER]) && left == lent {
        return Ok(());
    }
    let lists = format!("words {words:?}\n  counts {counts:?}");
    let came = format!(
        "came {number} {verdict:?}, lists {}",
        if left == lent { "as lent" } else { "changed" }
    );
    Err(format!(
        "a preview\n  {lists}\nexpected {expected:?}\n{came}\n(the verdict stands between two others)"
    ))
}

pub fn check_look(subject: &dyn Subject, words: &[u32]) -> Result<i64, String> {
    let (expected, came) = (Reference.look(words), subject.look(words));
    if came == expected {
        return Ok(came);
    }
    Err(format!("a look at {words:?}\nexpected {expected}\ncame {came}"))
}
