//! Scripts whole, in random pieces and tick by tick, on the words that an opening wrote: verdicts, counts and margins, every word after
//! each piece and every entry that must stay are what the trace of the whole says, and so is the preview of each piece before it runs.
//! So pieces are one stream.

use crate::calls::{check_look, check_opening, check_preview, Run};
use crate::random::Rng;
use crate::script_cases;
use crate::scripts::spoil_sometimes;
use crate::subject::Subject;
use crate::tally::{Tally, CUT, GENERATOR_WORDS_OPENED, MARGINS_ROOM, MONITOR_WORDS_OPENED, PIECE, SEAM};
use crate::trace::Trace;
use crate::unlimited_scripts;
use crate::words::{Kind, FAILED_WORD, HELD_WORD};

/// How a list is cut.
#[derive(Clone, Copy)]
enum Cut {
    Whole,
    Pieces,
    Ticks,
    WithoutMargins,
}

/// How many entries a piece has, and how many answers and margins there is room for.
struct Piece {
    entries: usize,
    room: usize,
    margins: usize,
}

fn piece(rng: &mut Rng, cut: Cut, left: usize) -> Piece {
    let entries = match cut {
        Cut::Whole | Cut::WithoutMargins => left,
        Cut::Ticks => left.min(1),
        Cut::Pieces if rng.one_in(8) => 0,
        Cut::Pieces => {
            let longest = rng.pick(&[1, 3, 20, 300, 3_000]);
            rng.length(1, longest).min(left)
        }
    };
    let room = match cut {
        Cut::Pieces if rng.one_in(4) => rng.length(0, entries),
        Cut::Pieces if rng.one_in(3) => entries + rng.length(1, 9),
        _ => entries,
    };
    let ticks = entries.min(room);
    let margins = match rng.below(4) {
        _ if matches!(cut, Cut::WithoutMargins) => 0,
        0 => 0,
        1 => rng.length(0, ticks),
        2 => ticks + rng.length(1, 9),
        _ => ticks,
    };
    Piece { entries, room, margins }
}

/// How long a list is beside another: 0 without an entry, 1 shorter, 2 as long, 3 longer. Two without an entry are as long.
fn compared_to(length: usize, other: usize) -> u32 {
    match length {
        _ if length == other => 2,
        0 => 0,
        _ if length < other => 1,
        _ => 3,
    }
}

fn note(run: &Run, tally: &mut Tally) {
    let empty = run.entries.is_empty() && run.room == 0;
    tally.note(PIECE, if empty { 4 } else { compared_to(run.room, run.entries.len()) });
    if run.kind == Kind::Monitor && run.ticks() > 0 {
        tally.note(MARGINS_ROOM, compared_to(run.margins, run.ticks()));
    }
}

/// What a seam has behind it: ticks held or none, and for a monitor whether it has failed.
fn note_seam(kind: Kind, words: &[u32], tally: &mut Tally) {
    let failed = kind == Kind::Monitor && words[FAILED_WORD] != 0;
    tally.note(SEAM, u32::from(words[HELD_WORD] > 0) + 2 * u32::from(failed));
}

/// A list on words, and what the whole of it must come to.
pub struct List<'a> {
    kind: Kind,
    words: &'a [u32],
    entries: &'a [u32],
    pub trace: Trace,
}

impl List<'_> {
    /// The words are a state.
    pub fn new<'a>(kind: Kind, words: &'a [u32], entries: &'a [u32]) -> Result<List<'a>, String> {
        let trace = Trace::new(kind, words, entries, entries.len()).ok_or("the words are no state, by the reference")?;
        Ok(List {
            kind,
            words,
            entries,
            trace,
        })
    }

    fn check_look(&self, subject: &dyn Subject, words: &[u32], place: usize) -> Result<(), String> {
        if self.kind == Kind::Monitor || check_look(subject, words)? == self.trace.look_after(place) {
            return Ok(());
        }
        Err(format!(
            "a look after {place} entries is not what the whole shows\n  words {words:?}"
        ))
    }

    /// Before a piece runs its preview is what the whole says.
    fn check_preview(&self, subject: &dyn Subject, words: &[u32], place: usize, entries: usize) -> Result<(), String> {
        if self.kind == Kind::Generator {
            return Ok(());
        }
        let due = self.trace.first_rejected(place, entries);
        check_preview(subject, words, &self.entries[place..place + entries], Some(due))
    }

    /// Cut in one way.
    fn check(&self, subject: &dyn Subject, rng: &mut Rng, cut: Cut, tally: &mut Tally) -> Result<(), String> {
        let mut words = self.words.to_vec();
        let mut place = 0;
        loop {
            let piece = piece(rng, cut, self.entries.len() - place);
            let run = Run {
                kind: self.kind,
                words: &words,
                entries: &self.entries[place..place + piece.entries],
                room: piece.room,
                margins: piece.margins,
            };
            note(&run, tally);
            self.check_preview(subject, &words, place, piece.entries)?;
            let mut came = run.check_part(subject, &self.trace, place)?;
            place += run.ticks();
            words = came.words().to_vec();
            self.check_look(subject, &words, place)?;
            if place == self.entries.len() {
                tally.note(CUT, cut as u32);
                return Ok(());
            }
            note_seam(self.kind, &words, tally);
        }
    }

    /// Whole, and no margin asked for.
    pub fn check_without_margins(&self, subject: &dyn Subject, rng: &mut Rng, tally: &mut Tally) -> Result<(), String> {
        self.check(subject, rng, Cut::WithoutMargins, tally)
    }

    /// Whole and in pieces.
    pub fn check_pieces(&self, subject: &dyn Subject, rng: &mut Rng, tally: &mut Tally) -> Result<(), String> {
        self.check(subject, rng, Cut::Whole, tally)?;
        self.check(subject, rng, Cut::Pieces, tally)
    }

    /// Cut in every way.
    pub fn check_cuts(&self, subject: &dyn Subject, rng: &mut Rng, tally: &mut Tally) -> Result<(), String> {
        self.check_pieces(subject, rng, tally)?;
        self.check(subject, rng, Cut::Ticks, tally)
    }
}

fn compare(subject: &dyn Subject, rng: &mut Rng, kind: Kind, tally: &mut Tally) -> Result<(), String> {
    let (mut pair, list) = match (kind, rng.one_in(3)) {
        (Kind::Monitor, false) => script_cases::for_monitor(rng),
        (Kind::Monitor, true) => unlimited_scripts::for_monitor(rng),
        (Kind::Generator, false) => script_cases::for_generator(rng),
        (Kind::Generator, true) => unlimited_scripts::for_generator(rng),
    };
    spoil_sometimes(rng, &mut pair);
    let (number, words) = check_opening(subject, rng, kind, &pair)?;
    let opened = match kind {
        Kind::Monitor => MONITOR_WORDS_OPENED,
        Kind::Generator => GENERATOR_WORDS_OPENED,
    };
    tally.note(opened, number);
    if number == 0 {
        List::new(kind, &words, &list)?.check_cuts(subject, rng, tally)?;
    }
    Ok(())
}

pub fn compare_monitor(subject: &dyn Subject, rng: &mut Rng, tally: &mut Tally) -> Result<(), String> {
    compare(subject, rng, Kind::Monitor, tally)
}

pub fn compare_generator(subject: &dyn Subject, rng: &mut Rng, tally: &mut Tally) -> Result<(), String> {
    compare(subject, rng, Kind::Generator, tally)
}
