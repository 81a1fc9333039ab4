//! Reading with a fault: a cursor over the bytes, digit by digit.

use crate::faults::Fault::*;
use crate::faulty_closing::Faulty;
use crate::pair::Pair;
use crate::subject::{answered, refused, HEADER, LONGEST_HORIZON, LONGEST_TEXT, TEXT_LIMIT};

/// The least that a record names for its window, and the most, if there is one.
#[derive(Clone, Copy)]
struct Bounds {
    least: u32,
    most: Option<u32>,
}

/// What a text names; a window not named has nothing.
struct Named {
    bounds: Vec<Option<Bounds>>,
    records: usize,
    last: Option<Bounds>,
}

impl Faulty {
    /// Where the line ends, and where the next one begins.
    fn line_end(&self, text: &[u8]) -> (usize, usize) {
        for place in 0..text.len() {
            if text[place..].starts_with(b"\r\n") {
                return (place, place + 2);
            }
            if self.has(LineFeedEndsRecord) && text[place] == b'\n' {
                return (place, place + 1);
            }
        }
        (text.len(), text.len())
    }

    fn number(&self, field: &[u8]) -> Option<u32> {
        let field = if self.has(BlankTaken) { field.trim_ascii() } else { field };
        let digits = if self.has(SixDigitsTaken) { 6 } else { 5 };
        if field.is_empty() || field.len() > digits || (field.len() > 1 && field[0] == b'0' && !self.has(LeadingZeroTaken)) {
            return None;
        }
        let mut value = 0;
        for &byte in field {
            if !byte.is_ascii_digit() {
                return None;
            }
            value = 10 * value + u32::from(byte - b'0');
        }
        Some(value)
    }

    /// What the field at a place of a record says: the last one may say nothing.
    fn field(&self, place: usize, field: &[u8]) -> Result<Option<u32>, u32> {
        let empty = field.is_empty() || (self.has(BlankMostTaken) && field.trim_ascii().is_empty());
        match (place, self.fault) {
            _ if !empty => self.number(field).map(Some).ok_or(7),
            (2, EmptyMostRefused) => Err(7),
            (2, EmptyMostZero) => Ok(Some(0)),
            (2, EmptyMostLargest) => Ok(Some(TEXT_LIMIT)),
            (2, _) => Ok(None),
            (1, EmptyLeastTaken) => Ok(Some(0)),
            (0, EmptyWindowIsRange) => Ok(Some(0)),
            _ => Err(7),
        }
    }

    fn in_range(&self, place: usize, value: u32) -> bool {
        let most = TEXT_LIMIT + u32::from(self.has(MostOneMore)) - u32::from(self.has(MostOneLess));
        let longest = LONGEST_HORIZON as u32 - u32::from(self.has(Window256Refused));
        if place == 0 {
            value >= 1 && value <= longest
        } else {
            value <= most
        }
    }

    /// The fields of a record, of which the last may be missing.
    fn fields(&self, line: &[u8]) -> Result<[Option<u32>; 3], u32> {
        let fields: Vec<&[u8]> = line.split(|&byte| byte == b',').collect();
        let mut values = [None; 3];
        for (place, field) in fields.iter().take(3).enumerate() {
            values[place] = self.field(place, field)?;
            if self.has(EightBeforeSeven) && !values[place].is_none_or(|value| self.in_range(place, value)) {
                return Err(8);
            }
        }
        match fields.len() {
            3 => Ok(values),
            2 if self.has(TwoFieldsTaken) => Ok(values),
            4.. if self.has(FourFieldsTaken) => Ok(values),
            _ => Err(7),
        }
    }

    /// One record into what is named, or the number of its fault.
    fn record(&self, line: &[u8], named: &mut Named) -> Result<(), u32> {
        let values = self.fields(line)?;
        let window = values[0].unwrap_or(0) as usize;
        if self.has(Window0Taken) && window == 0 {
            return Err(7);
        }
        let repeated = (1..=LONGEST_HORIZON).contains(&window) && named.bounds[window].is_some() && !self.has(RepeatedWindowTaken);
        if repeated && self.has(NineBeforeEight) {
            return Err(9);
        }
        if (0..3).any(|place| values[place].is_some_and(|value| !self.in_range(place, value))) {
            return Err(8);
        }
        if repeated {
            return Err(9);
        }
        named.bounds[window] = Some(Bounds {
            least: values[1].unwrap_or(0),
            most: values[2],
        });
        named.last = named.bounds[window];
        named.records += 1;
        Ok(())
    }

    /// What follows the header, or nothing where the text does not begin with it.
    fn after_header<'a>(&self, text: &'a [u8]) -> Option<&'a [u8]> {
        let longest = LONGEST_TEXT + usize::from(self.has(TextLimitOneMore)) - usize::from(self.has(TextLimitOneLess));
        if text.len() > longest || !text.starts_with(HEADER) {
            return None;
        }
        let (end, next) = self.line_end(text);
        if end != HEADER.len() && !self.has(HeaderPrefixTaken) {
            return None;
        }
        Some(&text[next..])
    }

    /// The records of a text, up to a fault.
    fn named(&self, text: &[u8]) -> (Named, Result<(), u32>) {
        let mut named = Named {
            bounds: vec![None; LONGEST_HORIZON + 1],
            records: 0,
            last: None,
        };
        let found = self.records(text, &mut named);
        (named, found)
    }

    fn records(&self, text: &[u8], named: &mut Named) -> Result<(), u32> {
        let mut rest = self.after_header(text).ok_or(6u32)?;
        let mut last = Ok(());
        while !rest.is_empty() {
            let (end, next) = self.line_end(rest);
            if self.has(EmptyLastRecordTaken) && end == 0 && next == rest.len() {
                break;
            }
            let ended = next > end || !self.has(LastRecordNeedsEnd);
            let found = if ended { self.record(&rest[..end], named) } else { Err(7) };
            if found.is_err() {
                last = found;
                if !self.has(LastFaultyRecord) {
                    break;
                }
            }
            rest = &rest[next..];
        }
        last?;
        if named.records == 0 {
            return Err(if self.has(NoRecordIsForm) { 7 } else { 10 });
        }
        Ok(())
    }

    /// Whether the pair has no ceilings, by the mosts that are given.
    fn no_ceilings(&self, named: &Named) -> bool {
        let mut used = named.bounds.iter().flatten();
        match self.fault {
            AnyMissingUnlimited => used.any(|bounds| bounds.most.is_none()),
            LastMostDecides => named.last.is_some_and(|last| last.most.is_none()),
            _ => used.all(|bounds| bounds.most.is_none()),
        }
    }

    /// The most that a window without one gets a multiple of.
    fn filler(&self, named: &Named) -> u32 {
        let used = named.bounds.iter().flatten();
        let given = used.clone().filter_map(|bounds| bounds.most);
        let with_missing = used.map(|bounds| bounds.most.unwrap_or(0));
        let found = match self.fault {
            LargestMost => given.max(),
            FilledByTextLimit => None,
            MissingCountsAsZero => with_missing.min(),
            _ => given.min(),
        };
        found.unwrap_or(TEXT_LIMIT)
    }

    /// The ceiling of a window.
    fn ceiling(&self, named: &Named, window: usize, filler: u32) -> u32 {
        let filled = if self.has(LengthNotTimed) { filler } else { window as u32 * filler };
        match named.bounds[window] {
            None => filled,
            Some(Bounds { most: Some(most), .. }) if self.has(NamedUpperCut) => most.min(filled),
            Some(Bounds { most: Some(most), .. }) => most,
            Some(_) if self.has(MissingNotTimed) => filler,
            Some(_) if self.has(MissingByTextLimit) => window as u32 * TEXT_LIMIT,
            Some(_) => filled,
        }
    }

    fn pair(&self, named: &Named) -> Pair {
        let longest = named.bounds.iter().rposition(|bounds| bounds.is_some()).unwrap_or(1);
        let horizon = if self.has(HorizonIsRecords) { named.records } else { longest };
        let unlimited = self.no_ceilings(named) && !self.has(ReadingLosesMark);
        let unnamed = u32::from(self.has(UnnamedLowerOne));
        let filler = self.filler(named);
        Pair {
            upper: (1..=horizon).map(|window| self.ceiling(named, window, filler)).collect(),
            lower: (1..=horizon)
                .map(|window| named.bounds[window].map_or(unnamed, |bounds| bounds.least))
                .collect(),
            mark: u32::from(unlimited),
        }
    }

    /// The pair of a text, or the number of the refusal.
    pub fn pair_of(&self, text: &[u8]) -> Result<Pair, u32> {
        let (named, found) = self.named(text);
        found.map(|()| self.pair(&named))
    }

    pub fn read_into(&self, text: &[u8], upper: &mut [u32], lower: &mut [u32]) -> u64 {
        let (named, found) = self.named(text);
        let pair = self.pair(&named);
        let (horizon, unlimited) = (pair.horizon(), pair.unlimited());
        let upper_short = upper.len() < horizon && !(unlimited && self.has(ElevenOfLeastsAlone));
        let short = upper_short || lower.len() < horizon;
        match found {
            Err(7..=9) if self.has(ElevenFirst) && short && named.records > 0 => return refused(11),
            Err(number) => return refused(number),
            Ok(()) if short => return self.refused(11, unlimited, RefusedReadingMarked),
            Ok(()) => {}
        }
        if self.has(ReadingAsksFive) && pair.crosses() {
            return refused(5);
        }
        if !unlimited || self.has(ReadingWritesCeilings) {
            upper[..horizon].copy_from_slice(&pair.upper);
        }
        lower[..horizon].copy_from_slice(&pair.lower);
        if self.has(ReadingTailsCleared) {
            upper[horizon..].fill(0);
            lower[horizon..].fill(0);
        }
        answered(horizon as u32, unlimited && !self.has(ReadingAnswersNoMark))
    }
}
