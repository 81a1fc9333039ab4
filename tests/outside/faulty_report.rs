//! Reports with a fault: what reading with it gives, closed and written; and a pair that is rendered.

use crate::faults::Fault::{self, *};
use crate::faulty_closing::{Asker, Faulty, Lists};
use crate::pair::Pair;
use crate::subject::{refusal_of, TEXT_LIMIT};

impl Faulty {
    fn closure(&self, text: &[u8]) -> Result<Pair, u32> {
        let pair = self.pair_of(text)?;
        if self.has(ReportUnclosed) {
            return Ok(pair);
        }
        self.closed_pair(pair)
    }

    fn closed_pair(&self, pair: Pair) -> Result<Pair, u32> {
        let unlimited = pair.unlimited() && !self.has(ReportLosesMark);
        let lists = Lists {
            upper: &pair.upper,
            lower: &pair.lower,
            unlimited,
        };
        let mut closed = Pair::filled(pair.horizon(), 0, 0);
        closed.mark = u32::from(unlimited);
        match refusal_of(self.close_into(lists, &mut closed.upper, &mut closed.lower)) {
            0 => Ok(closed),
            number => Err(number),
        }
    }

    /// The last field of a record of a report, with the comma before it.
    fn written_most(&self, pair: &Pair, window: usize) -> String {
        let most = pair.upper[window - 1];
        match self.fault {
            _ if !pair.unlimited() => format!(",{most}"),
            ReportMostZero => ",0".to_string(),
            ReportStandIns => format!(",{}", window as u32 * TEXT_LIMIT),
            ReportTwoFields => String::new(),
            _ => ",".to_string(),
        }
    }

    /// What ends a line.
    fn written_end(&self) -> &'static str {
        if self.has(ReportLineFeed) {
            "\n"
        } else {
            "\r\n"
        }
    }

    fn text_of(&self, pair: &Pair) -> String {
        let end = self.written_end();
        let mut written = format!("window,least,most{end}");
        for window in 1..=pair.horizon() {
            let (least, most) = (pair.lower[window - 1], self.written_most(pair, window));
            written += &match self.has(ReportLeastLast) {
                true => format!("{window}{most},{least}{end}"),
                false => format!("{window},{least}{most}{end}"),
            };
        }
        if self.has(ReportWithoutLastEnd) {
            written.truncate(written.len() - end.len());
        }
        written
    }

    /// As much as there is room for, or with one fault nothing where there is not enough; and the length, or with another how much that is.
    fn put_into(&self, written: &str, output: &mut [u8], nothing: Fault, cut: Fault) -> usize {
        let short = output.len() < written.len();
        let room = if short && self.has(nothing) {
            0
        } else {
            output.len().min(written.len())
        };
        output[..room].copy_from_slice(&written.as_bytes()[..room]);
        if self.has(cut) {
            room
        } else {
            written.len()
        }
    }

    pub fn report_into(&self, text: &[u8], output: &mut [u8]) -> usize {
        let written = match self.closure(text) {
            Err(number) => format!("refused {number}{}", self.written_end()),
            Ok(pair) => self.text_of(&pair),
        };
        self.put_into(&written, output, ReportNothingWhenShort, ReportLengthCut)
    }

    fn asked_to_render(&self, lists: Lists) -> u32 {
        match self.opening(lists) {
            0 if self.has(RenderAsksClosing) && self.over_limit(lists, Asker::Closing) => 4,
            4 if self.has(RenderAsksNoLimit) => 0,
            number => number,
        }
    }

    pub fn render_into(&self, lists: Lists, output: &mut [u8]) -> i64 {
        let number = i64::from(self.asked_to_render(lists));
        if number != 0 {
            return if self.has(RenderPositive) { number } else { -number };
        }
        let unlimited = lists.unlimited && !self.has(RenderLosesMark);
        let pair = Pair::marked(lists.upper, lists.lower, u32::from(unlimited));
        let shown = match self.has(RenderCloses) {
            true => self.closed_pair(pair.clone()).unwrap_or(pair),
            false => pair,
        };
        // Faults of a report have no effect here.
        let written = Faulty { fault: NoFault }.text_of(&shown);
        self.put_into(&written, output, RenderNothingWhenShort, RenderLengthCut) as i64
    }
}
