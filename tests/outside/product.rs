//! The product, called over its C boundary. An empty slice has a pointer that is not null, as the boundary requires.

use crate::subject::Subject;

extern "C" {
    fn calgedze_close(
        upper: *const u32,
        upper_length: usize,
        lower: *const u32,
        lower_length: usize,
        unlimited: u32,
        closed_upper: *mut u32,
        closed_upper_length: usize,
        closed_lower: *mut u32,
        closed_lower_length: usize,
    ) -> u64;
    fn calgedze_read(
        text: *const u8,
        text_length: usize,
        upper: *mut u32,
        upper_length: usize,
        lower: *mut u32,
        lower_length: usize,
    ) -> u64;
    fn calgedze_report(text: *const u8, text_length: usize, output: *mut u8, output_length: usize) -> usize;
    fn calgedze_render(
        upper: *const u32,
        upper_length: usize,
        lower: *const u32,
        lower_length: usize,
        unlimited: u32,
        output: *mut u8,
        output_length: usize,
    ) -> i64;
    fn calgedze_monitor_open(
        upper: *const u32,
        upper_length: usize,
        lower: *const u32,
        lower_length: usize,
        unlimited: u32,
        state: *mut u32,
        state_length: usize,
    ) -> u32;
    fn calgedze_generator_open(
        upper: *const u32,
        upper_length: usize,
        lower: *const u32,
        lower_length: usize,
        unlimited: u32,
        state: *mut u32,
        state_length: usize,
    ) -> u32;
    fn calgedze_monitor_run(
        state: *mut u32,
        state_length: usize,
        counts: *const u32,
        counts_length: usize,
        verdicts: *mut u32,
        verdicts_length: usize,
        margins: *mut i64,
        margins_length: usize,
    ) -> i64;
    fn calgedze_monitor_preview(state: *const u32, state_length: usize, counts: *const u32, counts_length: usize, verdict: *mut u32)
        -> i64;
    fn calgedze_generator_run(
        state: *mut u32,
        state_length: usize,
        choices: *const u32,
        choices_length: usize,
        counts: *mut u32,
        counts_length: usize,
    ) -> i64;
    fn calgedze_generator_look(state: *const u32, state_length: usize) -> i64;
}

pub struct Product;

impl Subject for Product {
    fn close(&self, upper: &[u32], lower: &[u32], mark: u32, closed_upper: &mut [u32], closed_lower: &mut [u32]) -> u64 {
        // SAFETY: every pointer goes with the length of its own slice, and slices that can be written overlap no others.
        unsafe {
            calgedze_close(
                upper.as_ptr(),
                upper.len(),
                lower.as_ptr(),
                lower.len(),
                mark,
                closed_upper.as_mut_ptr(),
                closed_upper.len(),
                closed_lower.as_mut_ptr(),
                closed_lower.len(),
            )
        }
    }

    fn read(&self, text: &[u8], upper: &mut [u32], lower: &mut [u32]) -> u64 {
        // SAFETY: as for closing.
        unsafe {
            calgedze_read(
                text.as_ptr(),
                text.len(),
                upper.as_mut_ptr(),
                upper.len(),
                lower.as_mut_ptr(),
                lower.len(),
            )
        }
    }

    fn report(&self, text: &[u8], output: &mut [u8]) -> usize {
        // SAFETY: as for closing.
        unsafe { calgedze_report(text.as_ptr(), text.len(), output.as_mut_ptr(), output.len()) }
    }

    fn render(&self, upper: &[u32], lower: &[u32], mark: u32, output: &mut [u8]) -> i64 {
        let (room, bytes) = (output.len(), output.as_mut_ptr());
        // SAFETY: as for closing.
        unsafe { calgedze_render(upper.as_ptr(), upper.len(), lower.as_ptr(), lower.len(), mark, bytes, room) }
    }

    fn open_monitor(&self, upper: &[u32], lower: &[u32], mark: u32, state: &mut [u32]) -> u32 {
        let (length, words) = (state.len(), state.as_mut_ptr());
        // SAFETY: as for closing.
        unsafe { calgedze_monitor_open(upper.as_ptr(), upper.len(), lower.as_ptr(), lower.len(), mark, words, length) }
    }

    fn open_generator(&self, upper: &[u32], lower: &[u32], mark: u32, state: &mut [u32]) -> u32 {
        let (length, words) = (state.len(), state.as_mut_ptr());
        // SAFETY: as for closing.
        unsafe { calgedze_generator_open(upper.as_ptr(), upper.len(), lower.as_ptr(), lower.len(), mark, words, length) }
    }

    fn run_monitor(&self, state: &mut [u32], counts: &[u32], verdicts: &mut [u32], margins: &mut [i64]) -> i64 {
        // SAFETY: as for closing.
        unsafe {
            calgedze_monitor_run(
                state.as_mut_ptr(),
                state.len(),
                counts.as_ptr(),
                counts.len(),
                verdicts.as_mut_ptr(),
                verdicts.len(),
                margins.as_mut_ptr(),
                margins.len(),
            )
        }
    }

    fn preview(&self, state: &mut [u32], counts: &[u32], verdict: &mut u32) -> i64 {
        // SAFETY: as for closing; the verdict is no part of a slice.
        unsafe { calgedze_monitor_preview(state.as_ptr(), state.len(), counts.as_ptr(), counts.len(), verdict) }
    }

    fn run_generator(&self, state: &mut [u32], choices: &[u32], counts: &mut [u32]) -> i64 {
        let (length, words) = (state.len(), state.as_mut_ptr());
        // SAFETY: as for closing.
        unsafe { calgedze_generator_run(words, length, choices.as_ptr(), choices.len(), counts.as_mut_ptr(), counts.len()) }
    }

    fn look(&self, state: &[u32]) -> i64 {
        // SAFETY: as for closing.
        unsafe { calgedze_generator_look(state.as_ptr(), state.len()) }
    }
}
