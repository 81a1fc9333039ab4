//! Running many cases on two threads. Cases come in chunks, each with random numbers of its own, and chunks are handed out in order, so
//! the first difference that is told is the same whatever the threads do.

use std::sync::atomic::{AtomicBool, AtomicU64, Ordering};
use std::sync::Mutex;
use std::thread;

use crate::random::Rng;
use crate::tally::Tally;

const THREADS: usize = 2;

/// Runs one case.
pub type Case<'a> = dyn Fn(&mut Rng, &mut Tally) -> Result<(), String> + Sync + 'a;

pub struct Difference {
    /// Numbered from 1.
    pub case: u64,
    pub message: String,
}

pub struct Work {
    pub seed: u64,
    /// Which comparison this is, so that each has numbers of its own.
    pub comparison: u64,
    pub cases: u64,
    pub chunk: u64,
}

impl Work {
    fn chunks(&self) -> u64 {
        self.cases.div_ceil(self.chunk)
    }

    fn run_chunk(&self, chunk: u64, case: &Case, tally: &mut Tally) -> Result<(), Difference> {
        let mut rng = Rng::new(self.seed, self.comparison, chunk);
        let first = chunk * self.chunk;
        for number in first..(first + self.chunk).min(self.cases) {
            case(&mut rng, tally).map_err(|message| Difference { case: number + 1, message })?;
        }
        Ok(())
    }

    /// All cases on one thread, up to the first difference.
    pub fn run_alone(&self, case: &Case) -> Result<(), Difference> {
        let mut tally = Tally::default();
        for chunk in 0..self.chunks() {
            self.run_chunk(chunk, case, &mut tally)?;
        }
        Ok(())
    }

    /// All cases on two threads. A chunk that was begun is ended even after a difference, since it may hold an earlier one.
    pub fn run(&self, case: &Case, tally: &mut Tally) -> Result<(), Difference> {
        let next = AtomicU64::new(0);
        let stop = AtomicBool::new(false);
        let found: Mutex<Vec<Difference>> = Mutex::new(Vec::new());
        let whole = Mutex::new(tally);
        let worker = || {
            let mut own = Tally::default();
            while !stop.load(Ordering::SeqCst) {
                let chunk = next.fetch_add(1, Ordering::SeqCst);
                if chunk >= self.chunks() {
                    break;
                }
                if let Err(difference) = self.run_chunk(chunk, case, &mut own) {
                    stop.store(true, Ordering::SeqCst);
                    locked(&found).push(difference);
                }
            }
            locked(&whole).merge(own);
        };
        thread::scope(|scope| {
            for _ in 0..THREADS {
                scope.spawn(worker);
            }
        });
        let mut differences = found.into_inner().unwrap_or_default();
        differences.sort_by_key(|difference| difference.case);
        differences.into_iter().next().map_or(Ok(()), Err)
    }
}

/// A lock is held for a moment only; a thread that panicked meanwhile ends the run by itself.
pub fn locked<T>(mutex: &Mutex<T>) -> std::sync::MutexGuard<'_, T> {
    mutex.lock().unwrap_or_else(|poisoned| poisoned.into_inner())
}
