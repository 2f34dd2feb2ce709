//! Compares the library with the reference: every call of a run is made on
//! both, and answers, places, delivered bytes, endpoints, detectors and every byte
//! of the memory and the output must agree after each. A run that shows a
//! difference is shrunk before it is told.

#![forbid(unsafe_code)]

pub mod answer;
pub mod endpoints;
pub mod lent;
pub mod orders;
pub mod pair;
pub mod raw;
pub mod report;
pub mod runs;
pub mod shrink;
pub mod sweeps;

use niulassenc::limits::ENTRIES;
use pair::Pair;
use std::panic::{catch_unwind, AssertUnwindSafe};
use vectors::record::Record;

/// How often each code 0 to 29 was answered to a receive.
pub type Histogram = [u64; 30];

/// What was compared.
#[derive(Clone, Copy, Debug, Default, PartialEq, Eq)]
pub struct Counts {
    pub calls: u64,
    pub receives: u64,
    pub codes: Histogram,
    /// How often a detector answered new, known, duplicate, full.
    pub observed: [u64; 4],
    /// How many detectors came to keep all the entries that they can.
    pub full_detectors: u64,
    /// Saves that were done, and those that were refused.
    pub saves: [u64; 2],
    /// Loads that gave an endpoint, and those that were refused.
    pub loads: [u64; 2],
    /// First segments of STT frames that were written: with the hints of TCP and UDP over
    /// IPv4, of TCP and UDP over IPv6, and with none.
    pub hints: [u64; 5],
    /// STT frames that were delivered with both flags set.
    pub both_flags: u64,
}

impl Counts {
    /// How many observations there were.
    pub fn observations(&self) -> u64 {
        self.observed.iter().sum()
    }

    /// One more call, with its code or a detector's answer.
    fn note(&mut self, record: &Record, code: u8, pair: &Pair) {
        self.calls += 1;
        match record {
            Record::Receive { .. } => {
                self.receives += 1;
                self.codes[usize::from(code)] += 1;
                let both = |flags| flags & 0x03 == 0x03;
                self.both_flags += u64::from(pair.delivered_flags.is_some_and(both));
            }
            Record::Wrap { .. } => {
                if let Some(hints) = pair.written_hints {
                    self.hints[number_of_hints(hints)] += 1;
                }
            }
            Record::Observe { .. } => {
                self.observed[usize::from(code)] += 1;
                let last = code == 0 && pair.entries() == ENTRIES;
                self.full_detectors += u64::from(last);
            }
            Record::Save { .. } => self.saves[usize::from(code != 0)] += 1,
            Record::Load { .. } => self.loads[usize::from(code != 0)] += 1,
            _ => {}
        }
    }

    pub fn add(&mut self, other: &Counts) {
        self.calls += other.calls;
        self.receives += other.receives;
        self.full_detectors += other.full_detectors;
        self.both_flags += other.both_flags;
        let sums = self.codes.iter_mut().chain(&mut self.observed);
        let sums = sums.chain(&mut self.saves).chain(&mut self.loads);
        let sums = sums.chain(&mut self.hints);
        let counts = other.codes.iter().chain(&other.observed);
        let counts = counts.chain(&other.saves).chain(&other.loads);
        let counts = counts.chain(&other.hints);
        for (sum, count) in sums.zip(counts) {
            *sum += count;
        }
    }
}

/// The place of flags and L4 offset in [`Counts::hints`].
fn number_of_hints(hints: [u8; 2]) -> usize {
    match hints {
        [0x0C, _] => 0,
        [0x04, _] => 1,
        [0x08, _] => 2,
        [_, 54] => 3,
        _ => 4,
    }
}

/// The first call on which the two disagree.
#[derive(Clone, Debug, PartialEq, Eq)]
pub struct Difference {
    /// The number of the call in its run, from 0.
    pub at: usize,
    /// What differs.
    pub what: String,
}

/// Makes every call of the run on both.
pub fn compare(run: &[Record]) -> Result<Counts, Difference> {
    let mut pair = Pair::new();
    let mut counts = Counts::default();
    for (at, record) in run.iter().enumerate() {
        // A pair that panicked is not called again.
        let code = catch_unwind(AssertUnwindSafe(|| pair.call(record)))
            .unwrap_or_else(|_| Err("the reference panicked".to_string()))
            .map_err(|what| Difference { at, what })?;
        counts.note(record, code, &pair);
    }
    Ok(counts)
}
