//! What the compared lines were.

use std::collections::BTreeMap;

/// Every answer that a packet of a trace may have.
const ANSWERS: [u8; 21] = [
    0, 1, 3, 4, 5, 6, 7, 8, 9, 10, 12, 13, 14, 15, 16, 17, 25, 26, 27, 28, 29,
];

/// Counts over all runs of a test.
#[derive(Debug, Default)]
pub struct Tally {
    pub runs: usize,
    pub lines: usize,
    pub ticks: usize,
    pub bad_traces: usize,
    pub bad_settings: usize,
    /// Runs that wrote nothing.
    pub empty: usize,
    pub longest: usize,
    answers: BTreeMap<u8, usize>,
}

impl Tally {
    /// Counts the lines that a run had to write, and wrote.
    pub fn add(&mut self, lines: &str) {
        self.runs += 1;
        self.empty += usize::from(lines.is_empty());
        self.longest = self.longest.max(lines.lines().count());
        for line in lines.lines() {
            self.lines += 1;
            match line {
                "bad trace" => self.bad_traces += 1,
                "bad settings" => self.bad_settings += 1,
                _ => self.record(line),
            }
        }
    }

    fn record(&mut self, line: &str) {
        match line.split(' ').nth(1).expect("a second word") {
            "tick" => self.ticks += 1,
            answer => {
                let answer = answer.parse().expect("a number");
                *self.answers.entry(answer).or_default() += 1;
            }
        }
    }

    /// How often this answer came.
    pub fn answers(&self, answer: u8) -> usize {
        self.answers.get(&answer).copied().unwrap_or(0)
    }

    /// Each answer, and a tick, came so often at the least; no other came.
    pub fn every_answer(&self, least: usize) {
        assert!(self.answers.keys().eq(&ANSWERS), "{self:?}");
        let counts = self.answers.values().chain([&self.ticks]);
        assert!(counts.min() >= Some(&least), "{self:?}");
    }
}
