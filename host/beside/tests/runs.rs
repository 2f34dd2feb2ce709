//! The runs of the generator (host/vectors) through the library and the reference
//! reassembler. A failure tells the seed, the part of the run and the record.

use beside::counts::{Counts, Event};
use beside::runs::compare;
use difference::runs;
use vectors::record::Record;

/// The runs of some seeds; what was compared.
fn compared(seeds: u64, run: fn(u64) -> Vec<Record>) -> Counts {
    let mut counts = Counts::default();
    for seed in 1..=seeds {
        let of_run = compare(&run(seed), seed);
        counts.add(&of_run.unwrap_or_else(|why| panic!("seed {seed}, {why}")));
    }
    counts
}

/// A comparison says little about an answer that never came. 2 is none of these runs: the
/// memory is lent once, and is enough.
fn every_answer_came(counts: &Counts, least: u64) {
    for code in (0..=1).chain(3..=10).chain(12..=17).chain(25..=29) {
        counts.at_least(&[(Event::Answer(code), least)]);
    }
}

#[test]
fn directed_cases_are_answered_alike() {
    let counts = compared(4, runs::directed);
    every_answer_came(&counts, 40);
    counts.at_least(&[
        (Event::Receive, 10_000),
        (Event::Tick, 150),
        (Event::Reassembled, 1500),
        (Event::GivenUp, 40),
    ]);
}

#[test]
fn random_runs_are_answered_alike() {
    let counts = compared(150, runs::random);
    every_answer_came(&counts, 250);
    counts.at_least(&[
        (Event::Receive, 100_000),
        (Event::Tick, 10_000),
        (Event::Reassembled, 12_000),
        (Event::GivenUp, 5000),
    ]);
}
