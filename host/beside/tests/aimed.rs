//! Random runs aimed at 32. A failure tells the seed and the step.

use beside::aimed::compare;
use beside::counts::{Counts, Event};

#[test]
fn frames_of_many_segments_are_answered_alike() {
    let mut counts = Counts::default();
    for seed in 1..=150 {
        counts.add(&compare(seed, 2000).unwrap_or_else(|why| panic!("{why}")));
    }
    counts.at_least(&[
        (Event::Receive, 250_000),
        (Event::Tick, 3500),
        (Event::Answer(32), 15_000),
        (Event::Answer(17), 5000),
        (Event::Reassembled, 800),
        (Event::ReassembledOf64, 400),
        (Event::GivenUp, 2500),
        (Event::GivenUpOf64, 1000),
        (Event::RefusedOf64(14), 500),
        (Event::RefusedOf64(15), 400),
        (Event::RefusedOf64(16), 1000),
    ]);
    // What the library answered instead of 32: it delivered, waited or refused.
    counts.at_least(&[
        (Event::InsteadOf32(0), 250),
        (Event::InsteadOf32(1), 15_000),
        (Event::InsteadOf32(12), 5),
        (Event::InsteadOf32(13), 5),
        (Event::InsteadOf32(28), 5),
        (Event::InsteadOf32(29), 5),
    ]);
}
