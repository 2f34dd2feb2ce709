//! The library against the reference. A failure tells the seed and a shrunk run.

use difference::report::{check, check_observations, check_random};
use difference::{runs, sweeps, Counts};

use niulassenc::{numbers, Frame, Place};
use vectors::prng::Prng;

/// The first seed of the random runs; each run has its own, one above the last.
const SEED: u64 = 1;

fn expect(result: Result<Counts, String>) -> Counts {
    result.unwrap_or_else(|message| panic!("{message}"))
}

#[test]
fn sweeps_show_no_difference() {
    let mut counts = Counts::default();
    for sweep in sweeps::all(SEED) {
        counts.add(&expect(check(sweep.name, &sweep.run)));
    }
    assert!(counts.receives > 300_000);
    hints_were_given(&counts, 500);
    let of_both_flags = [counts.codes[29], counts.both_flags];
    assert!(of_both_flags.iter().all(|&count| count > 15_000));
}

/// Numbers around the bounds of what a slice has, and near the largest, which
/// no slice has.
const NUMBERS: [usize; 12] = [
    0,
    1,
    2,
    3,
    49,
    50,
    51,
    55_296,
    usize::MAX / 2,
    usize::MAX - 2,
    usize::MAX - 1,
    usize::MAX,
];

/// Both sides cut the same for every place of these lengths.
fn cuts_agree(packet: usize, memory: usize) {
    for start in NUMBERS {
        for length in NUMBERS {
            for in_memory in [false, true] {
                let ours = niulassenc::Place {
                    in_memory,
                    start,
                    length,
                };
                let theirs = niulassenc_reference::Place {
                    in_memory,
                    start,
                    length,
                };
                let cut = ours.cut(packet, memory);
                let expected = niulassenc_reference::cut(packet, memory, theirs);
                assert_eq!(
                    (cut.in_memory, cut.start, cut.length),
                    (expected.in_memory, expected.start, expected.length),
                    "{ours:?} of {packet} and {memory}"
                );
            }
        }
    }
}

/// The cut is told by lengths alone, so both sides take any.
#[test]
fn cuts_of_any_length_are_the_same() {
    for packet in NUMBERS {
        for memory in NUMBERS {
            cuts_agree(packet, memory);
        }
    }
}

#[test]
fn directed_cases_show_no_difference() {
    let name = "the generator's directed cases";
    let counts = expect(check(name, &runs::directed(SEED)));
    every_answer_was_given(&counts, 5);
    every_observation_was_given(&counts, 100);
    saves_and_loads_were_made(&counts, 40);
    hints_were_given(&counts, 3);
}

#[test]
fn a_million_random_receives_show_no_difference() {
    let counts = expect(check_random(SEED, 1_000_000));
    assert!(counts.receives >= 1_000_000);
    every_answer_was_given(&counts, 1000);
    saves_and_loads_were_made(&counts, 1000);
    hints_were_given(&counts, 5000);
}

/// Every number of a detector is compared after every one of them.
#[test]
fn a_million_random_observations_show_no_difference() {
    let counts = expect(check_observations(SEED, 1_000_000));
    assert!(counts.observations() >= 1_000_000);
    every_observation_was_given(&counts, 50_000);
    assert!(counts.full_detectors >= 500, "{}", counts.full_detectors);
}

/// Frames of any bytes, those that end before their source address too.
#[test]
fn sources_are_the_same() {
    let prng = &mut Prng::new(SEED);
    for length in (0..=40).chain([1514]) {
        for _ in 0..100 {
            let bytes = prng.bytes(length);
            let expected = niulassenc_reference::source(&bytes);
            assert_eq!(numbers::source(&bytes), expected, "{bytes:?}");
            let frame = Frame {
                tenant: 0,
                binding: 0,
                place: Place::default(),
                bytes: &bytes,
            };
            assert_eq!(frame.source(), expected.to_be_bytes()[2..], "{bytes:?}");
        }
    }
}

/// Both that were done and that were refused.
fn saves_and_loads_were_made(counts: &Counts, least: u64) {
    let made = counts.saves.iter().chain(&counts.loads);
    assert!(made.clone().all(|&count| count >= least), "{counts:?}");
}

fn every_observation_was_given(counts: &Counts, least: u64) {
    let names = ["new", "known", "duplicate", "full"];
    for (name, count) in names.iter().zip(counts.observed) {
        assert!(count >= least, "{name} came {count} times");
    }
}

/// Each of the four that a wrap may write, and none; and both flags were seen on frames
/// without a transport header.
fn hints_were_given(counts: &Counts, least: u64) {
    let given = counts.hints.iter().chain([&counts.both_flags]);
    assert!(given.clone().all(|&count| count >= least), "{counts:?}");
}

/// A comparison says little about an answer that never came.
fn every_answer_was_given(counts: &Counts, least: u64) {
    for code in (0..=10).chain(12..=17).chain(25..=29) {
        let count = counts.codes[code];
        assert!(count >= least, "answer {code} came {count} times");
    }
    assert_eq!(counts.codes[11], 0, "answer 11 is no longer given");
}
