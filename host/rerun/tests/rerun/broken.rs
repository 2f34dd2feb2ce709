//! Traces with a fault, at every byte.

use crate::tester::Tester;
use crate::traces::{each_changed, large, of_directed_cases, of_random_steps, settings};
use crate::traces::{small, ticks, trace};
use niulassenc_reference::trace::{self as form, Record, MAX_PACKET};
use vectors::prng::Prng;
use vectors::traces::Pair;

/// Pairs of middling length, with packets of all kinds.
fn middling(seed: u64) -> impl Iterator<Item = Pair> {
    let pairs = of_directed_cases(seed);
    pairs
        .into_iter()
        .filter(|pair| (300..900).contains(&pair.trace.len()))
}

#[test]
fn cut_at_every_byte() {
    let mut tester = Tester::new("cut");
    let trace = small();
    for length in 0..=trace.len() {
        tester.compare(&settings(), &trace[..length]);
    }
    let pair = middling(5).next().expect("a pair");
    for length in 0..pair.trace.len() {
        tester.compare(&pair.settings, &pair.trace[..length]);
    }
    let tally = &tester.tally;
    assert!(tally.runs > 500 && tally.bad_traces > 450, "{tally:?}");
    assert_eq!(tally.empty, 2);
}

/// Each byte, one at a time, becomes one that begins a record, a neighbour of these,
/// a bound, or near what it was.
#[test]
fn changed_at_every_byte() {
    let mut tester = Tester::new("changed");
    for trace in each_changed(&small(), &[0, 1, 2, 3, 6, 7, 255]) {
        tester.compare(&settings(), &trace);
    }
    let tally = &tester.tally;
    assert!(tally.runs > 2500 && tally.bad_traces > 240, "{tally:?}");
    assert!(tally.lines > 10_000, "{tally:?}");
}

/// Every byte that is no tag: first in a trace, behind records, and last; and before
/// what would be an empty packet.
#[test]
fn every_other_tag() {
    let mut tester = Tester::new("tags");
    for tag in (0..=255).filter(|tag| ![1, 2].contains(tag)) {
        let (front, behind) = (small(), &small()[form::empty().len()..]);
        let first = [&form::empty()[..], &[tag], behind].concat();
        tester.compare(&settings(), &first);
        for behind in [behind, &[], &[0, 0]] {
            tester.compare(&settings(), &[&front[..], &[tag], behind].concat());
        }
    }
    assert_eq!(tester.tally.bad_traces, 4 * 254);
    assert_eq!(tester.tally.lines, 254 * (4 + 3 * 8));
}

/// Lengths around 1,600, and with single bits, with no bytes behind, one too few, and
/// all; then a tick.
#[test]
fn lengths_of_packets() {
    let mut tester = Tester::new("packet lengths");
    let bits = (0..16).map(|bit| 1 << bit);
    for length in (1590..=1610)
        .chain(bits)
        .chain([0, 255, 257, 0x4006, u16::MAX])
    {
        let announced = [&small()[..], &[2], &length.to_be_bytes()].concat();
        let length = usize::from(length);
        let short = [&announced[..], &vec![1; length.saturating_sub(1)]].concat();
        let complete = [&announced[..], &vec![1; length], &[1]].concat();
        for trace in [announced, short, complete] {
            tester.compare(&settings(), &trace);
        }
    }
    assert_eq!(tester.tally.runs, 3 * (21 + 16 + 5));
    // Those that are too long, and of the others those that are cut.
    assert!(tester.tally.bad_traces > 75, "{:?}", tester.tally);
}

/// Every single bit of the header; the letters alone; nothing.
#[test]
fn wrong_headers() {
    let mut tester = Tester::new("headers");
    let good = small();
    for at in 0..form::empty().len() {
        for bit in 0..8 {
            let mut copy = good.clone();
            copy[at] ^= 1 << bit;
            tester.compare(&settings(), &copy);
        }
        tester.compare(&settings(), &good[..at]);
        tester.compare(&settings(), &good[at + 1..]);
    }
    for other in [
        &b"trp\x00\x01"[..],
        b"TRP\x01\x00",
        b"TWN\x00\x01",
        b"\x01\x01",
    ] {
        tester.compare(&settings(), other);
    }
    assert_eq!(tester.tally.bad_traces, 5 * 10 + 4);
    assert_eq!(tester.tally.lines, tester.tally.bad_traces);
}

/// The generator's traces, cut anywhere, or with any byte changed.
#[test]
fn faults_anywhere() {
    let mut tester = Tester::new("anywhere");
    let prng = &mut Prng::new(6);
    for pair in (100..110).flat_map(|seed| of_random_steps(seed, 1000)) {
        let at = prng.below(pair.trace.len());
        tester.compare(&pair.settings, &pair.trace[..at]);
        let mut copy = pair.trace;
        copy[at] = prng.byte();
        tester.compare(&pair.settings, &copy);
    }
    let tally = &tester.tally;
    assert!(tally.runs > 250 && tally.bad_traces > 130, "{tally:?}");
    tally.every_answer(10);
}

/// A trace of so many bytes, which ends behind a record. With `last` the last record
/// is a packet.
fn sized(length: usize, last: bool) -> Vec<u8> {
    let packet = [7; MAX_PACKET];
    let tail = if last { length.min(3 + 40) } else { 0 };
    let mut bytes = trace([]);
    while bytes.len() + 3 + MAX_PACKET + 3 + 40 <= length {
        Record::Packet(&packet).put(&mut bytes);
    }
    while bytes.len() + tail < length {
        Record::Tick.put(&mut bytes);
    }
    if last {
        Record::Packet(&packet[..40]).put(&mut bytes);
    }
    assert_eq!(bytes.len(), length);
    bytes
}

/// A program reads in buffers of some size: traces end right before, at and behind
/// every power of two, behind a record, within one, and with a broken one.
#[test]
fn ends_at_every_power_of_two() {
    let mut tester = Tester::new("powers");
    for bound in (6..=20).map(|power| 1 << power) {
        for length in bound - 2..=bound + 2 {
            for last in [false, true] {
                let trace = sized(length, last);
                tester.compare(&settings(), &trace);
                tester.compare(&settings(), &[&trace[..], &[0]].concat());
                tester.compare(&settings(), &[&trace[..], &[2]].concat());
                tester.compare(&settings(), &[&trace[..], &[2, 0]].concat());
                tester.compare(&settings(), &trace[..length - 1]);
            }
        }
    }
    let tally = &tester.tally;
    assert_eq!((tally.runs, tally.bad_traces), (15 * 5 * 10, 15 * 5 * 7));
}

/// A fault behind many good records.
#[test]
fn faults_behind_megabytes() {
    let mut tester = Tester::new("behind megabytes");
    let good = large(1_000_000);
    for fault in [
        &[0][..],
        &[2],
        &[2, 0],
        &[2, 0, 1],
        &[2, 6, 0x41],
        &[255; 4000],
    ] {
        tester.compare(&settings(), &[&good[..], fault].concat());
    }
    let many = ticks(200_000);
    tester.compare(&settings(), &[&many[..], &[3]].concat());
    assert_eq!(tester.tally.bad_traces, 7);
    assert!(tester.tally.lines > 300_000, "{:?}", tester.tally);
}
