//! The two files: their form, byte by byte, and what the generator promises.

use std::collections::{BTreeMap, BTreeSet};
use std::path::Path;
use std::process::Command;
use vectors::driver::Driver;
use vectors::packet::get16;
use vectors::prng::Prng;
use vectors::record::{decode, replay, Record};
use vectors::recorder::Recorder;
use vectors::{generate, generate_receive_only, observations, random};
use vectors::{DEFAULT_SEED, DEFAULT_STEPS};

/// Seeds of all sorts for the random part.
const SEEDS: [u64; 4] = [DEFAULT_SEED, 1, 2, 3];

/// The number that document 02 has split.
const NO_LONGER_GIVEN: usize = 11;

/// Every code that a receive may have.
const RECEIVED: [usize; 22] = [
    0, 1, 2, 3, 4, 5, 6, 7, 8, 9, 10, 12, 13, 14, 15, 16, 17, 25, 26, 27, 28, 29,
];

fn bytes(hex: &str) -> Vec<u8> {
    hex.split_whitespace()
        .map(|pair| u8::from_str_radix(pair, 16).expect("two hex digits"))
        .collect()
}

/// A run written by hand.
const RUN: &str = "
         01 00 08  0a 00 00 01  1d 2f  05 dc
         02 00 04  0a 00 00 02
         02 00 04  0a 00 00 01
         03 00 0d  00 00  01  00 00 00 00 00 00 00 16  00 65
         03 00 0d  00 00  03  00 00 00 00 00 00 00 16  ff ff
         03 00 0d  00 00  03  00 00 00 00 00 00 00 16  00 01
         04 00 08  00 00 00 04  00 00 00 01
         05 00 00
         04 00 08  00 00 d8 00  00 00 00 09
         05 00 2e  46 00 00 2e 00 00 40 00 40 2f 23 9e 0a 00 00 02 0a 00 00 01
                   01 01 01 00 20 01 65 59 00 10 00 00
                   02 00 00 00 00 02 02 00 00 00 00 01 88 b5
         05 00 32  45 00 00 32 00 00 40 00 40 11 26 b9 0a 00 00 02 0a 00 00 01
                   cc b8 12 b5 00 1e 00 00 08 00 00 00 00 00 16 00
                   02 00 00 00 00 02 02 00 00 00 00 01 88 b5
         07 00 11  00  00 00 00 00 00 00 00 24  00 00 00 00 00 00 00 0e
         07 00 11  00  00 00 00 00 00 00 00 24  00 00 00 00 00 00 00 0f
         05 00 48  45 00 00 48 00 00 40 00 40 06 26 ae 0a 00 00 02 0a 00 00 01
                   cc b8 1d 2f 00 20 00 00 00 00 00 05 50 18 00 00 24 cf 00 00
                   00 00 00 00 00 00 00 00 00 00 00 00 00 00 00 16 00 00
                   02 00 00 00 00 02 02 00 00 00 00 01 88 b5
         06 00 00
         08 00 1a  00 00  00 00 00 00  00 00 00 07  00 34
                   02 00 00 00 00 02 02 00 00 00 00 01 88 b5
         08 00 1a  00 02  00 00 00 00  00 00 00 07  00 34
                   02 00 00 00 00 02 02 00 00 00 00 01 88 b5
         09 00 0c  00 07  00 02  00 00 02 00 00 00 00 01
         09 00 0c  00 07  00 02  00 00 02 00 00 00 00 01
         09 00 0c  00 07  00 03  00 00 02 00 00 00 00 01
         09 00 0c  ff ff  00 01  00 00 00 00 00 00 00 00
         0a 00 02  00 2a
         0a 00 02  00 30
         0b 00 1e  54 57 4e 00 01 0a 00 00 01 1d 2f 05 dc 01 0a 00 00 02
                   01 00 02 00 00 00 00 00 00 10 00 01
         09 00 0c  00 07  00 02  00 00 02 00 00 00 00 01
         0b 00 1f  54 57 4e 00 01 0a 00 00 01 1d 2f 05 dc 01 0a 00 00 02
                   01 00 02 00 00 00 00 00 00 10 00 01 02
         09 00 0c  00 07  00 03  00 00 02 00 00 00 00 01
         0a 00 02  00 20
         01 00 08  0a 00 00 01  1d 2f  02 3f
         0a 00 02  00 02
         01 00 08  0a 00 00 01  1d 2f  05 dc
         09 00 0c  00 07  00 03  00 00 02 00 00 00 00 01";

/// The lines that the paper and the file's form demand for it; the hashes were
/// worked out outside of this program.
const LINES: &str = "\
start 0
peer 0 0
peer 18 -
binding 0 0
binding 0 1
binding 19 -
memory 4 6054594
receive 2 0 - - packet 0 0 0 6054594
memory 55296 1297393986
receive 26 25 - - packet 0 0 0 1297393986
receive 0 0 101 0 packet 36 14 1343666380 1297393986
view 36 14 1343666380
view - 0 0
receive 0 0 65535 1 memory 18 14 1343666380 3222715768
tick 0
wrap 0 50 1 696778459
wrap 23 0 0 3627348928
observe 0 - 3975110185
observe 1 - 3975110185
observe 2 2 3975110185
observe 0 - 3031000267
save 21 0 1737396448
save 0 43 284581056
load 24 2988214976
observe 1 - 3031000267
load 0 3780429613
observe 0 - 1745976170
save 0 31 2643857091
start 18
save 18 0 5472
start 0
observe 0 - 1745976170
";

#[test]
fn a_run_by_hand() {
    let runs = bytes(RUN);
    assert_eq!(replay(&runs).unwrap(), LINES);
    let mut again = Vec::new();
    for record in decode(&runs).unwrap() {
        record.encode(&mut again);
    }
    assert_eq!(again, runs);
}

#[test]
fn broken_runs_are_told() {
    for broken in [
        "00 00 00",
        "0c 00 00",
        "0a 00 00",
        "0a 00 01 00",
        "0a 00 03 00 10 00",
        "0a 00 02 07 d1",
        "0b 07 d1",
        "0b 00 02 54",
        "09 00 00",
        "09 00 0b 00 07 00 02 00 00 02 00 00 00 00",
        "09 00 0d 00 07 00 02 00 00 02 00 00 00 00 01 00",
        "06",
        "06 00 01 00",
        "02 00 03 0a 00 00",
        "05 00 02 45",
        "05 07 d1",
        "04 00 08 00 00 ea 61 00 00 00 00",
        "07 00 11 02 00 00 00 00 00 00 00 00 00 00 00 00 00 00 00 00",
        "08 00 0c 00 00 00 00 00 00 00 00 00 00 07 d1",
    ] {
        assert!(decode(&bytes(broken)).is_err(), "{broken}");
    }
    for good in [
        "04 00 08 00 00 ea 60 00 00 00 00",
        "0a 00 02 07 d0",
        "0b 00 00",
    ] {
        assert!(decode(&bytes(good)).is_ok(), "{good}");
    }
}

#[test]
fn the_same_seed_gives_the_same_bytes() {
    let first = generate(5, 300);
    let second = generate(5, 300);
    assert_eq!(first.runs, second.runs);
    assert_eq!(first.answers, second.answers);
    let other = generate(6, 300);
    assert_ne!(first.runs, other.runs);
    assert_ne!(first.answers, other.answers);
}

#[test]
fn a_replay_gives_the_answers() {
    for (seed, steps) in [(DEFAULT_SEED, DEFAULT_STEPS), (1, 500), (u64::MAX, 500)] {
        let made = generate(seed, steps);
        assert_eq!(replay(&made.runs).unwrap(), made.answers);
        assert_eq!(made.answers.lines().count(), made.records);
        assert_eq!(decode(&made.runs).unwrap().len(), made.records);
    }
}

#[test]
fn every_code_is_reached() {
    let made = generate(DEFAULT_SEED, DEFAULT_STEPS);
    for (code, &count) in made.histogram.iter().enumerate() {
        let least = if code == NO_LONGER_GIVEN { 0 } else { 4 };
        assert!(count >= least, "code {code} occurs {count} times");
    }
    assert_eq!(made.histogram[NO_LONGER_GIVEN], 0);
}

/// The offsets that stand in the lines of receives with this code.
fn offsets(answers: &str, code: usize) -> BTreeSet<usize> {
    let start = format!("receive {code} ");
    let lines = answers.lines().filter_map(|line| line.strip_prefix(&start));
    lines
        .map(|rest| rest.split(' ').next().unwrap().parse().unwrap())
        .collect()
}

/// Codes 25 to 29 come with every offset that they can have, at every length of an
/// IPv4 header; no other code has one.
#[test]
fn every_offset_is_reached() {
    let made = generate(DEFAULT_SEED, DEFAULT_STEPS);
    let headers = (20..=60).step_by(4);
    let behind = |offsets: [usize; 2]| {
        let headers = headers.clone();
        headers.flat_map(move |header| offsets.map(|offset| header + offset))
    };
    for code in 0..=29 {
        let expected: BTreeSet<usize> = match code {
            NO_LONGER_GIVEN | 18..=24 => BTreeSet::new(),
            25 => behind([8, 8]).collect(),
            26 => behind([0, 1]).collect(),
            27 => behind([2, 3]).collect(),
            29 => [1].into(),
            _ => [0].into(),
        };
        assert_eq!(offsets(&made.answers, code), expected, "code {code}");
    }
}

/// The random part alone reaches everything that receiving, writing and loading
/// can answer, on seeds of all sorts; a save of a refused start is left to the
/// directed cases.
#[test]
fn the_random_part_goes_deep() {
    for seed in SEEDS {
        let mut recorder = Recorder::new();
        random::steps(&mut recorder, &mut Prng::new(seed), DEFAULT_STEPS);
        let reached = |call: &str, code: usize| {
            let start = format!("{call} {code} ");
            recorder
                .answers
                .lines()
                .filter(|line| line.starts_with(&start))
                .count()
        };
        for code in RECEIVED {
            assert!(reached("receive", code) >= 3, "seed {seed}, receive {code}");
        }
        for code in [0, 13, 21, 23] {
            assert!(reached("wrap", code) >= 3, "seed {seed}, wrap {code}");
        }
        for (call, code) in [("save", 0), ("save", 21), ("load", 0), ("load", 24)] {
            assert!(reached(call, code) >= 3, "seed {seed}, {call} {code}");
        }
        assert!(reached("receive", 0) > 300, "seed {seed}");
    }
}

#[test]
fn the_default_runs_keep_their_bounds() {
    let made = generate(DEFAULT_SEED, DEFAULT_STEPS);
    assert!(made.runs.len() < 800_000, "{}", made.runs.len());
    let mut started = false;
    let mut lent = false;
    let mut received = false;
    for (record, line) in decode(&made.runs).unwrap().iter().zip(made.answers.lines()) {
        match record {
            Record::Start { .. } => {
                started = true;
                received = false;
            }
            Record::Load { .. } => received &= !line.starts_with("load 0 "),
            Record::Lend { .. } => lent = true,
            Record::Receive { .. } => {
                assert!(lent, "a receive before the first memory");
                received = true;
            }
            Record::View { .. } => assert!(received, "a view without a packet"),
            _ => {}
        }
        assert!(started, "a call before the first start");
    }
}

/// Nothing but the wraps and the saves is left out, and what is left stands by
/// itself.
#[test]
fn receive_only_leaves_out_what_writes() {
    for (seed, steps) in [(DEFAULT_SEED, DEFAULT_STEPS), (7, 500)] {
        let all = generate(seed, steps);
        let made = generate_receive_only(seed, steps);
        let mut kept = Vec::new();
        for record in decode(&all.runs).unwrap() {
            if !matches!(record, Record::Wrap { .. } | Record::Save { .. }) {
                record.encode(&mut kept);
            }
        }
        assert!(kept.len() < all.runs.len());
        assert_eq!(made.runs, kept);
        let answers: Vec<_> = made.answers.lines().collect();
        let others = all
            .answers
            .lines()
            .filter(|line| !line.starts_with("wrap ") && !line.starts_with("save "));
        assert_eq!(answers, others.collect::<Vec<_>>());
        assert_eq!(replay(&made.runs).unwrap(), made.answers);
        assert_eq!(made.records, answers.len());
        assert_eq!(made.histogram[21..24], [0, 0, 0]);
        assert!(made.histogram[24] > 0, "seed {seed}");
        for code in RECEIVED {
            assert!(made.histogram[code] > 0, "seed {seed}, code {code}");
        }
        let again = generate_receive_only(seed, steps);
        assert_eq!((again.runs, again.answers), (made.runs, made.answers));
    }
}

/// How often each answer of a detector stands in these lines.
fn observed(answers: &str) -> [u64; 4] {
    let mut counts = [0; 4];
    for line in answers.lines() {
        if let Some(rest) = line.strip_prefix("observe ") {
            counts[rest[..1].parse::<usize>().expect("a digit")] += 1;
        }
    }
    counts
}

/// Every frame that is delivered is observed next: its tenant, the number of the
/// peer whose address the packet has, and its bytes 6 to 11.
fn delivered_frames_are_observed_in(runs: &[u8]) {
    let mut driver = Driver::new();
    let mut due = None;
    for record in decode(runs).unwrap() {
        let text = record.call(&mut driver).text;
        let told = matches!(record, Record::Observe { .. }).then_some(record);
        assert_eq!(told, due.take(), "before {text}");
        let Some(rest) = text.strip_prefix("receive 0 0 ") else {
            continue;
        };
        let tenant = rest.split(' ').next().unwrap().parse().unwrap();
        let sender = &driver.last_packet[12..16];
        let mut peers = driver.endpoint.peers().iter();
        let peer = peers.position(|peer| peer.to_be_bytes() == sender).unwrap() as u16;
        let mut address = [0; 8];
        address[2..].copy_from_slice(&driver.handed_back()[6..12]);
        due = Some(Record::Observe {
            tenant,
            peer,
            address: u64::from_be_bytes(address),
        });
    }
    assert_eq!(due, None);
}

/// How often one listing shows an address twice differs much: each seed has to have
/// some of each answer, and all of them together enough.
#[test]
fn delivered_frames_are_observed() {
    let mut counts = [0; 4];
    for seed in SEEDS {
        let mut recorder = Recorder::new();
        random::steps(&mut recorder, &mut Prng::new(seed), DEFAULT_STEPS);
        delivered_frames_are_observed_in(&recorder.runs);
        assert_eq!(observed(&recorder.answers), recorder.observed);
        let [new, known, duplicate, _] = recorder.observed;
        assert!(new.min(known).min(duplicate) >= 25, "seed {seed}");
        for (sum, count) in counts.iter_mut().zip(recorder.observed) {
            *sum += count;
        }
    }
    let [new, known, duplicate, _] = counts;
    for count in [new, known, duplicate] {
        let least = 50 * SEEDS.len() as u64;
        assert!(
            count >= least,
            "{new} new, {known} known, {duplicate} duplicate"
        );
    }
}

/// What a run has met of the look into inner frames (document 02, section 5).
#[derive(Debug, Default)]
struct Looks {
    /// STT headers that were written, by their flags and L4 offset; any offset of IPv4
    /// counts as 34.
    written: BTreeMap<(u8, u8), usize>,
    /// Complete STT frames, as far as they were refused with 29 or delivered.
    complete: usize,
    /// Those that were refused with 29.
    refused: usize,
    /// Those that were delivered with both flags set.
    ignored: usize,
    /// Those of the latter that have the type of IPv4 or IPv6.
    missed: usize,
}

impl Looks {
    fn of(runs: &[u8]) -> Looks {
        let mut looks = Looks::default();
        let mut driver = Driver::untold();
        for record in decode(runs).unwrap() {
            let code = record.call(&mut driver).code;
            match record {
                Record::Wrap { segment: 0, .. } if code == Some(0) => looks.wrapped(&driver),
                Record::Receive { .. } => looks.received(&driver, code),
                _ => {}
            }
        }
        looks
    }

    fn wrapped(&mut self, driver: &Driver) {
        let packet = driver.written();
        if packet[9] != 6 {
            return;
        }
        let (flags, l4_offset) = (packet[41], packet[42]);
        let l4_offset = if flags & 4 != 0 { 34 } else { l4_offset };
        *self.written.entry((flags, l4_offset)).or_default() += 1;
    }

    fn received(&mut self, driver: &Driver, code: Option<u8>) {
        let place = driver.place();
        self.refused += usize::from(code == Some(29));
        self.complete += usize::from(place.in_memory || code == Some(29));
        if place.in_memory && driver.memory[place.start - 17] & 3 == 3 {
            self.ignored += 1;
            let kind = get16(driver.handed_back(), 12);
            self.missed += usize::from(matches!(kind, 0x0800 | 0x86DD));
        }
    }
}

/// The random part writes hints of every kind, and its complete frames have both flags
/// set where that counts and where it does not, often nearly so.
#[test]
fn inner_frames_are_looked_into() {
    for seed in SEEDS {
        let mut recorder = Recorder::new();
        random::steps(&mut recorder, &mut Prng::new(seed), DEFAULT_STEPS);
        let looks = Looks::of(&recorder.runs);
        let kinds = [(0x00, 0), (0x00, 54), (0x04, 34), (0x08, 54), (0x0C, 34)];
        assert!(looks.written.keys().eq(&kinds), "seed {seed}: {looks:?}");
        let least = looks.written.values().min();
        assert!(least >= Some(&8), "seed {seed}: {looks:?}");
        let sum: usize = looks.written.values().sum();
        assert!(sum >= 150, "seed {seed}: {looks:?}");
        assert!(looks.complete >= 300, "seed {seed}: {looks:?}");
        let least = looks.refused.min(looks.ignored).min(looks.missed);
        assert!(least >= 40, "seed {seed}: {looks:?}");
    }
}

/// The detector's own cases and observations come behind all others, stand by
/// themselves, and reach every answer.
#[test]
fn the_detectors_calls_come_last() {
    for (seed, steps) in [(DEFAULT_SEED, DEFAULT_STEPS), (7, 1200)] {
        let made = generate(seed, steps);
        let mut alone = Recorder::new();
        observations::directed(&mut alone);
        observations::random(&mut alone, &mut Prng::new(seed), steps);
        assert!(made.runs.ends_with(&alone.runs), "seed {seed}");
        assert!(made.answers.ends_with(&alone.answers), "seed {seed}");
        assert!(alone.observed.iter().sum::<u64>() > steps as u64);
        for (answer, count) in alone.observed.iter().enumerate() {
            assert!(*count >= 100, "seed {seed}: answer {answer}, {count} times");
        }
        assert_eq!(observed(&made.answers), made.observed);
    }
}

/// The test program `replay` runs on files that are committed; `scripts/vectors`
/// makes them anew.
#[test]
fn the_committed_files_are_the_generators() {
    let folder = Path::new(env!("CARGO_MANIFEST_DIR")).join("../../crates/replay");
    let committed = |name: &str| {
        let path = folder.join(name);
        std::fs::read(&path).unwrap_or_else(|error| panic!("{}: {error}", path.display()))
    };
    let made = generate(DEFAULT_SEED, DEFAULT_STEPS);
    // No assert_eq: a difference would print megabytes.
    for (name, bytes) in [("stdin", made.runs), ("stdout", made.answers.into_bytes())] {
        assert!(committed(name) == bytes, "{name}: run scripts/vectors");
    }
}

/// The test program `roundtrip` is held to a file that is committed.
#[test]
fn the_committed_round_trips_are_the_references() {
    let path = Path::new(env!("CARGO_MANIFEST_DIR")).join("../../crates/roundtrip/stdout");
    let committed = std::fs::read_to_string(&path)
        .unwrap_or_else(|error| panic!("{}: {error}", path.display()));
    assert_eq!(
        committed,
        vectors::round_trip::lines(),
        "run scripts/vectors"
    );
}

fn run_program(arguments: &[&str]) -> bool {
    Command::new(env!("CARGO_BIN_EXE_vectors"))
        .args(arguments)
        .output()
        .expect("the program starts")
        .status
        .success()
}

/// The program's arguments: seed and steps may be left out, before
/// `receive-only` too, which comes last.
#[test]
fn the_program_takes_receive_only_last() {
    let folder = Path::new(env!("CARGO_TARGET_TMPDIR")).join("receive-only");
    let name = folder.to_str().expect("a name of text");
    let written = |arguments: &[&str]| {
        assert!(run_program(arguments), "{arguments:?}");
        let runs = std::fs::read(folder.join("runs.bin")).unwrap();
        let answers = std::fs::read_to_string(folder.join("answers.txt")).unwrap();
        assert_eq!(replay(&runs).unwrap(), answers);
        runs
    };
    assert!(written(&[name, "5", "50"]) == generate(5, 50).runs);
    let without = generate_receive_only(5, 50).runs;
    assert!(written(&[name, "5", "50", "receive-only"]) == without);
    let default = generate_receive_only(DEFAULT_SEED, DEFAULT_STEPS).runs;
    assert!(written(&[name, "receive-only"]) == default);
    for wrong in [
        &["receive-only"][..],
        &[name, "receive-only", "5"],
        &[name, "detector"],
        &[name, "5", "50", "9"],
    ] {
        assert!(!run_program(wrong), "{wrong:?}");
    }
}
