//! Runs as settings images and traces.

use niulassenc_reference::trace::{Next, Record as Traced, Trace};
use niulassenc_reference::Endpoint;
use std::collections::BTreeMap;
use std::path::Path;
use std::process::Command;
use vectors::driver::{or_dash, Driver};
use vectors::image::Image;
use vectors::record::{decode, Record};
use vectors::traces::{self, lines, Pair};
use vectors::{generate, DEFAULT_SEED, DEFAULT_STEPS};

/// Every answer that a packet of a trace may have, and a tick.
const TOLD: [&str; 22] = [
    "0", "1", "3", "4", "5", "6", "7", "8", "9", "10", "12", "13", "14", "15", "16", "17", "25",
    "26", "27", "28", "29", "tick",
];

fn run(seed: u64, steps: usize) -> Vec<Record> {
    decode(&generate(seed, steps).runs).unwrap()
}

/// How often each answer, and a tick, is in the lines.
fn told<'a>(pairs: impl IntoIterator<Item = &'a Pair>) -> BTreeMap<String, usize> {
    let mut counts = BTreeMap::new();
    for line in pairs.into_iter().flat_map(|pair| pair.lines.lines()) {
        let word = line.split(' ').nth(1).expect("two words");
        *counts.entry(word.to_string()).or_default() += 1;
    }
    counts
}

/// Whether an endpoint can be loaded from an image: its start was not refused.
fn has_image(endpoint: &Endpoint) -> bool {
    Endpoint::load(&Image::of(endpoint).bytes()).is_ok()
}

/// The packets and ticks of the traces are those of the run, in its order; only what
/// came to an endpoint without an image is not there.
#[test]
fn nothing_else_is_left_out() {
    for (seed, steps) in [(DEFAULT_SEED, DEFAULT_STEPS), (3, 500)] {
        let run = run(seed, steps);
        let mut driver = Driver::untold();
        let mut expected = Vec::new();
        for record in &run {
            let is_traced = matches!(record, Record::Receive { .. } | Record::Tick);
            if is_traced && has_image(&driver.endpoint) {
                expected.push(record.clone());
            }
            record.call(&mut driver);
        }
        let mut traced = Vec::new();
        for pair in traces::pairs(&run) {
            let before = traced.len();
            read(&pair.trace, &mut traced);
            assert_eq!(traced.len() - before, pair.lines.lines().count());
            assert!(traced.len() > before, "a trace without a record");
        }
        assert!(traced == expected, "seed {seed}");
    }
}

fn read(trace: &[u8], records: &mut Vec<Record>) {
    let mut trace = Trace::open(trace).expect("a trace");
    loop {
        records.push(match trace.read() {
            Next::Record(Traced::Tick) => Record::Tick,
            Next::Record(Traced::Packet(packet)) => Record::Receive {
                packet: packet.to_vec(),
            },
            Next::End => return,
            Next::Broken => panic!("a broken record"),
        });
    }
}

#[test]
fn every_answer_is_reached() {
    let told = told(&traces::pairs(&run(DEFAULT_SEED, DEFAULT_STEPS)));
    for word in TOLD {
        assert!(told.get(word) >= Some(&30), "{word}: {told:?}");
    }
    assert_eq!(told.len(), TOLD.len(), "{told:?}");
}

/// Walks a run beside the lines of its pairs.
struct Beside {
    driver: Driver,
    /// Whether the run's endpoint and memory are where the rerun's are, as far as
    /// answers tell.
    is_level: bool,
    compared: usize,
}

impl Beside {
    fn is_pending(&self) -> bool {
        let slots = self.driver.endpoint.pending().as_flattened();
        slots.iter().any(Option::is_some)
    }

    /// A call that has no line.
    fn call(&mut self, record: &Record) {
        if matches!(record, Record::Lend { .. }) && self.is_pending() {
            self.is_level = false;
        }
        record.call(&mut self.driver);
    }

    /// A packet or tick, and what a rerun says of it.
    fn compare(&mut self, record: &Record, number: &str, told: &str) {
        if number == "1" {
            self.is_level = !self.is_pending();
        }
        let code = record.call(&mut self.driver).code.expect("a code");
        // A rerun lends enough, so it may have taken the packet.
        self.is_level &= code != 2;
        let own = match record {
            Record::Tick => "tick".to_string(),
            _ => format!("{code} {}", or_dash(self.driver.tenant())),
        };
        if self.is_level {
            assert_eq!(told, own);
            self.compared += 1;
        }
    }
}

/// A rerun says what the run said, as long as it has the same frames pending in the
/// same memory.
#[test]
fn lines_are_those_of_the_run() {
    let run = run(DEFAULT_SEED, DEFAULT_STEPS);
    let pairs = traces::pairs(&run);
    let mut lines = pairs.iter().flat_map(|pair| pair.lines.lines());
    let mut beside = Beside {
        driver: Driver::untold(),
        is_level: false,
        compared: 0,
    };
    for record in &run {
        let is_traced = matches!(record, Record::Receive { .. } | Record::Tick);
        if is_traced && has_image(&beside.driver.endpoint) {
            let line = lines.next().expect("a line");
            let (number, told) = line.split_once(' ').expect("two words");
            beside.compare(record, number, told);
        } else {
            beside.call(record);
        }
    }
    assert_eq!(lines.next(), None);
    assert!(beside.compared > 2500, "{}", beside.compared);
}

/// The program `rerun` runs on files that are committed; `scripts/vectors` makes them
/// anew.
#[test]
fn the_committed_files_are_the_generators() {
    let folder = Path::new(env!("CARGO_MANIFEST_DIR")).join("../../crates/rerun");
    let made = traces::for_the_program();
    for (name, bytes) in [
        ("args", &b"settings.twn\ntrace.trp\n"[..]),
        ("data/settings.twn", &made.settings),
        ("data/trace.trp", &made.trace),
        ("stdout", made.lines.as_bytes()),
    ] {
        let path = folder.join(name);
        let committed =
            std::fs::read(&path).unwrap_or_else(|error| panic!("{}: {error}", path.display()));
        assert!(committed == bytes, "{name}: run scripts/vectors");
    }
}

/// It has every answer, and ends with a broken record.
#[test]
fn the_committed_trace_goes_deep() {
    let mut made = traces::for_the_program();
    let records = made.lines.strip_suffix("bad trace\n").expect("a last line");
    made.lines = records.to_string();
    let told = told([&made]);
    for word in TOLD {
        assert!(told.get(word) >= Some(&traces::LEAST), "{word}: {told:?}");
    }
    assert!((300..1000).contains(&made.lines.lines().count()));
}

/// Three files for each pair, numbered; those of an earlier call are gone, and what
/// else is in the folder stays.
#[test]
fn the_program_writes_traces() {
    let folder = Path::new(env!("CARGO_TARGET_TMPDIR")).join("with traces");
    let traces = folder.join("traces");
    std::fs::create_dir_all(&traces).unwrap();
    for name in ["999.trp", "note.txt"] {
        std::fs::write(traces.join(name), "before").unwrap();
    }
    let mut program = Command::new(env!("CARGO_BIN_EXE_vectors"));
    let written = program.arg(&folder).args(["5", "50"]).output().unwrap();
    assert!(written.status.success());
    let pairs = traces::pairs(&run(5, 50));
    for (number, pair) in (1..).zip(&pairs) {
        let file = |ending: &str| std::fs::read(traces.join(format!("{number:03}.{ending}")));
        let [settings, trace, told] = ["twn", "trp", "lines"].map(|e| file(e).unwrap());
        assert_eq!((&settings, &trace), (&pair.settings, &pair.trace));
        assert_eq!(told, lines(&settings, &trace).into_bytes());
    }
    let files = std::fs::read_dir(&traces).unwrap().count();
    assert_eq!(files, 3 * pairs.len() + 1);
}
