//! Runs as settings images and traces (document 02, request 6), with the lines that
//! a rerun must write.
//!
//! A rerun starts from one configuration, with no frame pending, and keeps one memory.
//! So a run becomes several pairs of image and trace: one for each configuration that
//! packets or ticks came to, with all of these up to the next start, load or addition
//! that was not refused. The lines are the reference's for the pair alone. They are
//! those of the run, but for what frames pending before, or another memory, do to it;
//! answer 2, too little memory, is none of a rerun.
//!
//! Left out are packets of more than 1,600 bytes, and what comes to an endpoint whose
//! start was refused: no trace has the former, no image the latter.

use std::collections::BTreeMap;
use std::mem::take;
use std::path::Path;
use std::{fs, io};

use niulassenc_reference::trace::{self, rerun, MAX_PACKET};
use niulassenc_reference::Endpoint;

use crate::driver::Driver;
use crate::image::Image;
use crate::prng::Prng;
use crate::record::Record;
use crate::recorder::Recorder;
use crate::{directed, DEFAULT_SEED};

/// The endings of files that have an image, a trace and lines.
const ENDINGS: [&str; 3] = ["twn", "trp", "lines"];

/// A settings image, a trace, and the lines of its rerun.
#[derive(Clone, Debug, PartialEq, Eq)]
pub struct Pair {
    pub settings: Vec<u8>,
    pub trace: Vec<u8>,
    pub lines: String,
}

impl Pair {
    /// With the reference's lines.
    pub fn new(settings: Vec<u8>, trace: Vec<u8>) -> Pair {
        let lines = lines(&settings, &trace);
        Pair {
            settings,
            trace,
            lines,
        }
    }
}

/// The lines that the reference writes.
pub fn lines(settings: &[u8], trace: &[u8]) -> String {
    let mut lines = Vec::new();
    rerun(settings, trace, &mut lines).expect("a vector takes all");
    String::from_utf8(lines).expect("text")
}

/// Writes the pairs as NNN.twn, NNN.trp and NNN.lines, from 001 on. Those of an
/// earlier run go, as it may have had more.
pub fn write(folder: &Path, pairs: &[Pair]) -> io::Result<()> {
    fs::create_dir_all(folder)?;
    for entry in fs::read_dir(folder)? {
        let path = entry?.path();
        if path
            .extension()
            .is_some_and(|e| ENDINGS.iter().any(|&ending| e == ending))
        {
            fs::remove_file(path)?;
        }
    }
    for (number, pair) in (1..).zip(pairs) {
        let contents = [&pair.settings, &pair.trace, pair.lines.as_bytes()];
        for (ending, bytes) in ENDINGS.into_iter().zip(contents) {
            fs::write(folder.join(format!("{number:03}.{ending}")), bytes)?;
        }
    }
    Ok(())
}

/// The pairs of a run; none of them is without a record.
pub fn pairs(run: &[Record]) -> Vec<Pair> {
    let mut driver = Driver::untold();
    let mut cut = Cut::default();
    for record in run {
        let code = record.call(&mut driver).code;
        match (record, code) {
            (Record::Tick, _) => cut.put(trace::Record::Tick),
            (Record::Receive { packet }, _) if packet.len() <= MAX_PACKET => {
                cut.put(trace::Record::Packet(packet));
            }
            (Record::Start { .. }, _)
            | (Record::Peer { .. } | Record::Binding { .. } | Record::Load { .. }, Some(0)) => {
                cut.end();
                cut.settings = Image::of(&driver.endpoint).bytes();
            }
            _ => {}
        }
    }
    cut.end();
    cut.pairs
}

/// The pairs so far, and the next one's parts.
#[derive(Default)]
struct Cut {
    pairs: Vec<Pair>,
    settings: Vec<u8>,
    /// Empty as long as it has no record.
    trace: Vec<u8>,
}

impl Cut {
    fn put(&mut self, record: trace::Record) {
        if self.trace.is_empty() {
            self.trace = trace::empty();
        }
        record.put(&mut self.trace);
    }

    /// A refused start has no image: its numbers are none that can be loaded.
    fn end(&mut self) {
        let (settings, trace) = (take(&mut self.settings), take(&mut self.trace));
        if !trace.is_empty() && Endpoint::load(&settings).is_ok() {
            self.pairs.push(Pair::new(settings, trace));
        }
    }
}

/// How often each answer is in the pair that `crates/rerun` runs on, at the least.
pub const LEAST: usize = 3;

/// What `crates/rerun` runs on: of the directed cases' pairs, by the default seed,
/// with the configuration that most of them have, those that have an answer which
/// came less than [`LEAST`] times before. Four ticks behind each give its pending
/// frames up. The last record is broken, by a length of 1,601; a good one is behind.
pub fn for_the_program() -> Pair {
    let settings = settings();
    let mut trace = trace::empty();
    let mut seen = BTreeMap::new();
    for pair in pairs(&directed_cases()) {
        let answers = || pair.lines.lines().filter_map(|line| line.split(' ').nth(1));
        let wanted = answers().any(|answer| seen.get(answer) < Some(&LEAST));
        if pair.settings != settings || !wanted {
            continue;
        }
        for answer in answers() {
            *seen.entry(answer.to_string()).or_default() += 1;
        }
        trace.extend(&pair.trace[trace::empty().len()..]);
        for _ in 0..4 {
            trace::Record::Tick.put(&mut trace);
        }
    }
    trace.extend([2, 0x06, 0x41]);
    trace.extend([0; MAX_PACKET + 1]);
    trace::Record::Tick.put(&mut trace);
    Pair::new(settings, trace)
}

/// The image of the configuration that most directed cases have: two peers with a
/// network of each kind.
pub fn settings() -> Vec<u8> {
    let mut recorder = Recorder::keeping();
    directed::set_up(&mut recorder, 0);
    Image::of(&recorder.driver.endpoint).bytes()
}

fn directed_cases() -> Vec<Record> {
    let mut recorder = Recorder::keeping();
    directed::all(&mut recorder, &mut Prng::new(DEFAULT_SEED));
    recorder.into_records()
}
