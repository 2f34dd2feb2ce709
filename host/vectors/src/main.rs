//! `vectors OUTDIR [SEED] [STEPS] [receive-only]`: writes OUTDIR/runs.bin and
//! OUTDIR/answers.txt, the same run as settings images and traces to OUTDIR/traces,
//! and to standard error how often each code and each answer of a detector occurred.

#![forbid(unsafe_code)]

use std::path::Path;
use std::process::ExitCode;
use vectors::record::decode;
use vectors::recorder::Recorder;
use vectors::traces::{self, Pair};
use vectors::{generate, generate_receive_only, DEFAULT_SEED, DEFAULT_STEPS};

type Generate = fn(u64, usize) -> Recorder;

/// The last argument that leaves the wraps and the saves out.
const RECEIVE_ONLY: &str = "receive-only";

fn main() -> ExitCode {
    match run(std::env::args().skip(1).collect()) {
        Ok(()) => ExitCode::SUCCESS,
        Err(message) => {
            eprintln!("vectors: {message}");
            ExitCode::FAILURE
        }
    }
}

fn run(arguments: Vec<String>) -> Result<(), String> {
    let (arguments, generate): (&[String], Generate) = match arguments.split_last() {
        Some((last, rest)) if last == RECEIVE_ONLY => (rest, generate_receive_only),
        _ => (&arguments, generate),
    };
    let (folder, rest) = arguments
        .split_first()
        .filter(|(_, rest)| rest.len() <= 2)
        .ok_or("usage: vectors OUTDIR [SEED] [STEPS] [receive-only]")?;
    let seed = number(rest.first(), DEFAULT_SEED)?;
    let steps = number(rest.get(1), DEFAULT_STEPS as u64)?;
    let recorder = generate(seed, steps as usize);
    let pairs = traces::pairs(&decode(&recorder.runs)?);
    write(Path::new(folder), &recorder, &pairs).map_err(|error| format!("{folder}: {error}"))?;
    report(seed, &recorder, &pairs);
    Ok(())
}

fn number(argument: Option<&String>, default: u64) -> Result<u64, String> {
    argument.map_or(Ok(default), |text| {
        text.parse().map_err(|_| format!("not a number: {text}"))
    })
}

fn write(folder: &Path, recorder: &Recorder, pairs: &[Pair]) -> std::io::Result<()> {
    std::fs::create_dir_all(folder)?;
    std::fs::write(folder.join("runs.bin"), &recorder.runs)?;
    std::fs::write(folder.join("answers.txt"), &recorder.answers)?;
    traces::write(&folder.join("traces"), pairs)
}

fn report(seed: u64, recorder: &Recorder, pairs: &[Pair]) {
    eprintln!(
        "seed {seed}: {} records, {} bytes of runs, {} bytes of answers",
        recorder.records,
        recorder.runs.len(),
        recorder.answers.len()
    );
    for (code, count) in recorder.histogram.iter().enumerate() {
        eprintln!("code {code:2}: {count}");
    }
    let lines: usize = pairs.iter().map(|pair| pair.lines.lines().count()).sum();
    eprintln!("{} traces, {lines} lines", pairs.len());
    let names = ["new", "known", "duplicate", "full"];
    for (name, count) in names.iter().zip(recorder.observed) {
        eprintln!("{name}: {count}");
    }
}
