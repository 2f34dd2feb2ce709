//! Comparing many runs, and telling a difference.

use crate::shrink::shrink;
use crate::{compare, runs, Counts};
use std::fmt::Write;
use std::panic::catch_unwind;
use vectors::record::Record;

/// Compares on one run. A difference is told with the run's name and a shrunk
/// run that shows it.
pub fn check(name: &str, run: &[Record]) -> Result<Counts, String> {
    compare(run).map_err(|found| {
        let mut text = format!("{name}, call {}: {}\n", found.at, found.what);
        let Some((kept, found)) = shrink(run) else {
            // A library that does not answer alike twice.
            text.push_str("a second time it shows no difference\n");
            return text;
        };
        let _ = writeln!(text, "shrunk to {} calls:", kept.len());
        for record in &kept {
            let _ = writeln!(text, "  {}", describe(record));
        }
        let _ = writeln!(text, "the last: {}", found.what);
        text
    })
}

/// Random runs from `seed` on, until there were at least so many receives.
pub fn check_random(seed: u64, receives: u64) -> Result<Counts, String> {
    check_from(seed, runs::random, |counts| counts.receives < receives)
}

/// Random runs of detectors from `seed` on, until there were at least so many
/// observations.
pub fn check_observations(seed: u64, observations: u64) -> Result<Counts, String> {
    check_from(seed, runs::observations, |counts| {
        counts.observations() < observations
    })
}

/// The runs of the seeds from `seed` on, as long as more are wanted.
fn check_from(
    seed: u64,
    run: fn(u64) -> Vec<Record>,
    more: impl Fn(&Counts) -> bool,
) -> Result<Counts, String> {
    let mut counts = Counts::default();
    let mut next = seed;
    while more(&counts) {
        // The generator asks the reference what its calls came to.
        let run = catch_unwind(|| run(next))
            .map_err(|_| format!("seed {next}: the reference panicked in the generator"))?;
        counts.add(&check(&format!("seed {next}"), &run)?);
        next = next.wrapping_add(1);
    }
    Ok(counts)
}

fn hex(bytes: &[u8]) -> String {
    let mut text = String::new();
    for byte in bytes {
        let _ = write!(text, " {byte:02x}");
    }
    text
}

/// A call in one line.
pub fn describe(record: &Record) -> String {
    match record {
        Record::Receive { packet } => format!("receive{}", hex(packet)),
        Record::Wrap {
            binding,
            segment,
            identifier,
            output_length,
            frame,
        } => format!(
            "wrap binding {binding}, segment {segment}, identifier {identifier}, \
             output of {output_length}:{}",
            hex(frame)
        ),
        Record::Start { own, port, mtu } => {
            format!("start own {own:#010x}, port {port}, MTU {mtu}")
        }
        Record::Peer { address } => format!("peer {address:#010x}"),
        Record::Binding {
            peer,
            kind,
            id,
            tenant,
        } => format!("binding peer {peer}, kind {kind}, id {id:#x}, tenant {tenant}"),
        Record::Lend { length, seed } => format!("lend {length} bytes from seed {seed}"),
        Record::Tick => "tick".to_string(),
        Record::View {
            in_memory,
            start,
            length,
        } => format!("view in memory {in_memory}, start {start}, length {length}"),
        Record::Observe {
            tenant,
            peer,
            address,
        } => format!("observe tenant {tenant}, peer {peer}, address {address:#014x}"),
        Record::Save { output_length } => format!("save into an output of {output_length}"),
        Record::Load { image } => format!("load{}", hex(image)),
    }
}
