//! `difference [SEED] [RECEIVES]`: the sweeps, the generator's directed cases,
//! then random runs from the seed on, with so many receives, and as many
//! observations of detectors; library against reference.

#![forbid(unsafe_code)]

use difference::report::{check, check_observations, check_random};
use difference::{runs, sweeps, Counts};
use std::process::ExitCode;
use std::time::Instant;

const DEFAULT_SEED: u64 = 1;
const DEFAULT_RECEIVES: u64 = 1_000_000;

fn main() -> ExitCode {
    let arguments: Vec<String> = std::env::args().skip(1).collect();
    match run(&arguments) {
        Ok(()) => ExitCode::SUCCESS,
        Err(message) => {
            eprintln!("difference: {message}");
            ExitCode::FAILURE
        }
    }
}

fn number(argument: Option<&String>, default: u64) -> Result<u64, String> {
    argument.map_or(Ok(default), |text| {
        text.parse().map_err(|_| format!("not a number: {text}"))
    })
}

fn run(arguments: &[String]) -> Result<(), String> {
    if arguments.len() > 2 {
        return Err("usage: difference [SEED] [RECEIVES]".to_string());
    }
    let seed = number(arguments.first(), DEFAULT_SEED)?;
    let receives = number(arguments.get(1), DEFAULT_RECEIVES)?;
    for sweep in sweeps::all(seed) {
        let begun = Instant::now();
        report(sweep.name, &check(sweep.name, &sweep.run)?, begun);
    }
    let begun = Instant::now();
    let name = "the generator's directed cases";
    report(name, &check(name, &runs::directed(seed))?, begun);
    let begun = Instant::now();
    report("random runs", &check_random(seed, receives)?, begun);
    let begun = Instant::now();
    let name = "random observations";
    report(name, &check_observations(seed, receives)?, begun);
    Ok(())
}

fn report(name: &str, counts: &Counts, begun: Instant) {
    let seconds = begun.elapsed().as_secs_f64();
    println!(
        "{name}: {} calls, {} receives, {seconds:.1} s, no difference",
        counts.calls, counts.receives
    );
    let codes = counts.codes.iter().enumerate();
    let given: Vec<String> = codes
        .filter(|(_, &count)| count > 0)
        .map(|(code, count)| format!("{code}: {count}"))
        .collect();
    if counts.receives > 0 {
        println!("  answers to receives: {}", given.join(", "));
    }
    if counts.saves != [0; 2] || counts.loads != [0; 2] {
        let ([saved, unsaved], [loaded, bad]) = (counts.saves, counts.loads);
        println!("  saves: {saved}, refused: {unsaved}; loads: {loaded}, refused: {bad}");
    }
    if counts.hints != [0; 5] {
        let [tcp4, udp4, tcp6, udp6, none] = counts.hints;
        print!("  hints written: TCP and UDP over IPv4: {tcp4}, {udp4}");
        println!("; over IPv6: {tcp6}, {udp6}; none: {none}");
    }
    if counts.both_flags > 0 {
        println!("  delivered with both flags: {}", counts.both_flags);
    }
    if counts.observations() > 0 {
        let [new, known, duplicate, full] = counts.observed;
        let detectors = counts.full_detectors;
        print!("  new: {new}, known: {known}, duplicate: {duplicate}, full: {full}");
        println!("; {detectors} detectors came to be full");
    }
}
