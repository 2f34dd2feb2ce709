//! Instructions and time a call, and instructions of the sums alone, library
//! against reference: two tables in Markdown.

#![forbid(unsafe_code)]

mod callgrind;
mod cases;
mod frames;
mod measure;
mod sides;
mod table;

use cases::{Case, Sum};
use std::process::ExitCode;
use table::Row;

type Library = niulassenc::numbers::Endpoint;
type Reference = niulassenc_reference::Endpoint;

fn main() -> ExitCode {
    let (cases, sums) = (cases::all(), cases::sums());
    let of_sums = sums.iter().flat_map(|sum| [&sum.with, &sum.without]);
    let counted: Vec<&Case> = cases.iter().chain(of_sums).collect();
    if std::env::args().nth(1).as_deref() == Some(callgrind::COUNT) {
        callgrind::make_calls(&counted);
        return ExitCode::SUCCESS;
    }
    match callgrind::counts(counted.len()) {
        Ok(counts) => {
            report(&cases, &sums, &counts);
            ExitCode::SUCCESS
        }
        Err(message) => {
            eprintln!("bench: {message}");
            ExitCode::FAILURE
        }
    }
}

/// The counts are those of the cases, then two for each sum.
fn report(cases: &[Case], sums: &[Sum], counts: &[[f64; 2]]) {
    let (of_cases, of_sums) = counts.split_at(cases.len());
    let rows = cases.iter().zip(of_cases).map(|(case, &instructions)| Row {
        name: &case.name,
        instructions,
        nanoseconds: case
            .stands_alone()
            .then(|| measure::nanoseconds::<Library, Reference>(case)),
    });
    table::print(rows);
    println!();
    let sums = sums.iter().zip(of_sums.chunks_exact(2)).map(|(sum, pair)| {
        let alone = [0, 1].map(|side| pair[0][side] - pair[1][side]);
        (sum.name.as_str(), alone)
    });
    table::print_sums(sums);
}
