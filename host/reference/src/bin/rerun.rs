//! `rerun SETTINGS TRACE`: writes a line for each record of a trace. It reads and
//! writes in pieces, and is the baseline for the speed of `crates/rerun`.

#![forbid(unsafe_code)]

use std::ffi::OsString;
use std::fs::File;
use std::io::{self, BufReader, BufWriter, Read, Write};

use niulassenc_reference::trace::rerun;

const BUFFER: usize = 1 << 16;

fn main() {
    let mut names = std::env::args_os().skip(1);
    let settings = file(names.next());
    let trace = BufReader::with_capacity(BUFFER, file(names.next()));
    let mut output = BufWriter::with_capacity(BUFFER, io::stdout().lock());
    // Where nobody reads on there is nobody to tell.
    let _ = rerun(settings, trace, &mut output).and_then(|()| output.flush());
}

/// A file that is not named or not there counts as empty.
fn file(name: Option<OsString>) -> Box<dyn Read> {
    match name.map(File::open) {
        Some(Ok(file)) => Box::new(file),
        _ => Box::new(io::empty()),
    }
}
