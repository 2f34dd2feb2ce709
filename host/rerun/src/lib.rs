//! The program `rerun` of `crates/rerun`, as it is built. Its tests are in `tests/`;
//! `bin/measure.rs` tells its speed.

#![forbid(unsafe_code)]

use std::path::{Path, PathBuf};

/// Names another program than the one in the repository's `target/`.
const VARIABLE: &str = "NIULASSENC_RERUN";

/// Where `scripts/program rerun` puts it, seen from this crate.
const DEFAULT: &str = "../../target/bin/rerun";

/// The program.
///
/// # Panics
///
/// Where there is none.
pub fn program() -> PathBuf {
    let built = Path::new(env!("CARGO_MANIFEST_DIR")).join(DEFAULT);
    let program = std::env::var_os(VARIABLE).map_or(built, PathBuf::from);
    program.canonicalize().unwrap_or_else(|_| {
        panic!(
            "there is no program {}. Run `scripts/program rerun` in the repository's root, which \
             proves it and writes target/bin/rerun; or name a program in {VARIABLE}.",
            program.display()
        )
    })
}
