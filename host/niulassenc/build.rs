//! Finds the archive that `scripts/archive` writes, and has it linked.

include!("../archive.rs");

fn main() {
    link("niulassenc", "NIULASSENC_ARCHIVE");
}
