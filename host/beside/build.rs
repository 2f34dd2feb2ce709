//! Finds the archive that `scripts/archive beside` writes, and has it linked.

include!("../archive.rs");

fn main() {
    link("beside", "NIULASSENC_BESIDE_ARCHIVE");
}
