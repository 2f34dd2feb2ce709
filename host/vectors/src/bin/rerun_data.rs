//! `rerun_data FOLDER`: writes what the program `rerun` runs on, data/settings.twn and
//! data/trace.trp, and the file stdout that its lines are held to.

#![forbid(unsafe_code)]

use std::path::PathBuf;

fn main() -> std::io::Result<()> {
    let folder = PathBuf::from(std::env::args_os().nth(1).expect("a folder"));
    let pair = vectors::traces::for_the_program();
    std::fs::create_dir_all(folder.join("data"))?;
    std::fs::write(folder.join("data/settings.twn"), pair.settings)?;
    std::fs::write(folder.join("data/trace.trp"), pair.trace)?;
    std::fs::write(folder.join("stdout"), pair.lines)
}
