// Finds an archive of a proved crate's and has it linked: for the build scripts of the crates that need one.

use std::env;
use std::path::{Path, PathBuf};
use std::process::exit;

/// Links the archive that `scripts/archive NAME` writes to the repository's `target/`, or the
/// one that the environment variable names.
fn link(name: &str, variable: &str) {
    println!("cargo::rerun-if-env-changed={variable}");
    let crate_folder = PathBuf::from(env::var_os("CARGO_MANIFEST_DIR").unwrap_or_default());
    let written = crate_folder.join(format!("../../target/staticlib/lib{name}.a"));
    let archive = env::var_os(variable).map_or(written, PathBuf::from);
    let Ok(archive) = archive.canonicalize() else {
        missing(name, variable, &archive);
    };
    let (Some(folder), Some(file)) = (archive.parent(), archive.file_name()) else {
        missing(name, variable, &archive);
    };
    println!("cargo::rerun-if-changed={}", archive.display());
    println!("cargo::rustc-link-search=native={}", folder.display());
    println!(
        "cargo::rustc-link-lib=static:+verbatim={}",
        file.to_string_lossy()
    );
}

fn missing(name: &str, variable: &str, archive: &Path) -> ! {
    eprintln!("{name}: there is no archive {}", archive.display());
    eprintln!("Run `scripts/archive {name}` in the repository's root, which proves it and writes");
    eprintln!("target/staticlib/lib{name}.a; or name an archive in {variable}.");
    exit(1)
}
