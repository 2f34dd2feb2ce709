//! Each program of `examples/` writes what stands in the file beside it.

use std::ffi::OsStr;
use std::path::Path;
use std::process::Command;

#[test]
fn examples_write_what_is_expected() {
    let folder = Path::new(env!("CARGO_MANIFEST_DIR")).join("examples");
    let mut run = 0;
    for file in std::fs::read_dir(&folder).expect("a folder") {
        let path = file.expect("a file").path();
        if path.extension() != Some(OsStr::new("rs")) {
            continue;
        }
        let name = path.file_stem().and_then(|name| name.to_str());
        let name = name.expect("a name");
        let output = Command::new(env!("CARGO"))
            .args(["run", "--quiet", "--offline", "--example", name])
            .current_dir(&folder)
            .env("TMPDIR", env!("CARGO_TARGET_TMPDIR")) // for the files that they write
            .output()
            .expect("cargo is there");
        assert!(output.status.success(), "{name}: {output:?}");
        let written = String::from_utf8(output.stdout).expect("text");
        let expected = std::fs::read_to_string(path.with_extension("expected"));
        assert_eq!(written, expected.expect("what is expected"), "{name}");
        run += 1;
    }
    assert!(run >= 4);
}
