//! Files that are named or not, and there or not.

use crate::tester::{command, output, under_shell, Tester};
use crate::traces::{settings, small};
use std::ffi::{OsStr, OsString};
use std::fs::File;
use std::os::unix::ffi::OsStrExt;
use std::path::{Path, PathBuf};
use vectors::traces::lines;

/// The test's folder with a good image and a good trace, and their paths.
fn files(name: &str) -> (Tester, PathBuf, PathBuf) {
    let tester = Tester::new(name);
    let image = tester.file("an image", &settings());
    let trace = tester.file("a trace", &small());
    (tester, image, trace)
}

/// Files that are missing, cannot be read or have nothing count as empty: here the
/// second.
#[test]
fn no_trace() {
    let (mut tester, image, trace) = files("no trace");
    let names = nothings(&tester.folder);
    for name in &names {
        let arguments = [image.as_os_str(), name, trace.as_os_str()];
        tester.settle("bad trace\n", &output(command(&arguments[..2])));
        tester.settle("bad trace\n", &output(command(arguments)));
    }
    tester.settle("bad trace\n", &output(command([&image])));
    tester.settle("bad trace\n", &output(command([&image, &image])));
    assert_eq!(tester.tally.bad_traces, 2 * names.len() + 2);
}

/// Here the first.
#[test]
fn no_image() {
    let (mut tester, _, trace) = files("no image");
    let names = nothings(&tester.folder);
    for name in &names {
        let arguments = [name.as_os_str(), trace.as_os_str()];
        tester.settle("bad settings\n", &output(command(arguments)));
        tester.settle("bad settings\n", &output(command(&arguments[..1])));
        tester.settle("bad settings\n", &output(command([name, name])));
    }
    let none: [&str; 0] = [];
    tester.settle("bad settings\n", &output(command(none)));
    tester.settle("bad settings\n", &output(command([&trace])));
    tester.settle("bad settings\n", &output(command([&trace, &trace])));
    assert_eq!(tester.tally.bad_settings, 3 * names.len() + 3);
}

fn nothings(folder: &Path) -> Vec<OsString> {
    let long = "x".repeat(5000);
    let within_a_file = folder.join("an image/more");
    let names = ["", "not there", "/", "/dev/null", &long, "nowhere/at all"];
    let mut names: Vec<OsString> = names.map(OsString::from).to_vec();
    names.extend([folder.into(), within_a_file.into()]);
    names
}

/// What stands behind the two names does not count.
#[test]
fn further_arguments() {
    let (mut tester, image, trace) = files("further");
    let expected = lines(&settings(), &small());
    for further in [&["x"][..], &[""], &["--help", "-v"], &["1"; 500]] {
        let mut command = command([&image, &trace]);
        command.args(further);
        tester.settle(&expected, &output(command));
    }
    assert_eq!(tester.tally.ticks, 4 * 2);
}

/// Names of any text, and of nearly as many bytes as the system takes, from the folder
/// that the program is run in.
#[test]
fn names_of_all_sorts() {
    let mut tester = Tester::new("names");
    let expected = lines(&settings(), &small());
    for (image, trace) in [("-", "--"), ("a b", "c\td"), ("1", "2"), ("x.trp", "x.twn")] {
        tester.file(image, &settings());
        tester.file(trace, &small());
        let mut command = command([image, trace]);
        command.current_dir(&tester.folder);
        tester.settle(&expected, &output(command));
    }
    let odd = "\u{ff}\u{2713}\u{1f980} \n-";
    tester.file(odd, &small());
    let long = "./".repeat(2040) + "1";
    let mut command = command([&long, odd]);
    command.current_dir(&tester.folder);
    tester.settle(&expected, &output(command));
    assert_eq!(tester.tally.ticks, 5 * 2);
}

/// No file is opened by a name that is not UTF-8. What such a file has is read from
/// standard input.
#[test]
fn names_that_are_no_text() {
    let mut tester = Tester::new("no text");
    let odd = OsStr::from_bytes(b"\xff\xfe \n-");
    for (bytes, place) in [(settings(), 0), (small(), 1)] {
        let mut names = [OsString::from("1"), OsString::from("2")];
        tester.file("1", &settings());
        tester.file("2", &small());
        std::fs::write(tester.folder.join(odd), bytes).expect("a file");
        names[place] = odd.into();
        let mut by_name = command(&names);
        by_name.current_dir(&tester.folder);
        let none = ["bad settings\n", "bad trace\n"][place];
        tester.settle(none, &output(by_name));
        names[place] = "/dev/stdin".into();
        let mut from_input = command(&names);
        from_input.current_dir(&tester.folder);
        from_input.stdin(File::open(tester.folder.join(odd)).expect("a file"));
        tester.settle(&lines(&settings(), &small()), &output(from_input));
    }
    assert_eq!(tester.tally.ticks, 2 * 2);
}

/// A file that has no end is read no further than to its fault. The limit on its memory
/// is for a program that tries.
#[test]
fn endless_files() {
    let (mut tester, image, _) = files("endless");
    let zeros = PathBuf::from("/dev/zero");
    let limited = |files: &[PathBuf]| output(under_shell("ulimit -v 24000; exec \"$@\"", files));
    tester.settle("bad settings\n", &limited(&[zeros.clone(), zeros.clone()]));
    tester.settle("bad trace\n", &limited(&[image, zeros]));
    assert_eq!(tester.tally.runs, 2);
}
