//! Outputs that take little at a time, or nothing more.

use crate::tester::{command, ends, ends_well, read_from, under_shell, Tester};
use crate::traces::{large, settings, ticks};
use std::fs::File;
use std::io::Read;
use std::os::fd::OwnedFd;
use std::os::unix::net::UnixStream;
use std::path::PathBuf;
use std::process::{Command, Stdio};
use std::thread;
use std::time::Duration;
use vectors::traces::lines;

/// Reads byte by byte, with a pause now and then, so that the pipe is full mostly.
fn read_slowly(mut pipe: impl Read) -> Vec<u8> {
    let mut written = Vec::new();
    let mut byte = [0];
    while pipe.read(&mut byte).expect("a read") > 0 {
        if written.len() % 10_000 == 0 {
            thread::sleep(Duration::from_millis(5));
        }
        written.push(byte[0]);
    }
    written
}

/// The test's files, and the lines that they give: far more than a pipe or a socket
/// takes before it is read from.
fn files(name: &str) -> (Tester, [PathBuf; 2], String) {
    let tester = Tester::new(name);
    let trace = [large(200_000), vec![1; 60_000], vec![9]].concat();
    let files = [
        tester.file("settings.twn", &settings()),
        tester.file("trace.trp", &trace),
    ];
    let expected = lines(&settings(), &trace);
    assert!(expected.len() > 600_000);
    (tester, files, expected)
}

#[test]
fn a_slow_reader() {
    let (mut tester, files, expected) = files("slow reader");
    let mut child = command(&files).spawn().expect("the program starts");
    let pipe = child.stdout.take().expect("a pipe");
    let written = read_from(&mut child, || read_slowly(pipe));
    ends_well(child);
    tester.settle(&expected, &written);
    assert_eq!(tester.tally.bad_traces, 1);
}

/// A socket splits what is written otherwise than a pipe.
#[test]
fn a_slow_socket() {
    let (mut tester, files, expected) = files("slow socket");
    let (ours, theirs) = UnixStream::pair().expect("sockets");
    let mut command = command(&files);
    command.stdout(Stdio::from(OwnedFd::from(theirs)));
    let mut child = command.spawn().expect("the program starts");
    drop(command); // It holds the other end.
    let written = read_from(&mut child, || read_slowly(ours));
    ends_well(child);
    tester.settle(&expected, &written);
    assert_eq!(tester.tally.bad_traces, 1);
}

#[test]
fn a_file() {
    let (mut tester, files, expected) = files("to a file");
    let path = tester.folder.join("lines");
    let mut command = command(&files);
    command.stdout(File::create(&path).expect("a file"));
    ends_well(command.spawn().expect("the program starts"));
    tester.settle(&expected, &std::fs::read(path).expect("a file"));
    assert_eq!(tester.tally.bad_traces, 1);
}

fn send(signal: &str, id: u32) {
    let sent = Command::new("kill")
        .args([signal, &id.to_string()])
        .status();
    assert!(sent.expect("kill").success());
}

/// Stopped and continued while it waits for its reader: a write that has put a part into
/// the pipe by then is short.
#[test]
fn stopped_and_continued() {
    let (mut tester, files, expected) = files("stopped");
    let mut child = command(&files).spawn().expect("the program starts");
    let mut pipe = child.stdout.take().expect("a pipe");
    let id = child.id();
    let written = read_from(&mut child, move || {
        let mut written = Vec::new();
        for _ in 0..20 {
            thread::sleep(Duration::from_millis(10));
            send("-STOP", id);
            send("-CONT", id);
            let mut part = [0; 10_000];
            pipe.read_exact(&mut part).expect("so many bytes");
            written.extend(part);
        }
        written.extend(read_slowly(pipe));
        written
    });
    ends_well(child);
    tester.settle(&expected, &written);
    assert_eq!(tester.tally.bad_traces, 1);
}

/// The first bytes of what a command writes. Then its output is closed, and it ends,
/// whatever its status: a signal may end it.
fn beginning(mut command: Command, count: usize) -> Vec<u8> {
    let mut child = command.spawn().expect("the program starts");
    let mut pipe = child.stdout.take().expect("a pipe");
    let written = read_from(&mut child, move || {
        let mut written = vec![0; count];
        pipe.read_exact(&mut written).expect("so many bytes");
        written
    });
    ends(child);
    written
}

/// Closed by its reader after so many bytes, with the signal of a broken pipe, and with
/// that signal ignored.
#[test]
fn closed_early() {
    let (_, files, expected) = files("closed");
    for read in [0, 1, 10, 100, 5000, 70_000] {
        for script in ["exec \"$@\"", "trap '' PIPE; exec \"$@\""] {
            let written = beginning(under_shell(script, &files), read);
            assert_eq!(written, &expected.as_bytes()[..read]);
        }
    }
}

/// Outputs that take nothing: closed from the start, and a full device.
#[test]
fn no_output() {
    let (_, files, _) = files("no output");
    for script in ["exec \"$@\" >&-", "trap '' PIPE; exec \"$@\" >/dev/full"] {
        assert_eq!(beginning(under_shell(script, &files), 0), b"");
    }
}

/// A file that may not grow beyond 512 bytes times the limit: a write is short, and
/// the next is refused.
#[test]
fn a_file_that_is_full() {
    let (tester, files, expected) = files("full file");
    let path = tester.folder.join("lines");
    let file = path.to_str().expect("text");
    for blocks in [1, 3, 100] {
        let script = format!("ulimit -f {blocks}; trap '' XFSZ; exec \"$@\" >'{file}'");
        beginning(under_shell(&script, &files), 0);
        let written = std::fs::read(&path).expect("a file");
        let length = written.len();
        assert!(
            length == 512 * blocks || length == 1024 * blocks,
            "{length}"
        );
        assert_eq!(written, &expected.as_bytes()[..length]);
    }
}

/// Where lines are lost, or a file is not there, standard error says so.
#[test]
fn standard_error() {
    let (tester, files, _) = files("standard error");
    let nowhere = [files[0].clone(), tester.folder.join("no such file")];
    let said = |script: &str, files: &[PathBuf; 2]| {
        let mut command = under_shell(script, files);
        let output = command.stderr(Stdio::piped()).output().expect("a run");
        String::from_utf8(output.stderr).expect("text")
    };
    for script in ["exec \"$@\" >&-", "exec \"$@\" >/dev/full"] {
        assert!(said(script, &files).contains("standard output"), "{script}");
    }
    assert!(said("exec \"$@\"", &nowhere).contains("no such file"));
    assert_eq!(said("exec \"$@\"", &files), "");
}

/// An output that does not wait gets every line too.
#[test]
fn an_output_that_does_not_wait() {
    let mut tester = Tester::new("does not wait");
    let trace = ticks(200_000);
    let files = [
        tester.file("settings.twn", &settings()),
        tester.file("trace.trp", &trace),
    ];
    let (mut ours, theirs) = UnixStream::pair().expect("sockets");
    theirs.set_nonblocking(true).expect("a socket");
    let mut command = command(&files);
    command.stdout(Stdio::from(OwnedFd::from(theirs)));
    let mut child = command.spawn().expect("the program starts");
    drop(command);
    let written = read_from(&mut child, move || {
        thread::sleep(Duration::from_millis(300));
        let mut written = Vec::new();
        ours.read_to_end(&mut written).expect("a read");
        written
    });
    ends_well(child);
    tester.settle(&lines(&settings(), &trace), &written);
    assert_eq!(tester.tally.ticks, 200_000);
}
