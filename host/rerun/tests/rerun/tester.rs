//! Runs the program and compares what it writes.

use crate::tally::Tally;
use rerun::program;
use std::ffi::OsStr;
use std::fs;
use std::io::Read;
use std::path::{Path, PathBuf};
use std::process::{Child, Command, ExitStatus, Stdio};
use std::sync::mpsc;
use std::thread;
use std::time::{Duration, Instant};
use vectors::traces::lines;

/// No run takes a tenth of it. One that does hangs.
const DEADLINE: Duration = Duration::from_secs(60);

/// A folder for the files of one test, and what was compared.
pub struct Tester {
    pub folder: PathBuf,
    pub tally: Tally,
}

impl Tester {
    pub fn new(name: &str) -> Tester {
        let folder = Path::new(env!("CARGO_TARGET_TMPDIR")).join(name);
        let _ = fs::remove_dir_all(&folder);
        fs::create_dir_all(&folder).expect("a folder");
        Tester {
            folder,
            tally: Tally::default(),
        }
    }

    /// Writes a file of the folder.
    pub fn file(&self, name: &str, bytes: &[u8]) -> PathBuf {
        let path = self.folder.join(name);
        fs::write(&path, bytes).expect("a file");
        path
    }

    /// The program on these bytes, as files.
    pub fn compare(&mut self, settings: &[u8], trace: &[u8]) {
        let settings_file = self.file("settings.twn", settings);
        let trace_file = self.file("trace.trp", trace);
        let written = output(command([settings_file, trace_file]));
        self.settle(&lines(settings, trace), &written);
    }

    /// What was written is what had to be. The files stay where it is not.
    pub fn settle(&mut self, expected: &str, written: &[u8]) {
        if written != expected.as_bytes() {
            let run = self.tally.runs + 1;
            let difference = difference(expected, written);
            panic!("run {run} in {}: {difference}", self.folder.display());
        }
        self.tally.add(expected);
    }
}

/// The first line that differs.
fn difference(expected: &str, written: &[u8]) -> String {
    let written = String::from_utf8_lossy(written);
    let (mut ours, mut theirs) = (written.split('\n'), expected.split('\n'));
    for number in 1.. {
        let (ours, theirs) = (ours.next(), theirs.next());
        if ours != theirs {
            return format!("line {number} is {ours:?}, and had to be {theirs:?}");
        }
    }
    unreachable!("the texts differ")
}

/// The program with these arguments, run in no particular folder.
pub fn command<A: AsRef<OsStr>>(arguments: impl IntoIterator<Item = A>) -> Command {
    let mut command = Command::new(program());
    command.args(arguments).stdin(Stdio::null());
    command.stdout(Stdio::piped()).stderr(Stdio::null());
    command
}

/// The program under a shell that does something first; `$@` is the program with its
/// files.
pub fn under_shell(script: &str, files: &[PathBuf]) -> Command {
    let mut shell = Command::new("sh");
    shell.args(["-c", script, "sh"]).arg(program());
    shell.args(files).stdin(Stdio::null()).stderr(Stdio::null());
    shell.stdout(Stdio::piped());
    shell
}

/// All that a command writes.
pub fn output(mut command: Command) -> Vec<u8> {
    written_by(command.spawn().expect("the program starts"))
}

/// All that a child writes.
pub fn written_by(mut child: Child) -> Vec<u8> {
    let mut stdout = child.stdout.take().expect("a pipe");
    let written = read_from(&mut child, move || {
        let mut written = Vec::new();
        stdout.read_to_end(&mut written).expect("a read");
        written
    });
    ends_well(child);
    written
}

/// What `read` gives, which reads what the child writes. A child that hangs is ended,
/// and the test fails.
pub fn read_from<T: Send + 'static>(
    child: &mut Child,
    read: impl FnOnce() -> T + Send + 'static,
) -> T {
    let (sender, receiver) = mpsc::channel();
    thread::spawn(move || sender.send(read()));
    receiver.recv_timeout(DEADLINE).unwrap_or_else(|_| {
        let _ = child.kill();
        panic!("the program does not write what it has to, nor end")
    })
}

/// Waits for the end of a child. One that hangs is ended, and the test fails.
pub fn ends(mut child: Child) -> ExitStatus {
    let start = Instant::now();
    while start.elapsed() < DEADLINE {
        if let Some(status) = child.try_wait().expect("a status") {
            return status;
        }
        thread::sleep(Duration::from_micros(100));
    }
    let _ = child.kill();
    panic!("the program does not end");
}

/// Programs of Rattle end with status 0.
pub fn ends_well(child: Child) {
    let status = ends(child);
    assert!(status.success(), "{status}");
}
