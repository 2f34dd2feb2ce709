//! Files that come in pieces: pipes, which a program may read from as they fill.

use crate::tester::{command, output, written_by, Tester};
use crate::traces::{large, settings, small};
use std::fs::File;
use std::io::Write;
use std::path::{Path, PathBuf};
use std::process::{Command, Stdio};
use std::thread;
use std::time::Duration;
use vectors::traces::lines;

/// How a file is written to a pipe.
#[derive(Clone, Copy)]
struct Feed {
    piece: usize,
    /// Before each piece.
    pause: Duration,
}

const AT_ONCE: Duration = Duration::ZERO;
const SOON: Duration = Duration::from_micros(200);
const LATE: Duration = Duration::from_millis(40);

impl Feed {
    /// Writes the bytes, as far as there is a reader: behind a fault there need not be.
    fn write(self, mut pipe: impl Write, bytes: &[u8]) {
        for piece in bytes.chunks(self.piece) {
            if self.pause > AT_ONCE {
                thread::sleep(self.pause);
            }
            if pipe.write_all(piece).is_err() {
                return;
            }
        }
    }
}

/// What the command writes while one of its files is its standard input.
fn fed(mut command: Command, bytes: Vec<u8>, feed: Feed) -> Vec<u8> {
    command.stdin(Stdio::piped());
    let mut child = command.spawn().expect("the program starts");
    let stdin = child.stdin.take().expect("a pipe");
    thread::spawn(move || feed.write(stdin, &bytes));
    written_by(child)
}

const INPUT: &str = "/dev/stdin";

/// What is written for a trace that comes in pieces.
fn traced(image: &Path, trace: &[u8], feed: Feed) -> Vec<u8> {
    let command = command([image, Path::new(INPUT)]);
    fed(command, trace.to_vec(), feed)
}

/// A trace in pieces of each of these sizes, good, cut and broken.
#[test]
fn traces_in_pieces() {
    let mut tester = Tester::new("pieces");
    let image = tester.file("settings.twn", &settings());
    let small = small();
    let faults = [
        small.clone(),
        small[..small.len() - 1].to_vec(),
        [&small[..], &[9]].concat(),
    ];
    for trace in faults {
        for piece in [1, 2, 3, 4, 5, 7, 8, 53, 1000] {
            for pause in [AT_ONCE, SOON] {
                let written = traced(&image, &trace, Feed { piece, pause });
                tester.settle(&lines(&settings(), &trace), &written);
            }
        }
    }
    assert_eq!((tester.tally.runs, tester.tally.bad_traces), (54, 36));
}

/// Larger ones, in pieces that are no power of two.
#[test]
fn large_traces_in_pieces() {
    let mut tester = Tester::new("large pieces");
    let image = tester.file("settings.twn", &settings());
    let trace = large(300_000);
    for piece in [7, 1599, 1600, 1601, 1603, 4097, 65_537, 1 << 20] {
        let pause = if piece > 4000 { SOON } else { AT_ONCE };
        let written = traced(&image, &trace, Feed { piece, pause });
        tester.settle(&lines(&settings(), &trace), &written);
    }
    tester.tally.every_answer(8);
}

/// Pauses that are long beside a run.
#[test]
fn pieces_that_come_late() {
    let mut tester = Tester::new("late pieces");
    let image = tester.file("settings.twn", &settings());
    for piece in [11, 29] {
        let written = traced(&image, &small(), Feed { piece, pause: LATE });
        tester.settle(&lines(&settings(), &small()), &written);
    }
    assert_eq!(tester.tally.ticks, 4);
}

#[test]
fn settings_in_pieces() {
    let mut tester = Tester::new("settings in pieces");
    let trace = tester.file("trace.trp", &small());
    let good = settings();
    let images = [
        good.clone(),
        good[..good.len() - 1].to_vec(),
        [&good[..], &[0]].concat(),
    ];
    for image in images {
        for piece in [1, 2, 3, 7, 94, 95, 96] {
            let command = command([Path::new(INPUT), &trace]);
            let written = fed(command, image.clone(), Feed { piece, pause: SOON });
            tester.settle(&lines(&image, &small()), &written);
        }
    }
    assert_eq!((tester.tally.runs, tester.tally.bad_settings), (21, 14));
}

/// A file of the test's folder that is a pipe.
fn fifo(tester: &Tester, name: &str) -> PathBuf {
    let path = tester.folder.join(name);
    let made = Command::new("mkfifo").arg(&path).status();
    assert!(made.expect("mkfifo").success());
    path
}

/// Writes to a named pipe, once it is read from.
fn feed_fifo(path: &Path, bytes: Vec<u8>, feed: Feed) {
    let path = path.to_path_buf();
    thread::spawn(move || {
        let pipe = File::options().write(true).open(path).expect("a pipe");
        feed.write(pipe, &bytes);
    });
}

/// Both files are pipes, with writers of their own.
#[test]
fn both_in_pieces() {
    let mut tester = Tester::new("both in pieces");
    let (image, trace) = (fifo(&tester, "image"), fifo(&tester, "trace"));
    let long = large(100_000);
    for (first, second) in [(1, 1601), (5, 777), (64, 40_000)] {
        let pause = SOON;
        feed_fifo(
            &image,
            settings(),
            Feed {
                piece: first,
                pause,
            },
        );
        feed_fifo(
            &trace,
            long.clone(),
            Feed {
                piece: second,
                pause,
            },
        );
        let written = output(command([&image, &trace]));
        tester.settle(&lines(&settings(), &long), &written);
    }
    assert_eq!(tester.tally.runs, 3);
    tester.tally.every_answer(3);
}
