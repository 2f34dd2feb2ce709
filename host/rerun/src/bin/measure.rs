//! `measure FOLDER [MEGABYTES]`: makes a trace of so many megabytes, runs the program
//! `rerun` and the reference's on it by turns, and prints a table of the best time of
//! each and of its peak memory. Both must write the same lines.

#![forbid(unsafe_code)]

use niulassenc_reference::trace::{self, Record};
use std::fs::{self, File};
use std::io::{self, BufWriter, Write};
use std::path::{Path, PathBuf};
use std::process::{Child, Command, Stdio};
use std::thread;
use std::time::{Duration, Instant};
use vectors::directed::{with_tcp, CONTEXT, FROM_A, FROM_B, PORT};
use vectors::packet::{cut, nvgre, stt_frame, vxlan, vxlan_summed};
use vectors::prng::Prng;
use vectors::traces;

/// How often each program runs.
const ROUNDS: usize = 3;

/// The sizes of inner frames, each as often as the others.
const SIZES: [usize; 6] = [64, 128, 256, 512, 1024, 1500];

/// Records of the block that a trace repeats: not in the processor's caches at once.
const BLOCK: usize = 16 << 20;

fn main() -> io::Result<()> {
    let mut arguments = std::env::args().skip(1);
    let folder = PathBuf::from(arguments.next().expect("a folder"));
    let megabytes: u64 = arguments
        .next()
        .map_or(1000, |n| n.parse().expect("a number"));
    fs::create_dir_all(&folder)?;
    let settings = folder.join("settings.twn");
    fs::write(&settings, traces::settings())?;
    let trace = folder.join("trace.trp");
    let made = make(&trace, megabytes * 1_000_000)?;
    let reference = std::env::current_exe()?.with_file_name("rerun");
    let programs = [("rerun", rerun::program()), ("reference", reference)];
    let mut best = [Measured::WORST; 2];
    for _ in 0..ROUNDS {
        for ((name, program), best) in programs.iter().zip(&mut best) {
            let lines = File::create(folder.join(name))?;
            let mut command = Command::new(program);
            command.args([&settings, &trace]).stdin(Stdio::null());
            best.better(measure(command.stdout(lines).spawn()?)?);
        }
    }
    let [ours, theirs] = programs.map(|(name, _)| fs::read(folder.join(name)));
    assert!(
        ours? == theirs?,
        "the lines differ: see {}",
        folder.display()
    );
    fs::remove_file(trace)?;
    table(&made, &best);
    Ok(())
}

/// What is in a trace.
#[derive(Clone, Copy, Default)]
struct Made {
    bytes: u64,
    records: u64,
    packets: u64,
}

/// Writes a block of records again and again, up to about so many bytes.
fn make(path: &Path, bytes: u64) -> io::Result<Made> {
    let (block, once) = block();
    let mut file = BufWriter::new(File::create(path)?);
    file.write_all(&trace::empty())?;
    let mut made = Made::default();
    while made.bytes < bytes {
        file.write_all(&block)?;
        made.bytes += once.bytes;
        made.records += once.records;
        made.packets += once.packets;
    }
    file.flush()?;
    Ok(made)
}

/// Frames of each kind in turn, VXLAN with and without a checksum, STT in the segments
/// of an MTU of 1,500 and, every other one, in a third; a tick every hundred frames.
/// Every frame is complete within the block.
fn block() -> (Vec<u8>, Made) {
    let prng = &mut Prng::new(6);
    let (mut block, mut made) = (Vec::new(), Made::default());
    for number in 0u32.. {
        if block.len() >= BLOCK {
            break;
        }
        let size = prng.pick(&SIZES);
        let inner = with_tcp(prng, size);
        let packets = match number % 4 {
            0 => vec![vxlan(FROM_A, 22, &inner)],
            1 => vec![nvgre(FROM_B, 4096, &inner)],
            2 => vec![vxlan_summed(FROM_B, 22, &inner)],
            _ => segments(number, &stt_frame(CONTEXT, &inner)),
        };
        for packet in &packets {
            Record::Packet(packet).put(&mut block);
        }
        made.packets += packets.len() as u64;
        made.records += packets.len() as u64;
        if number % 100 == 99 {
            Record::Tick.put(&mut block);
            made.records += 1;
        }
    }
    made.bytes = block.len() as u64;
    (block, made)
}

fn segments(number: u32, frame: &[u8]) -> Vec<Vec<u8>> {
    let length = if number % 8 == 3 {
        1460
    } else {
        frame.len() / 3
    };
    let cuts: Vec<_> = (length..frame.len()).step_by(length).collect();
    cut(FROM_A, PORT, number, frame, &cuts)
}

/// A run's time, and its peak memory in KiB.
#[derive(Clone, Copy)]
struct Measured {
    seconds: f64,
    peak: u64,
}

impl Measured {
    const WORST: Measured = Measured {
        seconds: f64::INFINITY,
        peak: 0,
    };

    /// The shortest time, and the highest peak.
    fn better(&mut self, other: Measured) {
        self.seconds = self.seconds.min(other.seconds);
        self.peak = self.peak.max(other.peak);
    }
}

/// The system tells the peak of a process as long as it runs.
fn measure(mut child: Child) -> io::Result<Measured> {
    let start = Instant::now();
    let status = format!("/proc/{}/status", child.id());
    let mut peak = 0;
    while child.try_wait()?.is_none() {
        let text = fs::read_to_string(&status).unwrap_or_default();
        let line = text.lines().find_map(|line| line.strip_prefix("VmHWM:"));
        let number = line.and_then(|line| line.split_whitespace().next()?.parse().ok());
        peak = peak.max(number.unwrap_or(0));
        thread::sleep(Duration::from_millis(2));
    }
    let seconds = start.elapsed().as_secs_f64();
    Ok(Measured { seconds, peak })
}

fn table(made: &Made, best: &[Measured; 2]) {
    let megabytes = made.bytes as f64 / 1e6;
    println!(
        "{megabytes:.0} MB, {} records, {} packets; best of {ROUNDS}",
        made.records, made.packets
    );
    println!();
    println!("| | seconds | packets a second | MB a second | peak memory |");
    println!("|---|---|---|---|---|");
    for (name, Measured { seconds, peak }) in ["rerun", "reference"].iter().zip(best) {
        let packets = made.packets as f64 / seconds;
        let rate = megabytes / seconds;
        println!("| {name} | {seconds:.2} | {packets:.0} | {rate:.0} | {peak} KiB |");
    }
    let ratio = best[0].seconds / best[1].seconds;
    println!("| ratio | {ratio:.2} | | | |");
}
