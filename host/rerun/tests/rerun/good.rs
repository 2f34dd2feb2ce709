//! Traces without a fault.

use crate::tester::{output, under_shell, Tester};
use crate::traces::{large, of_directed_cases, of_random_steps, settings, ticks, trace};
use niulassenc_reference::trace::{Record, MAX_PACKET};
use vectors::directed::{good_frame, part, CONTEXT, FROM_A, FROM_B, PORT};
use vectors::packet::{cut, nvgre, stt_frame, trailed, vxlan, vxlan_summed, T};
use vectors::prng::Prng;
use vectors::traces::lines;

#[test]
fn more_than_a_thousand_of_the_generator() {
    let mut tester = Tester::new("generated");
    let directed = (1..=4).flat_map(of_directed_cases);
    let random = (1..=40).flat_map(|seed| of_random_steps(seed, 1000));
    for pair in directed.chain(random) {
        tester.compare(&pair.settings, &pair.trace);
    }
    let tally = &tester.tally;
    assert!(tally.runs > 1000 && tally.lines > 40_000, "{tally:?}");
    assert!(tally.longest > 200, "{tally:?}");
    tally.every_answer(200);
}

/// A packet of every length that a trace may have: noise, and good ones with as many
/// bytes behind them, which do not count.
#[test]
fn packets_of_every_length() {
    let mut tester = Tester::new("lengths");
    let prng = &mut Prng::new(1);
    let noise: Vec<_> = (0..=MAX_PACKET).map(|length| prng.bytes(length)).collect();
    let packets = noise.iter().map(|bytes| Record::Packet(bytes));
    tester.compare(&settings(), &trace(packets));
    let front = vxlan(FROM_A, 22, &T);
    let longer = noise[..=MAX_PACKET - front.len()].iter();
    let longer: Vec<_> = longer.map(|behind| trailed(&front, behind)).collect();
    let packets = longer.iter().map(|bytes| Record::Packet(bytes));
    tester.compare(&settings(), &trace(packets));
    let expected = 2 * (MAX_PACKET + 1) - front.len();
    assert_eq!(tester.tally.lines, expected);
}

/// Inner frames of up to the largest, in one packet or cut.
#[test]
fn frames_of_every_kind_and_size() {
    let mut tester = Tester::new("frames");
    let prng = &mut Prng::new(2);
    for size in (14..=1514).step_by(50) {
        let mut inner = prng.bytes(size);
        inner[12] = 9;
        let frame = stt_frame(CONTEXT, &inner);
        let cuts = [prng.between(1, size / 2), prng.between(size / 2 + 1, size)];
        let mut packets = cut(FROM_B, PORT, size as u32, &frame, &cuts);
        prng.shuffle(&mut packets);
        packets.push(vxlan(FROM_A, 22, &inner));
        packets.push(vxlan_summed(FROM_B, 22, &inner));
        packets.push(nvgre(FROM_A, 4096, &inner));
        let records = packets.iter().map(|packet| Record::Packet(packet));
        tester.compare(&settings(), &trace(records));
    }
    assert_eq!(tester.tally.lines, 31 * 6);
    assert_eq!(tester.tally.answers(0), 31 * 4);
}

/// Frames that age out: so many ticks between their segments, before and behind.
#[test]
fn ticks_between_segments() {
    let mut tester = Tester::new("ticks between");
    let prng = &mut Prng::new(3);
    for between in 0..=6 {
        for again in 0..=6 {
            let frame = good_frame(prng, 90);
            let parts = [(0, 30), (30, 60), (60, 90)];
            let [a, b, c] = parts.map(|(from, to)| part(1, &frame, from, to));
            let mut records = vec![Record::Tick; between % 3];
            records.push(Record::Packet(&a));
            records.extend(vec![Record::Tick; between]);
            records.push(Record::Packet(&b));
            records.extend(vec![Record::Tick; again]);
            records.push(Record::Packet(&c));
            records.push(Record::Packet(&a));
            tester.compare(&settings(), &trace(records));
        }
    }
    // Delivered with the third segment, or with the first one again, or never.
    assert!(tester.tally.answers(0) >= 16, "{:?}", tester.tally);
    assert!(tester.tally.answers(1) >= 90, "{:?}", tester.tally);
}

/// Numbers of each width, and the widest before one more digit.
#[test]
fn many_ticks() {
    let mut tester = Tester::new("ticks");
    for count in [
        0, 1, 2, 9, 10, 11, 99, 100, 999, 1000, 9999, 10_000, 100_000,
    ] {
        tester.compare(&settings(), &ticks(count));
    }
    assert_eq!((tester.tally.empty, tester.tally.ticks), (1, 122_230));
}

/// A trace and lines that are larger than any buffer.
#[test]
fn a_trace_of_megabytes() {
    let mut tester = Tester::new("megabytes");
    let trace = large(6_000_000);
    tester.compare(&settings(), &trace);
    assert!(tester.tally.lines > 100_000, "{:?}", tester.tally);
    tester.tally.every_answer(500);
}

/// Files of more bytes than the program may have of memory.
#[test]
fn in_little_memory() {
    let mut tester = Tester::new("little memory");
    let bytes = large(40_000_000);
    let good = [
        tester.file("settings.twn", &settings()),
        tester.file("trace.trp", &bytes),
    ];
    let script = "ulimit -v 24000; exec \"$@\"";
    let written = output(under_shell(script, &good));
    tester.settle(&lines(&settings(), &bytes), &written);
    let [settings, trace] = good;
    let written = output(under_shell(script, &[trace, settings]));
    tester.settle("bad settings\n", &written);
    assert!(tester.tally.longest > 600_000, "{:?}", tester.tally);
}
