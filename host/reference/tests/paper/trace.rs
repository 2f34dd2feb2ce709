//! Traces and their rerun: document 02, request 6.

use crate::build::*;
use niulassenc_reference::trace::{self, rerun, Next, Record, Trace, MAX_PACKET};
use niulassenc_reference::{Endpoint, MAX_IMAGE};
use std::path::PathBuf;
use std::process::Command;

/// The letters and the version.
const HEADER: [u8; 5] = [0x54, 0x52, 0x50, 0, 1];

/// The image of the test bed's endpoint: tenants 101 to 103 and 201 to 203.
fn settings() -> Vec<u8> {
    image_of(&Bed::new().endpoint)
}

fn image_of(endpoint: &Endpoint) -> Vec<u8> {
    let mut image = [0; MAX_IMAGE];
    let length = endpoint.save(&mut image).expect("a save");
    image[..length].to_vec()
}

/// A trace with these bytes behind its header.
fn trace_of(records: &[u8]) -> Vec<u8> {
    [&HEADER[..], records].concat()
}

/// The bytes of a packet's record.
fn packet(bytes: &[u8]) -> Vec<u8> {
    let length = bytes.len() as u16;
    [&[2][..], &length.to_be_bytes(), bytes].concat()
}

fn lines_of(settings: &[u8], trace: &[u8]) -> String {
    let mut output = Vec::new();
    rerun(settings, trace, &mut output).expect("a vector takes all");
    String::from_utf8(output).expect("text")
}

/// What the records give behind the test bed's image.
fn lines(records: &[u8]) -> String {
    lines_of(&settings(), &trace_of(records))
}

#[test]
fn the_papers_example() {
    assert_eq!(lines(&hex("01 02 00 00")), "1 tick\n2 3 -\n");
}

#[test]
fn bytes_by_hand() {
    let mut bytes = trace::empty();
    assert_eq!(bytes, HEADER);
    Record::Tick.put(&mut bytes);
    Record::Packet(&[]).put(&mut bytes);
    Record::Packet(&[7; 258]).put(&mut bytes);
    let by_hand = [
        &hex("54 52 50 00 01  01  02 00 00  02 01 02")[..],
        &[7; 258],
    ]
    .concat();
    assert_eq!(bytes, by_hand);
    let mut read = Trace::open(&bytes[..]).expect("a trace");
    assert_eq!(read.read(), Next::Record(Record::Tick));
    assert_eq!(read.read(), Next::Record(Record::Packet(&[])));
    assert_eq!(read.read(), Next::Record(Record::Packet(&[7; 258])));
    assert_eq!(read.read(), Next::End);
}

/// Every kind delivered, with its tenant, and refusals, which have none.
#[test]
fn answers_and_tenants() {
    let frame = good(60);
    let records = [
        packet(&vxlan(PEER, 22, &T)),
        packet(&vxlan(PEER, 23, &T)),
        packet(&nvgre(PEER_2, 4096, &T)),
        packet(&part(9, &frame, 30, 60)),
        vec![1],
        packet(&part(9, &frame, 30, 60)),
        packet(&part(9, &frame, 0, 30)),
        packet(&changed(&vxlan(PEER, 22, &T), |p| p[28] = 0)),
    ];
    let expected = "1 0 101\n2 12 -\n3 0 202\n4 1 -\n5 tick\n6 16 -\n7 0 103\n8 25 -\n";
    assert_eq!(lines(&records.concat()), expected);
}

/// A frame is given up with the fourth tick.
#[test]
fn ticks_are_ticks() {
    let frame = good(60);
    let [first, second] = [(0, 30), (30, 60)].map(|(from, to)| packet(&part(1, &frame, from, to)));
    let three = [&first[..], &[1; 3], &second].concat();
    assert_eq!(lines(&three), "1 1 -\n2 tick\n3 tick\n4 tick\n5 0 103\n");
    let four = [&first[..], &[1; 4], &second].concat();
    let expected = "1 1 -\n2 tick\n3 tick\n4 tick\n5 tick\n6 1 -\n";
    assert_eq!(lines(&four), expected);
}

/// Tenants 0 and 65,535 are numbers as any other.
#[test]
fn tenants_at_the_bounds() {
    let (mut endpoint, _) = Endpoint::start(OWN, PORT.into(), 1500);
    endpoint.add_peer(PEER);
    endpoint.add_binding(0, 1, 0, 0);
    endpoint.add_binding(0, 1, 1, 65_535);
    let records = [0, 1].map(|vni| packet(&vxlan(PEER, vni, &T)));
    let trace = trace_of(&records.concat());
    let lines = lines_of(&image_of(&endpoint), &trace);
    assert_eq!(lines, "1 0 0\n2 0 65535\n");
}

/// The number takes as many digits as it needs, and nothing stands before it.
#[test]
fn numbers_of_any_width() {
    let count = 100_001;
    let expected: String = (1..=count).map(|n| format!("{n} tick\n")).collect();
    assert_eq!(lines(&vec![1; count]), expected);
}

#[test]
fn a_header_alone_gives_no_line() {
    assert_eq!(lines(&[]), "");
}

#[test]
fn the_longest_packet() {
    assert_eq!(MAX_PACKET, 1600);
    // The total length is 50; what is behind it does not count.
    let longest = |length| {
        let mut bytes = vxlan(PEER, 22, &T);
        bytes.resize(length, 0xEE);
        [packet(&bytes), vec![1]].concat()
    };
    assert_eq!(lines(&longest(1599)), "1 0 101\n2 tick\n");
    assert_eq!(lines(&longest(1600)), "1 0 101\n2 tick\n");
    assert_eq!(lines(&longest(1601)), "bad trace\n");
    assert_eq!(lines(&longest(65_535)), "bad trace\n");
}

/// Only 1 and 2 begin a record; nothing behind another byte is read.
#[test]
fn tags() {
    for tag in (0..=255).filter(|tag| ![1, 2].contains(tag)) {
        assert_eq!(lines(&[tag]), "bad trace\n", "{tag}");
        let records = [1, 2, 0, 0, tag, 1, 2, 0, 0];
        assert_eq!(lines(&records), "1 tick\n2 3 -\nbad trace\n", "{tag}");
    }
}

/// Cut between two records a trace is good; cut within one, or in its header, not.
#[test]
fn cut_at_every_byte() {
    let records = [vec![1], packet(&vxlan(PEER, 22, &T)), packet(&[]), vec![1]];
    let told = ["1 tick\n", "2 0 101\n", "3 3 -\n", "4 tick\n"];
    let trace = trace_of(&records.concat());
    let mut ends = vec![HEADER.len()];
    for record in &records {
        ends.push(ends[ends.len() - 1] + record.len());
    }
    for length in 0..=trace.len() {
        let complete = ends.iter().filter(|&&end| end <= length).count();
        let mut expected = told[..complete.saturating_sub(1)].concat();
        if !ends.contains(&length) {
            expected.push_str("bad trace\n");
        }
        let lines = lines_of(&settings(), &trace[..length]);
        assert_eq!(lines, expected, "{length} bytes");
    }
}

#[test]
fn a_wrong_header() {
    for at in 0..HEADER.len() {
        for value in (0..=255).filter(|&value| value != HEADER[at]) {
            let mut trace = trace_of(&[1, 2, 0, 0]);
            trace[at] = value;
            let lines = lines_of(&settings(), &trace);
            assert_eq!(lines, "bad trace\n", "byte {at}: {value}");
        }
    }
    assert_eq!(lines_of(&settings(), b"trp\x00\x01\x01"), "bad trace\n");
    assert_eq!(lines_of(&settings(), b"TRP\x01\x00\x01"), "bad trace\n");
}

/// The image is looked at first, whatever the trace is.
#[test]
fn a_bad_image() {
    let good = settings();
    let longer = [&good[..], &[0]].concat();
    let far_longer = [&good[..], &[0; 100_000]].concat();
    let images = [&[][..], &good[..good.len() - 1], &longer, &far_longer];
    for image in images {
        for trace in [&[][..], b"TRQ", &HEADER, &trace_of(&[1]), &trace_of(&[3])] {
            assert_eq!(lines_of(image, trace), "bad settings\n");
        }
    }
}

/// The program: names in their order, and what is not there counts as empty.
#[test]
fn the_program() {
    let folder = PathBuf::from(env!("CARGO_TARGET_TMPDIR"));
    let name = |file: &str| folder.join(file).into_os_string();
    std::fs::write(name("paper.twn"), settings()).expect("a file");
    std::fs::write(name("paper.trp"), trace_of(&[1, 2, 0, 0])).expect("a file");
    for (arguments, expected) in [
        (&["paper.twn", "paper.trp"][..], "1 tick\n2 3 -\n"),
        (&["paper.twn", "paper.trp", "paper.trp"], "1 tick\n2 3 -\n"),
        (&["paper.trp", "paper.twn"], "bad settings\n"),
        (&["paper.twn", "not there"], "bad trace\n"),
        (&["paper.twn", "."], "bad trace\n"),
        (&["paper.twn"], "bad trace\n"),
        (&["not there", "paper.trp"], "bad settings\n"),
        (&[".", "paper.trp"], "bad settings\n"),
        (&[], "bad settings\n"),
    ] {
        let program = env!("CARGO_BIN_EXE_rerun");
        let names = arguments.iter().map(|file| name(file));
        let written = Command::new(program).args(names).output().expect("a run");
        assert!(written.status.success());
        assert_eq!(written.stdout, expected.as_bytes(), "{arguments:?}");
    }
}
