//! STT: 14 to 17, slots, ageing, and 28, 29, 12 and 13 on a complete frame.

use super::*;
use crate::packet::*;

pub const CASES: &[(&str, Case)] = &[
    ("frame lengths", frame_lengths),
    ("segment bounds", segment_bounds),
    ("length mismatch", length_mismatch),
    ("overlaps", overlaps),
    ("a repeat completes nothing", repeats),
    ("byte by byte", byte_by_byte),
    ("cuts at the map's edges", map_edges),
    ("four frames, then a fifth", slots_full),
    ("lowest free slot", lowest_slot),
    ("two peers, equal identifiers", two_peers),
    ("eight peers", eight_peers),
    ("mixed frames", mixed),
    ("late repeats", late_repeats),
    ("three ticks and four", ageing),
    ("ages differ", ages_differ),
    ("bad header on the last segment", bad_frames),
    ("the wrong byte in any segment", wrong_byte_anywhere),
    ("Context ID in the last segment", context_last),
    ("a memory changed by another", changed_memory),
];

fn frame_lengths(r: &mut Recorder, prng: &mut Prng) {
    set_up(r, prng.draw() as u32);
    for length in [0, 1, 18, 31, 1533, 1536, 1537, 65_535] {
        r.receive(14, &loose(1, length, 0, &[0; 1]));
    }
    r.receive(0, &part(2, &good_frame(prng, 32), 0, 32));
    r.receive(1, &loose(3, 32, 0, &[0; 31]));
    r.receive(1, &loose(4, 1532, 0, &[0; 1]));
    r.receive(14, &loose(5, 31, 0, &[0; 31]));
    let longest = good_frame(prng, 1532);
    r.receive(0, &part(6, &longest, 0, 1532));
    let too_long = [longest.as_slice(), &[0]].concat();
    r.receive(14, &part(7, &too_long, 0, 1533));
    // Refused ones took no slot: two are free.
    r.receive(1, &loose(8, 1532, 1531, &[0; 1]));
    r.receive(1, &loose(9, 33, 32, &[0; 1]));
    r.receive(17, &loose(10, 33, 32, &[0; 1]));
}

fn segment_bounds(r: &mut Recorder, prng: &mut Prng) {
    set_up(r, prng.draw() as u32);
    for (offset, count) in [(0, 33), (31, 2), (32, 1), (33, 1), (65_535, 1)] {
        r.receive(14, &loose(1, 32, offset, &vec![7; count]));
    }
    r.receive(14, &loose(1, 1532, 65_535, &[7; 32]));
    r.receive(14, &loose(1, 1532, 65_500, &[7; 100]));
    r.receive(14, &loose(1, 1532, 1532, &[7; 1]));
    r.receive(14, &loose(1, 1532, 1000, &[7; 533]));
    for (length, offset) in [(32, 0), (32, 32), (1532, 5), (31, 0)] {
        r.receive(14, &loose(1, length, offset, &[]));
    }
    r.receive(1, &loose(1, 32, 31, &[7; 1]));
    r.receive(1, &loose(2, 1532, 1000, &[7; 532]));
    // 14 comes before 15, 16 and 17.
    r.receive(14, &loose(1, 33, 33, &[7; 1]));
    r.receive(14, &loose(1, 32, 31, &[7; 2]));
    r.receive(14, &loose(1, 32, 31, &[]));
    r.receive(1, &loose(3, 40, 0, &[7; 1]));
    r.receive(1, &loose(4, 40, 0, &[7; 1]));
    r.receive(14, &loose(5, 40, 0, &[]));
    r.receive(17, &loose(5, 40, 0, &[7; 1]));
}

fn length_mismatch(r: &mut Recorder, prng: &mut Prng) {
    set_up(r, prng.draw() as u32);
    let frame = good_frame(prng, 100);
    r.receive(1, &part(0, &frame, 40, 60));
    r.receive(15, &loose(0, 99, 0, &frame[..40]));
    r.receive(15, &loose(0, 101, 60, &frame[60..]));
    r.receive(15, &loose(0, 1532, 60, &frame[60..]));
    // 15 comes before 16, and before 17 with the slots full.
    r.receive(15, &loose(0, 99, 40, &frame[40..60]));
    for identifier in 1..4 {
        r.receive(1, &loose(identifier, 99, 0, &[1]));
    }
    r.receive(15, &loose(0, 99, 40, &frame[40..60]));
    r.receive(16, &part(0, &frame, 40, 60));
    r.receive(1, &part(0, &frame, 0, 40));
    r.receive(0, &part(0, &frame, 60, 100));
    // Finished: the identifier may come with any length.
    r.receive(1, &loose(0, 99, 40, &frame[40..60]));
    r.receive(15, &part(0, &frame, 0, 40));
}

fn overlaps(r: &mut Recorder, prng: &mut Prng) {
    set_up(r, prng.draw() as u32);
    let frame = good_frame(prng, 200);
    r.receive(1, &part(9, &frame, 50, 75));
    r.receive(1, &part(9, &frame, 100, 101));
    let taken = [
        (50, 75),
        (50, 51),
        (74, 75),
        (60, 61),
        (49, 51),
        (0, 51),
        (74, 76),
        (74, 200),
        (0, 200),
        (75, 101),
        (100, 101),
        (99, 102),
        (100, 200),
        (76, 200),
        (40, 90),
        (48, 56),
        (96, 104),
    ];
    for (from, to) in taken {
        r.receive(16, &part(9, &frame, from, to));
    }
    // Other bytes in the same place are refused too, and do not get in.
    r.receive(16, &loose(9, 200, 60, &[0; 5]));
    for (from, to) in [(75, 100), (49, 50), (101, 199), (0, 49)] {
        r.receive(1, &part(9, &frame, from, to));
    }
    r.receive(16, &part(9, &frame, 198, 200));
    r.receive(0, &part(9, &frame, 199, 200));
}

fn repeats(r: &mut Recorder, prng: &mut Prng) {
    set_up(r, prng.draw() as u32);
    let frame = good_frame(prng, 60);
    r.receive(1, &part(1, &frame, 0, 20));
    for _ in 0..5 {
        r.receive(16, &part(1, &frame, 0, 20));
    }
    r.receive(1, &part(1, &frame, 40, 60));
    r.receive(16, &part(1, &frame, 40, 60));
    r.receive(0, &part(1, &frame, 20, 40));
}

fn byte_by_byte(r: &mut Recorder, prng: &mut Prng) {
    set_up(r, prng.draw() as u32);
    for length in [32, 33, 39, 40] {
        let frame = good_frame(prng, length);
        let mut places: Vec<usize> = (0..length).collect();
        prng.shuffle(&mut places);
        for (count, &at) in places.iter().enumerate() {
            let code = u8::from(count + 1 < length);
            r.receive(code, &part(5, &frame, at, at + 1));
            if count % 5 == 0 && count + 1 < length {
                r.receive(16, &part(5, &frame, at, at + 1));
            }
        }
    }
}

fn map_edges(r: &mut Recorder, prng: &mut Prng) {
    set_up(r, prng.draw() as u32);
    let cuts: [&[usize]; 8] = [
        &[8],
        &[7, 9],
        &[1, 8, 15, 16],
        &[16, 17, 23],
        &[18],
        &[31],
        &[3, 4, 5, 6],
        &[24, 32],
    ];
    for length in [33, 40, 41, 64, 65] {
        for (index, edges) in cuts.iter().enumerate() {
            let frame = good_frame(prng, length);
            let mut parts = cut(FROM_A, PORT, index as u32, &frame, edges);
            prng.shuffle(&mut parts);
            let last = parts.len() - 1;
            for (number, segment) in parts.iter().enumerate() {
                r.receive(u8::from(number < last), segment);
            }
        }
    }
    let frame = good_frame(prng, 1532);
    for segment in cut(FROM_A, PORT, 99, &frame, &[700, 1528]).iter().rev() {
        let code = u8::from(get16(segment, 26) != 0);
        r.receive(code, segment);
    }
}

fn slots_full(r: &mut Recorder, prng: &mut Prng) {
    set_up(r, prng.draw() as u32);
    let frames: Vec<Vec<u8>> = (0..4).map(|index| good_frame(prng, 50 + index)).collect();
    for (identifier, frame) in frames.iter().enumerate() {
        r.receive(1, &part(identifier as u32, frame, 10, 20));
    }
    let fifth = good_frame(prng, 32);
    r.receive(17, &part(4, &fifth, 0, 32));
    r.receive(17, &part(4, &fifth, 0, 9));
    // The other peer, and the pending ones, go on.
    let other = Label::new(PORT, 4, 32, 0);
    r.receive(0, &segment(FROM_B, other, &fifth));
    r.receive(0, &vxlan(FROM_A, 22, &T));
    r.receive(1, &part(2, &frames[2], 0, 10));
    r.receive(17, &part(4, &fifth, 0, 32));
    r.receive(0, &part(2, &frames[2], 20, 52));
    r.receive(0, &part(4, &fifth, 0, 32));
    r.receive(0, &part(4, &fifth, 0, 32));
    r.receive(1, &part(2, &frames[2], 0, 10));
    r.receive(17, &part(4, &fifth, 0, 32));
}

fn lowest_slot(r: &mut Recorder, prng: &mut Prng) {
    set_up(r, prng.draw() as u32);
    let frame = good_frame(prng, 44);
    for identifier in 0..4 {
        r.receive(1, &part(identifier, &frame, 0, 22));
    }
    // Frees slot 2, then slot 1: each new frame takes the lowest free one.
    r.receive(0, &part(2, &frame, 22, 44));
    r.receive(0, &part(1, &frame, 22, 44));
    r.receive(0, &part(20, &frame, 0, 44));
    r.receive(1, &part(21, &frame, 0, 22));
    r.receive(1, &part(22, &frame, 0, 22));
    r.receive(17, &part(23, &frame, 0, 22));
    for identifier in [3, 22, 0, 21] {
        r.receive(0, &part(identifier, &frame, 22, 44));
    }
    r.receive(0, &part(30, &frame, 0, 44));
}

/// Feeds the segments of good frames in random order. Each frame is delivered
/// exactly with its last segment, which is what demand 3 says.
fn feed(r: &mut Recorder, prng: &mut Prng, frames: &[Vec<u8>], parts: &[Vec<Vec<u8>>]) {
    let mut left: Vec<usize> = parts.iter().map(Vec::len).collect();
    let mut waiting: Vec<(usize, &Vec<u8>)> = Vec::new();
    for (number, segments) in parts.iter().enumerate() {
        waiting.extend(segments.iter().map(|segment| (number, segment)));
    }
    prng.shuffle(&mut waiting);
    for (number, segment) in waiting {
        left[number] -= 1;
        r.receive(u8::from(left[number] > 0), segment);
        if left[number] == 0 {
            assert_eq!(r.driver.handed_back(), &frames[number][18..]);
        }
        // Another sender's packet in between changes nothing.
        if prng.percent(30) {
            r.receive(7, &with_word(segment, 14, 77));
        }
    }
}

fn two_peers(r: &mut Recorder, prng: &mut Prng) {
    set_up(r, prng.draw() as u32);
    let mut frames = Vec::new();
    let mut parts = Vec::new();
    for identifier in 0..4 {
        for path in [FROM_A, FROM_B] {
            let frame = good_frame(prng, 70);
            parts.push(cut(path, PORT, identifier, &frame, &[18, 50]));
            frames.push(frame);
        }
    }
    feed(r, prng, &frames, &parts);
    // One half from each peer never joins.
    let frame = good_frame(prng, 60);
    let first = Label::new(PORT, 500, 60, 0);
    let second = Label::new(PORT, 500, 60, 30);
    r.receive(1, &segment(FROM_A, first, &frame[..30]));
    r.receive(1, &segment(FROM_B, second, &frame[30..]));
    r.receive(0, &segment(FROM_A, second, &frame[30..]));
    r.receive(0, &segment(FROM_B, first, &frame[..30]));
}

fn eight_peers(r: &mut Recorder, prng: &mut Prng) {
    r.start(0, OWN, PORT, 1500);
    r.lend(60_000, prng.draw() as u32);
    for number in 0..8 {
        r.peer(0, PEER_A + number);
        r.binding(0, number as u16, STT, CONTEXT, number as u16);
    }
    let frame = good_frame(prng, 100);
    let mut ends = Vec::new();
    for number in 0..8 {
        for identifier in 0..4 {
            let path = Path {
                from: PEER_A + number,
                to: OWN,
            };
            let parts = cut(path, PORT, identifier, &frame, &[50]);
            r.receive(1, &parts[0]);
            ends.push(parts[1].clone());
        }
    }
    prng.shuffle(&mut ends);
    for end in ends {
        r.receive(0, &end);
    }
}

fn mixed(r: &mut Recorder, prng: &mut Prng) {
    for seed in 0..5 {
        set_up(r, seed);
        let mut frames = Vec::new();
        let mut parts = Vec::new();
        for identifier in 0..4 {
            let length = prng.between(32, 400);
            let frame = good_frame(prng, length);
            let cuts = [length / 3, length / 2, length - 1];
            parts.push(cut(FROM_A, PORT, identifier << 16, &frame, &cuts));
            frames.push(frame);
        }
        feed(r, prng, &frames, &parts);
        // All four are finished: four more fit, a fifth does not.
        for identifier in 0..4 {
            r.receive(1, &loose(identifier, 32, 0, &[0]));
        }
        r.receive(17, &loose(4, 32, 0, &[0]));
    }
}

fn late_repeats(r: &mut Recorder, prng: &mut Prng) {
    set_up(r, prng.draw() as u32);
    let frame = good_frame(prng, 90);
    r.receive(1, &part(1, &frame, 0, 45));
    r.receive(0, &part(1, &frame, 45, 90));
    r.receive(1, &part(1, &frame, 45, 90));
    r.receive(16, &part(1, &frame, 45, 90));
    r.receive(0, &part(1, &frame, 0, 45));
    for _ in 0..3 {
        r.receive(0, &part(1, &frame, 0, 90));
    }
}

fn ageing(r: &mut Recorder, prng: &mut Prng) {
    set_up(r, prng.draw() as u32);
    let frame = good_frame(prng, 80);
    for ticks in 0..=5 {
        r.receive(1, &part(ticks as u32, &frame, 0, 40));
        r.ticks(ticks);
        let code = u8::from(ticks >= 4);
        r.receive(code, &part(ticks as u32, &frame, 40, 80));
        // Where it opened a new frame, the old half completes it.
        if code == 1 {
            r.receive(0, &part(ticks as u32, &frame, 0, 40));
        }
    }
    // A later segment does not make a frame younger.
    r.receive(1, &part(7, &frame, 0, 10));
    for step in 1..4 {
        r.tick();
        r.receive(1, &part(7, &frame, 10 * step, 10 * step + 10));
    }
    r.tick();
    r.receive(1, &part(7, &frame, 40, 80));
    r.receive(1, &part(7, &frame, 0, 10));
    r.receive(16, &part(7, &frame, 0, 10));
    r.receive(0, &part(7, &frame, 10, 40));
    // Aged out, an identifier may come back with another length.
    r.receive(1, &part(8, &frame, 0, 10));
    r.ticks(4);
    r.receive(1, &loose(8, 81, 0, &[1]));
    r.receive(15, &part(8, &frame, 10, 20));
}

fn ages_differ(r: &mut Recorder, prng: &mut Prng) {
    set_up(r, prng.draw() as u32);
    let frame = good_frame(prng, 64);
    for identifier in 0..4 {
        r.receive(1, &part(identifier, &frame, 0, 32));
        let other = Label::new(PORT, identifier, 64, 0);
        r.receive(1, &segment(FROM_B, other, &frame[..32]));
        r.tick();
    }
    // Frame 0 is gone, 1 to 3 have one, two and three ticks left.
    r.receive(1, &part(9, &frame, 0, 32));
    r.receive(17, &part(10, &frame, 0, 32));
    r.tick();
    r.receive(1, &part(1, &frame, 32, 64));
    r.receive(0, &part(2, &frame, 32, 64));
    // A slot taken again starts at age 0.
    r.receive(1, &part(11, &frame, 0, 32));
    r.ticks(3);
    r.receive(0, &part(11, &frame, 32, 64));
    r.receive(0, &part(1, &frame, 0, 32));
    r.ticks(4);
    for identifier in 20..24 {
        r.receive(1, &part(identifier, &frame, 0, 32));
    }
    r.receive(17, &part(24, &frame, 0, 32));
}

/// Answer to a frame with TCP that has this header byte set to this value.
const HEADER_CHANGES: [(u8, usize, u8); 14] = [
    (28, 0, 1),
    (28, 0, 0x80),
    (29, 1, 0x03),
    (29, 1, 0xFF),
    (0, 1, 0x01),
    (0, 1, 0x02),
    (0, 1, 0xFD),
    (0, 1, 0xFE),
    (12, 8, 0xFF),
    (12, 15, 0x00),
    (0, 2, 0xFF),
    (0, 3, 0xFF),
    (0, 7, 0xFF),
    (0, 17, 0xFF),
];

/// The last segment of a bad frame is stored and the slot is free afterwards.
fn bad_frames(r: &mut Recorder, prng: &mut Prng) {
    set_up(r, prng.draw() as u32);
    let good = stt_frame(CONTEXT, &with_tcp(prng, 34));
    for (code, at, value) in HEADER_CHANGES {
        let mut frame = good.clone();
        frame[at] = value;
        let offset = if code > 24 { at } else { 0 };
        r.receive(1, &part(1, &frame, 24, 52));
        r.receive_at(code, offset, &part(1, &frame, 0, 24));
        r.receive_at(code, offset, &part(1, &frame, 0, 52));
    }
    let mut tagged = good.clone();
    put16(&mut tagged, 30, 0x8100);
    let mut service = good.clone();
    put16(&mut service, 30, 0x88A8);
    for frame in [&tagged, &service] {
        r.receive(1, &part(2, frame, 0, 31));
        r.receive(13, &part(2, frame, 31, 52));
    }
    order_of_bad_frames(r, &tagged, &good);
    for identifier in 0..4 {
        r.receive(1, &part(identifier, &good, 0, 24));
    }
    r.receive(17, &part(4, &good, 0, 24));
}

/// 28 before 29 before 12 before 13, and 16 before all of them. A frame with TCP is
/// not tagged, so that none has both 29 and 13.
fn order_of_bad_frames(r: &mut Recorder, tagged: &[u8], tcp: &[u8]) {
    let mut frame = tagged.to_vec();
    for (code, offset, at, value) in [
        (13, 0, 8, tagged[8]),
        (12, 0, 8, tagged[8] ^ 1),
        (28, 0, 0, 1),
    ] {
        frame[at] = value;
        refused_at_the_last_byte(r, code, offset, &frame);
    }
    let mut frame = tcp.to_vec();
    for (code, offset, at, value) in [(12, 0, 8, tcp[8] ^ 1), (29, 1, 1, 3), (28, 0, 0, 1)] {
        frame[at] = value;
        refused_at_the_last_byte(r, code, offset, &frame);
    }
}

fn refused_at_the_last_byte(r: &mut Recorder, code: u8, offset: usize, frame: &[u8]) {
    let last = frame.len() - 1;
    r.receive(1, &part(3, frame, 0, last));
    r.receive(16, &part(3, frame, last - 1, last + 1));
    r.receive_at(code, offset, &part(3, frame, last, last + 1));
}

/// Version and flags come in segments of their own, in any order: the last one gets
/// the answer, and its offset is that in the frame. No header of a packet counts, nor
/// the slot: there is a frame more pending before each.
fn wrong_byte_anywhere(r: &mut Recorder, prng: &mut Prng) {
    set_up(r, prng.draw() as u32);
    let orders = [
        [0, 1, 2],
        [0, 2, 1],
        [1, 0, 2],
        [1, 2, 0],
        [2, 0, 1],
        [2, 1, 0],
    ];
    let faults = [(28, 0, 1, 1), (29, 1, 0, 3), (28, 0, 2, 0xFF)];
    for (pending, (code, offset, version, flags)) in (0..).zip(faults) {
        let mut frame = stt_frame(CONTEXT, &with_tcp(prng, 36));
        frame[..2].copy_from_slice(&[version, flags]);
        let parts = cut(FROM_A, PORT, 1, &frame, &[1, 2]);
        r.receive(1, &loose(100 + pending, 60, 9, &[1; 9]));
        for [first, second, last] in orders {
            r.receive(1, &parts[first]);
            r.receive(1, &parts[second]);
            r.receive_at(code, offset, &parts[last]);
        }
        let whole = with_ip_options(&part(2, &frame, 0, 54), 3);
        r.receive_at(code, offset, &whole);
        r.receive_at(code, offset, &with_tcp_options(&whole, 2));
    }
    let good = good_frame(prng, 50);
    r.receive(0, &part(2, &good, 0, 50));
}

fn context_last(r: &mut Recorder, prng: &mut Prng) {
    set_up(r, prng.draw() as u32);
    let frame = good_frame(prng, 120);
    for edges in [[8, 16], [1, 18], [12, 60]] {
        let parts = cut(FROM_A, PORT, 6, &frame, &edges);
        r.receive(1, &parts[2]);
        r.receive(1, &parts[0]);
        r.receive(0, &parts[1]);
    }
    // Ids that differ in one half only are different networks.
    r.binding(0, 0, STT, CONTEXT & 0xFFFF_FFFF, 1);
    r.binding(0, 0, STT, CONTEXT >> 32 << 32, 2);
    r.binding(0, 0, STT, 0, 3);
    for id in [CONTEXT & 0xFFFF_FFFF, CONTEXT >> 32 << 32, 0, CONTEXT] {
        r.receive(0, &part(6, &stt_frame(id, &T), 0, 32));
    }
    r.receive(12, &part(6, &stt_frame(CONTEXT << 32, &T), 0, 32));
    let path = Label::new(PORT, 6, 32, 0);
    r.receive(12, &segment(FROM_B, path, &stt_frame(0, &T)));
}

/// Demand 1 covers memory of any contents at any call: the map in the memory
/// says what was received, whoever wrote it. The paper gives no code to expect here
/// without working out the new contents, so these are recorded only.
fn changed_memory(r: &mut Recorder, prng: &mut Prng) {
    for length in [33, 37, 40, 41, 47] {
        set_up(r, prng.draw() as u32);
        let frame = good_frame(prng, length);
        for identifier in 0..4 {
            r.receive(1, &part(identifier, &frame, 0, 8));
        }
        r.lend(60_000, prng.draw() as u32);
        for identifier in 0..4 {
            for at in 0..length {
                let end = (at + 1 + identifier as usize).min(length);
                r.try_receive(&part(identifier, &frame, at, end));
            }
        }
    }
}
