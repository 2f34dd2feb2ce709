//! Writing: 13, 21, 22, 23, and unwrapping by a matching endpoint.

use super::*;
use crate::packet::{get16, T};

pub const CASES: &[(&str, Case)] = &[
    ("worked packets", worked_packets),
    ("bindings and frames", bindings_and_frames),
    ("the MTU", mtu),
    ("segment counts", segment_counts),
    ("output lengths", output_lengths),
    ("order of the checks", order),
    ("checksums that come out 0", zero_checksums),
    ("checksums near a carry", near_carries),
    ("wrap, then unwrap", round_trips),
];

fn worked_packets(r: &mut Recorder, _: &mut Prng) {
    r.start(0, OWN, PORT, 1500);
    r.peer(0, PEER_A);
    r.binding(0, 0, VXLAN, 22, 1);
    r.binding(0, 0, NVGRE, 4096, 2);
    r.binding(0, 0, STT, CONTEXT, 3);
    r.wrap(0, 0, 0, 50, &T);
    r.wrap(0, 1, 0, 42, &T);
    r.wrap(0, 2, 0, 72, &T);
    for binding in 0..3 {
        r.wrap(0, binding, 0, 2000, &[0xFF; 14]);
        r.wrap(0, binding, 0, 2000, &[0x80; 15]);
    }
    for identifier in [0, 1, 0xFFFF, 0x8000_0000, u32::MAX] {
        r.try_wrap(2, 0, identifier, 100, &T);
    }
}

fn bindings_and_frames(r: &mut Recorder, prng: &mut Prng) {
    r.start(0, OWN, PORT, 1600);
    r.wrap(23, 0, 0, 100, &T);
    r.peer(0, PEER_A);
    r.wrap(23, 0, 0, 100, &T);
    r.peer(0, PEER_B);
    for (kind, id) in [(VXLAN, 0xFF_FFFF), (NVGRE, 0xFF_FFFE), (STT, u64::MAX)] {
        r.binding(0, 1, kind, id, 1);
        r.binding(0, 0, kind, id, 2);
    }
    for binding in [6, 7, 63, 64, 65, 255, 256, 65_535] {
        r.wrap(23, binding, 0, 100, &T);
    }
    let mut tagged = [0x5A; 20];
    for binding in 0..6 {
        r.wrap(0, binding, 0, 100, &T);
        r.wrap(13, binding, 0, 2000, &[]);
        r.wrap(13, binding, 0, 2000, &T[..13]);
        for kind in [0x8100u16, 0x88A8] {
            tagged[12..14].copy_from_slice(&kind.to_be_bytes());
            r.wrap(13, binding, 0, 2000, &tagged);
        }
        for kind in [0x8101u16, 0x88A9, 0x0081] {
            tagged[12..14].copy_from_slice(&kind.to_be_bytes());
            r.wrap(0, binding, 0, 2000, &tagged);
        }
    }
    for binding in [0, 2, 4] {
        r.wrap(0, binding, 0, 2000, &inner(prng, 1514));
        r.wrap(13, binding, 0, 2000, &inner(prng, 1515));
    }
}

fn mtu(r: &mut Recorder, prng: &mut Prng) {
    for limit in [576, 577, 1500, 1536] {
        r.start(0, OWN, PORT, limit);
        r.peer(0, PEER_A);
        r.binding(0, 0, VXLAN, 0, 1);
        r.binding(0, 0, NVGRE, 4096, 2);
        let limit = usize::from(limit);
        for (binding, headers) in [(0, 36), (1, 28)] {
            let fits = inner(prng, limit - headers);
            let exceeds = inner(prng, limit - headers + 1);
            r.wrap(0, binding, 0, limit, &fits);
            r.wrap(22, binding, 0, limit + 1, &exceeds);
        }
    }
}

fn segment_counts(r: &mut Recorder, prng: &mut Prng) {
    let settings = [
        (576, 518, 1),
        (576, 519, 2),
        (576, 1054, 2),
        (576, 1055, 3),
        (576, 1514, 3),
        (577, 1514, 3),
        (1500, 1442, 1),
        (1500, 1443, 2),
        (1571, 1514, 2),
        (1572, 1514, 1),
        (1600, 1514, 1),
    ];
    for (limit, length, count) in settings {
        r.start(0, OWN, 65_535, limit);
        r.peer(0, PEER_A);
        r.binding(0, 0, STT, CONTEXT, 1);
        let frame = inner(prng, length);
        for segment in 0..count {
            r.wrap(0, 0, segment, 1600, &frame);
        }
        r.wrap(23, 0, count, 1600, &frame);
    }
    r.wrap(23, 0, u32::MAX, 1600, &T);
    r.wrap(23, 0, 0x8000_0000, 1600, &T);
}

fn output_lengths(r: &mut Recorder, prng: &mut Prng) {
    set_up(r, prng.draw() as u32);
    for (binding, length) in [(0, 50), (1, 42), (2, 72)] {
        for short in [0, 1, 20, length - 1] {
            r.wrap(21, binding, 0, short, &T);
        }
        for enough in [length, length + 1, 2000] {
            r.wrap(0, binding, 0, enough, &T);
        }
    }
    let frame = inner(prng, 1500);
    r.wrap(21, 2, 0, 1499, &frame);
    r.wrap(0, 2, 0, 1500, &frame);
    // The second segment: 1,518 - 1,460 = 58 bytes and two headers.
    r.wrap(21, 2, 1, 97, &frame);
    r.wrap(0, 2, 1, 98, &frame);
}

fn order(r: &mut Recorder, prng: &mut Prng) {
    r.start(0, OWN, PORT, 576);
    r.peer(0, PEER_A);
    r.binding(0, 0, VXLAN, 22, 1);
    r.binding(0, 0, NVGRE, 4096, 2);
    r.binding(0, 0, STT, CONTEXT, 3);
    r.wrap(23, 3, 1, 0, &[]);
    let mut tagged = inner(prng, 1514);
    tagged[12..14].copy_from_slice(&[0x81, 0x00]);
    let long = inner(prng, 600);
    for binding in 0..2 {
        r.wrap(13, binding, 1, 0, &tagged);
        r.wrap(13, binding, 1, 0, &[0; 1515]);
        r.wrap(22, binding, 1, 0, &long);
        r.wrap(22, binding, 0, 0, &long);
        r.wrap(23, binding, 1, 0, &T);
        r.wrap(23, binding, u32::MAX, 100, &T);
        r.wrap(21, binding, 0, 0, &T);
    }
    r.wrap(13, 2, 9, 0, &tagged);
    r.wrap(23, 2, 2, 0, &long);
    r.wrap(21, 2, 1, 0, &long);
    r.wrap(0, 2, 1, 122, &long);
}

/// Chooses address and identifier so that the checksums come out 0; they are
/// written as 0, and a receiver takes them.
fn zero_checksums(r: &mut Recorder, _: &mut Prng) {
    r.start(0, OWN, PORT, 1500);
    r.peer(0, 0x0A00_0000);
    r.binding(0, 0, STT, CONTEXT, 1);
    let first = r.wrap_all(0, 0, &T);
    let peer = 0x0A00_0000 | u32::from(get16(&first[0], 10));
    r.start(0, OWN, PORT, 1500);
    r.peer(0, peer);
    r.binding(0, 0, STT, CONTEXT, 1);
    let second = r.wrap_all(0, 0, &T);
    let third = r.wrap_all(0, u32::from(get16(&second[0], 36)), &T);
    assert_eq!((get16(&third[0], 10), get16(&third[0], 36)), (0, 0));
    r.start(0, peer, PORT, 576);
    r.peer(0, OWN);
    r.binding(0, 0, STT, CONTEXT, 9);
    r.lend(ENOUGH, 3);
    r.receive(0, &third[0]);
}

/// What must be added to a ones' complement sum to make it `wanted`.
fn steer(field: u16, wanted: u16) -> u16 {
    // The field is the complement of the sum it was worked out from.
    ((u32::from(field) + u32::from(wanted)) % 0xFFFF) as u16
}

/// Sums of 1 to 15, and just below all ones: where a sum of words folded only
/// once, or in too few bits, goes wrong.
fn near_carries(r: &mut Recorder, _: &mut Prng) {
    for wanted in (1..16).chain(0xFFF0..=0xFFFE) {
        r.start(0, OWN, PORT, 1500);
        r.peer(0, 0x0A00_0000);
        r.binding(0, 0, STT, CONTEXT, 1);
        let plain = r.wrap_all(0, 0, &T);
        let identifier = u32::from(steer(get16(&plain[0], 36), wanted));
        let steered = r.wrap_all(0, identifier, &T);
        assert_eq!(get16(&steered[0], 36), !wanted);
        let peer = 0x0A00_0000 | u32::from(steer(get16(&plain[0], 10), wanted));
        if peer == OWN || peer == 0x0A00_0000 {
            continue;
        }
        r.start(0, OWN, PORT, 1500);
        r.peer(0, peer);
        r.binding(0, 0, STT, CONTEXT, 1);
        let steered = r.wrap_all(0, 0, &T);
        assert_eq!(get16(&steered[0], 10), !wanted);
    }
}

fn round_trips(r: &mut Recorder, prng: &mut Prng) {
    let kinds = [(VXLAN, 0xABCDEF), (NVGRE, 0x123456), (STT, !CONTEXT)];
    for (mtu, length) in [(576, 14), (576, 540), (576, 1514), (1500, 1443)] {
        for (kind, id) in kinds {
            let frame = inner(prng, length);
            r.start(0, OWN, PORT, mtu);
            r.peer(0, PEER_B);
            r.peer(0, PEER_A);
            r.binding(0, 1, kind, id, 3);
            let mut packets = r.wrap_all(0, prng.draw() as u32, &frame);
            if packets.is_empty() {
                continue;
            }
            prng.shuffle(&mut packets);
            r.start(0, PEER_A, PORT, 1600);
            r.peer(0, OWN);
            r.binding(0, 0, kind, id, 77);
            r.lend(ENOUGH, prng.draw() as u32);
            let last = packets.len() - 1;
            for (number, packet) in packets.iter().enumerate() {
                r.receive(u8::from(number < last), packet);
            }
            assert_eq!(r.driver.handed_back(), frame);
        }
    }
}
