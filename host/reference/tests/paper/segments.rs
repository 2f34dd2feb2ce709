//! Checks 14 to 17, slots and ageing.

use crate::build::*;

#[test]
fn answer_14_bounds() {
    let mut bed = Bed::new();
    for length in [0, 31, 1533, 65_535] {
        bed.refuses(14, &segment(PEER, 1, length, 0, &[0]));
    }
    bed.refuses(14, &segment(PEER, 1, 32, 0, &[]));
    bed.refuses(14, &segment(PEER, 1, 32, 32, &[]));
    bed.refuses(14, &segment(PEER, 1, 32, 0, &[0; 33]));
    bed.refuses(14, &segment(PEER, 1, 32, 31, &[0; 2]));
    bed.refuses(14, &segment(PEER, 1, 32, 32, &[0]));
    bed.holds(&segment(PEER, 1, 32, 31, &[0]));
    let longest = good(1532);
    bed.completes(&longest, &part(2, &longest, 0, 1532));
}

#[test]
fn answer_15_another_length() {
    let mut bed = Bed::new();
    let frame = good(60);
    bed.holds(&part(1, &frame, 0, 30));
    bed.refuses(15, &segment(PEER, 1, 59, 30, &[0; 5]));
    bed.refuses(15, &segment(PEER, 1, 61, 30, &[0; 5]));
    // Another identifier, or another peer, may have another length.
    bed.holds(&segment(PEER, 2, 61, 30, &[0; 5]));
    bed.holds(&segment(PEER_2, 1, 61, 30, &[0; 5]));
    bed.completes(&frame, &part(1, &frame, 30, 60));
    bed.holds(&segment(PEER, 1, 61, 30, &[0; 5]));
}

#[test]
fn identifiers_are_32_bits_wide() {
    let mut bed = Bed::new();
    let frame = good(60);
    let identifiers = [0, 0x0000_0100, 0x0001_0000, 0x8000_0000];
    for identifier in identifiers {
        bed.holds(&part(identifier, &frame, 0, 30));
    }
    bed.refuses(17, &part(0x0100_0000, &frame, 0, 30));
    for identifier in identifiers {
        bed.completes(&frame, &part(identifier, &frame, 30, 60));
    }
}

#[test]
fn answer_16_any_byte_held() {
    let mut bed = Bed::new();
    let frame = good(100);
    bed.holds(&part(1, &frame, 30, 45));
    for (from, to) in [
        (30, 45),
        (30, 31),
        (44, 45),
        (29, 31),
        (44, 46),
        (0, 100),
        (35, 36),
    ] {
        bed.refuses(16, &part(1, &frame, from, to));
    }
    bed.holds(&part(1, &frame, 29, 30));
    bed.holds(&part(1, &frame, 45, 46));
    bed.holds(&part(1, &frame, 0, 29));
    bed.completes(&frame, &part(1, &frame, 46, 100));
}

#[test]
fn answer_17_is_per_peer() {
    let mut bed = Bed::new();
    for identifier in 0..4 {
        bed.holds(&segment(PEER, identifier, 60, 0, &[0]));
    }
    bed.refuses(17, &segment(PEER, 4, 60, 0, &[0]));
    for identifier in 0..4 {
        bed.holds(&segment(PEER_2, identifier, 60, 0, &[0]));
    }
    bed.refuses(17, &segment(PEER_2, 4, 60, 0, &[0]));
    bed.holds(&segment(PEER, 3, 60, 1, &[0]));
    bed.delivers(101, 0, &T, &vxlan(PEER, 22, &T));
}

/// A bad frame has its last segment stored and gives its slot back.
#[test]
fn bad_frames_give_their_slot_back() {
    let mut bed = Bed::new();
    let wrongs: [(u8, usize, u8); 6] = [
        (28, 0, 1),
        (29, 1, 3),
        (29, 1, 0xFF),
        (12, 8, 2),
        (12, 15, 0),
        (13, 30, 0x81),
    ];
    for (code, at, value) in wrongs {
        let mut frame = stt_frame(CONTEXT, &over_ipv4(5, 17, 34));
        frame[at] = value;
        let offset = if code == 29 { 1 } else { 0 };
        for _ in 0..5 {
            bed.holds(&part(1, &frame, 25, 52));
            bed.refuses_frame_at(code, offset, &part(1, &frame, 0, 25));
            assert_eq!(bed.memory[..52], frame);
            assert_eq!(bed.memory[1536..1543], [255, 255, 255, 255, 255, 255, 15]);
        }
    }
    for identifier in 0..4 {
        bed.holds(&part(identifier, &good(50), 0, 25));
    }
}

#[test]
fn flags_and_hints_are_free() {
    let mut bed = Bed::new();
    for (at, value) in [
        (1, 1),
        (1, 2),
        (1, 0xFD),
        (1, 0xFE),
        (2, 9),
        (3, 9),
        (4, 9),
        (7, 9),
        (16, 9),
        (17, 9),
    ] {
        let mut frame = good(40);
        frame[at] = value;
        bed.completes(&frame, &part(1, &frame, 0, 40));
    }
}

#[test]
fn a_late_repeat_opens_a_new_frame() {
    let mut bed = Bed::new();
    let frame = good(60);
    bed.completes(&frame, &part(1, &frame, 0, 60));
    bed.completes(&frame, &part(1, &frame, 0, 60));
    bed.holds(&part(1, &frame, 0, 30));
    bed.completes(&frame, &part(1, &frame, 30, 60));
    bed.holds(&part(1, &frame, 30, 60));
    bed.refuses(16, &part(1, &frame, 30, 60));
    bed.completes(&frame, &part(1, &frame, 0, 30));
}

#[test]
fn a_later_segment_does_not_make_a_frame_younger() {
    let mut bed = Bed::new();
    let frame = good(60);
    bed.holds(&part(1, &frame, 0, 10));
    bed.ticks(3);
    bed.holds(&part(1, &frame, 10, 20));
    bed.ticks(1);
    bed.holds(&part(1, &frame, 20, 60));
    bed.holds(&part(1, &frame, 0, 10));
    bed.completes(&frame, &part(1, &frame, 10, 20));
}

#[test]
fn each_frame_has_its_own_age() {
    let mut bed = Bed::new();
    let frame = good(60);
    for identifier in 0..4 {
        bed.holds(&part(identifier, &frame, 0, 30));
        bed.ticks(1);
    }
    // Only the first has seen four ticks.
    bed.holds(&part(9, &frame, 0, 30));
    bed.refuses(17, &part(10, &frame, 0, 30));
    for identifier in [1, 2, 3, 9] {
        bed.completes(&frame, &part(identifier, &frame, 30, 60));
    }
    // A slot taken again starts at age 0.
    bed.holds(&part(11, &frame, 0, 30));
    bed.ticks(3);
    bed.completes(&frame, &part(11, &frame, 30, 60));
}

#[test]
fn a_tick_ages_every_slot_of_every_peer() {
    let mut bed = Bed::new();
    for number in 2..8 {
        let added = bed.endpoint.add_peer(PEER + number);
        assert_eq!(added.number, Some(number as u16));
    }
    for (number, identifier) in (0..8).flat_map(|number| (0..4).map(move |i| (number, i))) {
        bed.holds(&segment(PEER + number, identifier, 60, 0, &[0]));
    }
    for age in 1..4 {
        bed.ticks(1);
        for slot in bed.endpoint.pending().as_flattened() {
            assert_eq!(slot.map(|pending| pending.age), Some(age));
        }
    }
    bed.ticks(1);
    for slot in bed.endpoint.pending().as_flattened() {
        assert_eq!(*slot, None);
    }
}

#[test]
fn a_freed_slots_numbers_are_not_visible() {
    let mut used = Bed::new();
    let frame = good(60);
    used.holds(&part(7, &frame, 0, 30));
    used.ticks(2);
    used.completes(&frame, &part(7, &frame, 30, 60));
    used.holds(&part(8, &frame, 0, 30));
    used.ticks(4);
    assert!(used.endpoint == Bed::new().endpoint);
}

/// Demand 3 on a small scale: every order of two frames' segments delivers
/// each frame exactly at its last segment.
#[test]
fn every_mixing_delivers_each_frame_once() {
    let frames = [good(40), good(57)];
    let mut segments = Vec::new();
    for (index, cuts) in [[0, 9, 40], [0, 20, 57]].iter().enumerate() {
        for edge in cuts.windows(2) {
            segments.push((index, part(index as u32, &frames[index], edge[0], edge[1])));
        }
    }
    let mut orders = 0;
    for number in 0..256usize {
        let order: Vec<usize> = (0..4).map(|place| number >> (2 * place) & 3).collect();
        if (0..4).any(|wanted| !order.contains(&wanted)) {
            continue;
        }
        orders += 1;
        let mut bed = Bed::new();
        let mut seen = [0, 0];
        for choice in order {
            let (index, packet) = &segments[choice];
            seen[*index] += 1;
            if seen[*index] == 2 {
                bed.completes(&frames[*index], packet);
            } else {
                bed.holds(packet);
            }
        }
    }
    assert_eq!(orders, 24);
}
