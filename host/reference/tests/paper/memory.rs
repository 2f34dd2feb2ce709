//! The reassembly memory bit by bit, over first contents of several kinds.

use crate::build::*;
use niulassenc_reference::{MEMORY_NEEDED, SLOTS_PER_PEER, SLOT_SIZE};

/// What document 01 says the memory is afterwards, bit by bit.
struct Model {
    memory: Vec<u8>,
}

impl Model {
    fn open(&mut self, peer: usize, slot: usize) {
        let map = (4 * peer + slot) * 1728 + 1536;
        self.memory[map..map + 192].fill(0);
    }

    fn take(&mut self, peer: usize, slot: usize, offset: usize, bytes: &[u8]) {
        let start = (4 * peer + slot) * 1728;
        for (index, &byte) in bytes.iter().enumerate() {
            let at = offset + index;
            self.memory[start + at] = byte;
            self.memory[start + 1536 + at / 8] |= 1 << (at % 8);
        }
    }
}

#[test]
fn sizes_are_the_papers() {
    assert_eq!(MEMORY_NEEDED, 55_296);
    assert_eq!(SLOT_SIZE, 1728);
    assert_eq!(SLOTS_PER_PEER, 4);
}

#[test]
fn only_the_segments_bytes_and_bits_change() {
    for fill in [0x00, 0xFF, 0x5A] {
        let mut bed = Bed::new();
        bed.memory = vec![fill; 60_000];
        let mut model = Model {
            memory: vec![fill; 60_000],
        };
        let frame = good(1532);
        let edges = [1532, 1528, 1001, 1000, 77, 64, 63, 9, 8, 7, 0];
        model.open(0, 0);
        for edge in edges.windows(2) {
            let (from, to) = (edge[1], edge[0]);
            let answer = bed.receive(&part(3, &frame, from, to));
            assert_eq!(answer.code, u8::from(from != 0));
            model.take(0, 0, from, &frame[from..to]);
            assert!(bed.memory == model.memory, "fill {fill}, {from}..{to}");
        }
    }
}

#[test]
fn slots_lie_where_the_paper_says() {
    let mut bed = Bed::new();
    for number in 0..6 {
        let peer = bed.endpoint.add_peer(PEER_2 + 1 + number);
        bed.endpoint
            .add_binding(peer.number.unwrap().into(), 3, CONTEXT, number);
    }
    let mut model = Model {
        memory: bed.memory.clone(),
    };
    let frame = good(100);
    for peer in 0..8 {
        let from = PEER + peer as u32;
        for slot in 0..4 {
            let first = segment(from, slot as u32, 100, 50, &frame[50..]);
            assert_eq!(bed.receive(&first).code, 1);
            model.open(peer, slot);
            model.take(peer, slot, 50, &frame[50..]);
            assert!(bed.memory == model.memory);
        }
    }
    for peer in (0..8).rev() {
        for slot in (0..4).rev() {
            let from = PEER + peer as u32;
            let answer = bed.receive(&segment(from, slot as u32, 100, 0, &frame[..50]));
            assert_eq!(answer.code, 0);
            assert!(answer.place.in_memory);
            assert_eq!(answer.place.start, (4 * peer + slot) * 1728 + 18);
            assert_eq!(answer.place.length, 82);
            model.take(peer, slot, 0, &frame[..50]);
            assert!(bed.memory == model.memory);
        }
    }
}

#[test]
fn a_new_frame_takes_the_lowest_free_slot() {
    let mut bed = Bed::new();
    let frame = good(40);
    for identifier in 0..4 {
        bed.holds(&part(identifier, &frame, 0, 20));
    }
    for (identifier, slot) in [(2, 2), (1, 1), (8, 1)] {
        if identifier == 8 {
            bed.holds(&part(8, &frame, 0, 20));
        }
        let place = bed.completes(&frame, &part(identifier, &frame, 20, 40));
        assert_eq!(place.start, slot * 1728 + 18);
    }
}

#[test]
fn a_tick_touches_no_memory_and_a_taken_slot_is_cleared() {
    let mut bed = Bed::new();
    let frame = good(200);
    bed.holds(&part(1, &frame, 0, 100));
    let before = bed.memory.clone();
    bed.ticks(4);
    assert!(bed.memory == before);
    bed.holds(&part(2, &frame, 0, 1));
    let mut map = [0; 192];
    map[0] = 1;
    assert_eq!(bed.memory[1536..1728], map);
    // The frame's room is not cleared.
    assert_eq!(bed.memory[..100], frame[..100]);
}

/// The map in the memory says what was received, whoever wrote it: demand 1 has
/// memory of any contents at any call.
#[test]
fn the_map_alone_says_what_is_held() {
    let mut bed = Bed::new();
    let frame = good(40);
    bed.holds(&part(1, &frame, 0, 20));
    bed.memory[1536] &= !1;
    bed.holds(&part(1, &frame, 20, 40));
    bed.completes(&frame, &part(1, &frame, 0, 1));
    bed.holds(&part(1, &frame, 0, 20));
    bed.memory[..40].copy_from_slice(&frame);
    bed.memory[1536..1541].copy_from_slice(&[255, 255, 255, 255, 127]);
    bed.refuses(16, &part(1, &frame, 20, 40));
    bed.completes(&frame, &part(1, &frame, 39, 40));
    // Bits from the frame's length on neither hinder nor help.
    let short = good(37);
    bed.holds(&part(1, &short, 0, 20));
    bed.memory[1540..1728].fill(0xE0);
    bed.holds(&part(1, &short, 20, 36));
    bed.completes(&short, &part(1, &short, 36, 37));
}
