//! Checks 25 to 27, 12 and 13 of VXLAN and NVGRE, and what answer 0 carries.

use crate::build::*;
use niulassenc_reference::{Answer, Place};

#[test]
fn answer_0_names_tenant_binding_and_place() {
    let mut bed = Bed::new();
    let expected = Answer {
        code: 0,
        offset: 0,
        tenant: Some(201),
        binding: Some(3),
        place: Place {
            in_memory: false,
            start: 36,
            length: 14,
        },
    };
    let memory = bed.memory.clone();
    assert_eq!(bed.receive(&vxlan(PEER_2, 22, &T)), expected);
    let expected = Answer {
        tenant: Some(202),
        binding: Some(4),
        place: Place {
            start: 28,
            ..expected.place
        },
        ..expected
    };
    assert_eq!(bed.receive(&nvgre(PEER_2, 4096, &T)), expected);
    assert!(bed.memory == memory);
}

#[test]
fn answer_25_vxlan() {
    let mut bed = Bed::new();
    let packet = vxlan(PEER, 22, &T);
    for flags in [0x00, 0xF7, 0x04, 0x10, 0x80] {
        bed.refuses_at(25, 28, &changed(&packet, |p| p[28] = flags));
    }
    for flags in [0x08, 0xFF, 0x0C, 0x88] {
        bed.delivers(101, 0, &T, &changed(&packet, |p| p[28] = flags));
    }
    for reserved in [29, 30, 31, 35] {
        bed.delivers(101, 0, &T, &changed(&packet, |p| p[reserved] = 0xFF));
    }
}

#[test]
fn answers_26_and_27_nvgre() {
    let mut bed = Bed::new();
    let packet = nvgre(PEER, 4096, &T);
    for first in [0x00, 0x1F, 0x24, 0x30, 0x60, 0xA0, 0xFF] {
        bed.refuses_at(26, 20, &changed(&packet, |p| p[20] = first));
    }
    for first in 0x20..=0x23 {
        bed.delivers(102, 1, &T, &changed(&packet, |p| p[20] = first));
    }
    for second in [1, 2, 4, 0xFF] {
        bed.refuses_at(26, 21, &changed(&packet, |p| p[21] = second));
    }
    bed.delivers(102, 1, &T, &changed(&packet, |p| p[21] = 0xF8));
    for (kind, at) in [(0x6559, 23), (0x6557, 23), (0x6458, 22), (0x0800, 22)] {
        bed.refuses_at(27, at, &changed(&packet, |p| set_word(p, 22, kind)));
    }
    bed.delivers(102, 1, &T, &changed(&packet, |p| p[27] = 0xFF));
}

#[test]
fn answer_12_bindings() {
    let mut bed = Bed::new();
    for at in [32, 33, 34] {
        bed.refuses(12, &changed(&vxlan(PEER, 22, &T), |p| p[at] ^= 1));
    }
    for vsid in [0, 4095, 4097, 16_777_215] {
        bed.refuses(12, &nvgre(PEER, vsid, &T));
    }
    // Kinds and peers are kept apart.
    bed.refuses(12, &vxlan(PEER, 4096, &T));
    bed.refuses(12, &nvgre(PEER, 22, &T));
    bed.endpoint.add_binding(1, 1, 4096, 9);
    bed.refuses(12, &vxlan(PEER, 4096, &T));
    bed.delivers(9, 6, &T, &vxlan(PEER_2, 4096, &T));
    bed.endpoint.add_binding(0, 1, 0xFF_FFFF, 0);
    bed.delivers(0, 7, &T, &vxlan(PEER, 0xFF_FFFF, &T));
    bed.endpoint.add_binding(0, 2, 0xFF_FFFE, 65_535);
    bed.delivers(65_535, 8, &T, &nvgre(PEER, 0xFF_FFFE, &T));
}

#[test]
fn answer_13_lengths() {
    let mut bed = Bed::new();
    for length in [0, 1, 13, 1515, 1600] {
        bed.refuses(13, &vxlan(PEER, 22, &inner(length)));
        bed.refuses(13, &nvgre(PEER, 4096, &inner(length)));
    }
    for length in [14, 15, 1514] {
        bed.delivers(101, 0, &inner(length), &vxlan(PEER, 22, &inner(length)));
        bed.delivers(102, 1, &inner(length), &nvgre(PEER, 4096, &inner(length)));
    }
}

#[test]
fn answer_13_tags() {
    let mut bed = Bed::new();
    let mut frame = inner(30);
    for tag in [0x8100, 0x88A8] {
        set_word(&mut frame, 12, tag);
        bed.refuses(13, &vxlan(PEER, 22, &frame));
        bed.refuses(13, &nvgre(PEER, 4096, &frame));
        bed.refuses_frame(13, &part(1, &stt_frame(CONTEXT, &frame), 0, 48));
    }
    for kind in [0x8101, 0x80FF, 0x88A7, 0x88A9, 0x9100, 0x0081, 0x8800] {
        set_word(&mut frame, 12, kind);
        bed.delivers(101, 0, &frame, &vxlan(PEER, 22, &frame));
        bed.delivers(102, 1, &frame, &nvgre(PEER, 4096, &frame));
        let stt = stt_frame(CONTEXT, &frame);
        bed.completes(&stt, &part(1, &stt, 0, 48));
    }
}
