//! Cases 3 to 7 and 9 to 11 of the worked cases (document 01: bench sheet; 7 as
//! document 02 has it); 1, 2 and 8 stand beside the functions they speak of.

use crate::build::*;
use niulassenc_reference::{Endpoint, Wrapped};

fn wrapping(mtu: u32) -> Endpoint {
    let (mut endpoint, _) = Endpoint::start(OWN, PORT.into(), mtu);
    endpoint.add_peer(PEER);
    endpoint.add_binding(0, 1, 22, 1);
    endpoint.add_binding(0, 2, 4096, 2);
    endpoint.add_binding(0, 3, CONTEXT, 3);
    endpoint
}

fn written(binding: u32) -> Vec<u8> {
    let mut output = [0xAA; 100];
    let wrapped = wrapping(1500).wrap(binding, &T, 0, 9, &mut output);
    assert_eq!((wrapped.code, wrapped.segments), (0, 1));
    assert!(output[wrapped.length..].iter().all(|&byte| byte == 0xAA));
    output[..wrapped.length].to_vec()
}

#[test]
fn case_3_vxlan_whole() {
    let packet = hex("45 00 00 32 00 00 40 00 40 11 26 b9 0a 00 00 01 0a 00 00 02
         cc b8 12 b5 00 1e 00 00 08 00 00 00 00 00 16 00
         02 00 00 00 00 02 02 00 00 00 00 01 88 b5");
    assert_eq!(written(0), packet);
}

#[test]
fn case_4_nvgre_whole() {
    let packet = hex("45 00 00 2a 00 00 40 00 40 2f 26 a3 0a 00 00 01 0a 00 00 02
         20 00 65 58 00 10 00 00
         02 00 00 00 00 02 02 00 00 00 00 01 88 b5");
    assert_eq!(written(1), packet);
}

#[test]
fn case_5_segments() {
    let mut output = [0; 1600];
    let endpoint = wrapping(576);
    for (number, bytes) in [536, 536, 460].into_iter().enumerate() {
        let wrapped = endpoint.wrap(2, &inner(1514), number as u32, 1, &mut output);
        let expected = Wrapped {
            code: 0,
            length: 40 + bytes,
            segments: 3,
        };
        assert_eq!(wrapped, expected);
    }
    for (length, segments) in [(1442, 1), (1443, 2)] {
        let wrapped = wrapping(1500).wrap(2, &inner(length), 0, 1, &mut output);
        assert_eq!((wrapped.code, wrapped.segments), (0, segments));
    }
}

#[test]
fn case_6_frame_lengths() {
    let mut bed = Bed::new();
    bed.refuses(14, &segment(PEER, 1, 31, 0, &[0]));
    bed.holds(&segment(PEER, 1, 32, 0, &[0]));
    bed.holds(&segment(PEER, 2, 1532, 0, &[0]));
    bed.refuses(14, &segment(PEER, 3, 1533, 0, &[0]));
}

#[test]
fn case_7_nvgre_first_byte() {
    let mut bed = Bed::new();
    let packet = nvgre(PEER, 4096, &T);
    bed.delivers(102, 1, &T, &changed(&packet, |p| p[20] = 0x23));
    bed.refuses_at(26, 20, &changed(&packet, |p| p[20] = 0x24));
}

#[test]
fn case_9_four_under_way() {
    let mut bed = Bed::new();
    let frames = [good(60), good(61), good(62), good(63)];
    for (identifier, frame) in frames.iter().enumerate() {
        bed.holds(&part(identifier as u32, frame, 0, 30));
    }
    let single = good(32);
    bed.refuses(17, &part(4, &single, 0, 32));
    bed.completes(&frames[1], &part(1, &frames[1], 30, 61));
    bed.completes(&single, &part(4, &single, 0, 32));
}

#[test]
fn case_10_ticks() {
    let frame = good(60);
    let mut bed = Bed::new();
    bed.holds(&part(1, &frame, 0, 30));
    bed.ticks(3);
    bed.completes(&frame, &part(1, &frame, 30, 60));
    bed.holds(&part(1, &frame, 0, 30));
    bed.ticks(4);
    bed.holds(&part(1, &frame, 30, 60));
    // It has opened a new frame, which the other half completes.
    bed.completes(&frame, &part(1, &frame, 0, 30));
}

#[test]
fn case_11_memory_and_empty_packet() {
    let mut bed = Bed::new();
    bed.memory.truncate(55_295);
    bed.refuses(2, &[]);
    bed.refuses(2, &vxlan(PEER, 22, &T));
    bed.memory = vec![3; 55_296];
    bed.refuses(3, &[]);
    bed.memory = vec![3; 60_000];
    bed.refuses(3, &[]);
    bed.delivers(101, 0, &T, &vxlan(PEER, 22, &T));
}
