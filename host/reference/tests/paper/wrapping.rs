//! Writing: 13, 21, 22, 23, the bytes written, and unwrapping again.

use crate::build::*;
use niulassenc_reference::{view, Endpoint, Wrapped};

/// Endpoint at OWN with one peer and one binding of each kind.
pub fn writer(mtu: u32) -> Endpoint {
    let (mut endpoint, code) = Endpoint::start(OWN, PORT.into(), mtu);
    assert_eq!(code, 0);
    endpoint.add_peer(PEER);
    endpoint.add_binding(0, 1, 22, 1);
    endpoint.add_binding(0, 2, 4096, 2);
    endpoint.add_binding(0, 3, CONTEXT, 3);
    endpoint
}

fn refuses(code: u8, endpoint: &Endpoint, call: (u32, u32), frame: &[u8], room: usize) {
    let mut output = vec![0xAA; room];
    let wrapped = endpoint.wrap(call.0, frame, call.1, 5, &mut output);
    let expected = Wrapped {
        code,
        length: 0,
        segments: 0,
    };
    assert_eq!(wrapped, expected, "{call:?}, {} bytes", frame.len());
    assert!(output.iter().all(|&byte| byte == 0xAA));
}

/// The packet written into an output of `room` bytes, the rest untouched.
pub fn writes(endpoint: &Endpoint, call: (u32, u32), frame: &[u8], room: usize) -> (Vec<u8>, u32) {
    let mut output = vec![0xAA; room];
    let wrapped = endpoint.wrap(call.0, frame, call.1, 5, &mut output);
    assert_eq!(wrapped.code, 0, "{call:?}, {} bytes", frame.len());
    assert!(output[wrapped.length..].iter().all(|&byte| byte == 0xAA));
    output.truncate(wrapped.length);
    (output, wrapped.segments)
}

#[test]
fn bindings_are_asked_for_by_their_whole_number() {
    let endpoint = writer(1500);
    for binding in [3, 65_536, 65_537, 1 << 31, u32::MAX] {
        refuses(23, &endpoint, (binding, 0), &T, 100);
        // Before 13.
        refuses(23, &endpoint, (binding, 0), &[], 100);
    }
}

#[test]
fn an_stt_packet_whole() {
    let mut output = [0; 72];
    let wrapped = writer(1500).wrap(2, &T, 0, 0xDEAD_BEEF, &mut output);
    assert_eq!((wrapped.code, wrapped.length, wrapped.segments), (0, 72, 1));
    let expected = hex("45 00 00 48 00 00 40 00 40 06 26 ae 0a 00 00 01 0a 00 00 02
         cc b8 1d 2f 00 20 00 00 de ad be ef 50 18 00 00 e9 26 00 00
         00 00 00 00 00 00 00 00 01 23 45 67 89 ab cd ef 00 00
         02 00 00 00 00 02 02 00 00 00 00 01 88 b5");
    assert_eq!(output[..], expected);
}

/// Against the packet above, the address takes up the header's 0x26ae, and the
/// identifier what is left of the segment's 0xe926.
#[test]
fn checksums_of_0_are_written_as_0() {
    let (mut endpoint, _) = Endpoint::start(OWN, PORT.into(), 1500);
    endpoint.add_peer(0x0A00_26B0);
    endpoint.add_binding(0, 3, CONTEXT, 3);
    let mut output = [0xAA; 72];
    endpoint.wrap(0, &T, 0, 0xDEAD_8168, &mut output);
    let expected = hex("45 00 00 48 00 00 40 00 40 06 00 00 0a 00 00 01 0a 00 26 b0
         cc b8 1d 2f 00 20 00 00 de ad 81 68 50 18 00 00 00 00 00 00");
    assert_eq!(output[..40], expected);
}

#[test]
fn three_stt_segments() {
    let (mut endpoint, _) = Endpoint::start(OWN, PORT.into(), 576);
    endpoint.add_peer(PEER);
    endpoint.add_binding(0, 3, CONTEXT, 3);
    let frame = inner(1514);
    let stt = stt_frame(CONTEXT, &frame);
    let heads = [
        "45 00 02 40 00 00 40 00 40 06 24 b6 0a 00 00 01 0a 00 00 02
         ed 0e 1d 2f 05 fc 00 00 00 00 00 01 50 10 00 00 87 ef 00 00",
        "45 00 02 40 00 00 40 00 40 06 24 b6 0a 00 00 01 0a 00 00 02
         ed 0e 1d 2f 05 fc 02 18 00 00 00 01 50 10 00 00 49 d5 00 00",
        "45 00 01 f4 00 00 40 00 40 06 25 02 0a 00 00 01 0a 00 00 02
         ed 0e 1d 2f 05 fc 04 30 00 00 00 01 50 18 00 00 84 46 00 00",
    ];
    let parts = [0..536, 536..1072, 1072..1532];
    for (number, (head, part)) in heads.into_iter().zip(parts).enumerate() {
        let mut output = [0xAA; 600];
        let wrapped = endpoint.wrap(0, &frame, number as u32, 1, &mut output);
        let packet = [hex(head), stt[part].to_vec()].concat();
        assert_eq!(wrapped.length, packet.len());
        assert_eq!(wrapped.segments, 3);
        assert_eq!(output[..packet.len()], packet);
        assert!(output[packet.len()..].iter().all(|&byte| byte == 0xAA));
    }
}

#[test]
fn answer_23_bindings_and_segments() {
    let endpoint = writer(576);
    for binding in [3, 4, 64, 256, 65_535] {
        refuses(23, &endpoint, (binding, 0), &T, 100);
    }
    for binding in 0..3 {
        for segment in [1, 2, 0x8000_0000, u32::MAX] {
            refuses(23, &endpoint, (binding, segment), &T, 100);
        }
        writes(&endpoint, (binding, 0), &T, 100);
    }
    // 518 + 18 = 536 bytes are one segment, 519 two, 1,055 three.
    for (length, count) in [(518, 1), (519, 2), (1054, 2), (1055, 3), (1514, 3)] {
        let frame = inner(length);
        for segment in 0..count {
            assert_eq!(writes(&endpoint, (2, segment), &frame, 576).1, count);
        }
        refuses(23, &endpoint, (2, count), &frame, 576);
    }
}

#[test]
fn answer_13_frames() {
    let endpoint = writer(1600);
    let mut tagged = inner(20);
    for binding in 0..3 {
        for length in [0, 13, 1515, 1600] {
            refuses(13, &endpoint, (binding, 0), &inner(length), 1700);
        }
        for length in [14, 1514] {
            writes(&endpoint, (binding, 0), &inner(length), 1700);
        }
        for tag in [0x8100, 0x88A8] {
            set_word(&mut tagged, 12, tag);
            refuses(13, &endpoint, (binding, 0), &tagged, 1700);
            set_word(&mut tagged, 12, tag + 1);
            writes(&endpoint, (binding, 0), &tagged, 1700);
        }
    }
}

#[test]
fn answer_22_the_mtu() {
    for mtu in [576, 1500] {
        let endpoint = writer(mtu);
        let mtu = mtu as usize;
        for (binding, headers) in [(0, 36), (1, 28)] {
            let (packet, count) = writes(&endpoint, (binding, 0), &inner(mtu - headers), mtu);
            assert_eq!((packet.len(), count), (mtu, 1));
            refuses(22, &endpoint, (binding, 0), &inner(mtu - headers + 1), 1700);
        }
        writes(&endpoint, (2, 0), &inner(1514), 1700);
    }
}

#[test]
fn answer_21_the_output() {
    let endpoint = writer(1500);
    for (binding, length) in [(0, 50), (1, 42), (2, 72)] {
        for room in [0, 1, length - 1] {
            refuses(21, &endpoint, (binding, 0), &T, room);
        }
        for room in [length, length + 1, 1600] {
            let (packet, _) = writes(&endpoint, (binding, 0), &T, room);
            assert_eq!(packet.len(), length);
        }
    }
    let frame = inner(1443);
    refuses(21, &endpoint, (2, 0), &frame, 1499);
    assert_eq!(writes(&endpoint, (2, 0), &frame, 1500).0.len(), 1500);
    refuses(21, &endpoint, (2, 1), &frame, 40);
    assert_eq!(writes(&endpoint, (2, 1), &frame, 41).0.len(), 41);
}

#[test]
fn writing_checks_in_order() {
    let endpoint = writer(576);
    let mut tagged = inner(1514);
    set_word(&mut tagged, 12, 0x8100);
    let long = inner(600);
    refuses(23, &endpoint, (3, 9), &tagged, 0);
    for binding in 0..2 {
        refuses(13, &endpoint, (binding, 9), &tagged, 0);
        refuses(22, &endpoint, (binding, 9), &long, 0);
        refuses(23, &endpoint, (binding, 9), &T, 0);
        refuses(21, &endpoint, (binding, 0), &T, 0);
    }
    refuses(13, &endpoint, (2, 9), &tagged, 0);
    refuses(23, &endpoint, (2, 2), &long, 0);
    refuses(21, &endpoint, (2, 1), &long, 0);
}

/// A matching endpoint unwraps every kind, in either order, to the same frame.
#[test]
fn a_matching_endpoint_unwraps() {
    for mtu in [576, 577, 1500, 1572, 1600] {
        for length in [14, 15, 517, 518, 519, 1000, 1513, 1514] {
            for kind in 0..3 {
                for backwards in [false, true] {
                    unwrap_one(mtu, length, kind, backwards);
                }
            }
        }
    }
}

fn unwrap_one(mtu: u32, length: usize, kind: u32, backwards: bool) {
    let endpoint = writer(mtu);
    let frame = inner(length);
    let mut output = [0; 1600];
    let first = endpoint.wrap(kind, &frame, 0, u32::MAX, &mut output);
    if first.code == 22 {
        assert!(kind < 2 && length + 28 > mtu as usize - 8);
        return;
    }
    assert_eq!(first.code, 0);
    let mut packets = Vec::new();
    for segment in 0..first.segments {
        let wrapped = endpoint.wrap(kind, &frame, segment, u32::MAX, &mut output);
        assert_eq!((wrapped.code, wrapped.segments), (0, first.segments));
        assert!(wrapped.length <= mtu as usize);
        packets.push(output[..wrapped.length].to_vec());
    }
    if backwards {
        packets.reverse();
    }
    let (mut matching, _) = Endpoint::start(PEER, PORT.into(), 576);
    matching.add_peer(OWN);
    let id = [22, 4096, CONTEXT][kind as usize];
    matching.add_binding(0, kind + 1, id, 77);
    let mut memory = vec![0xA5; ENOUGH];
    let last = packets.len() - 1;
    for (number, packet) in packets.iter().enumerate() {
        let answer = matching.receive(packet, &mut memory);
        assert_eq!(answer.code, u8::from(number < last));
        if number == last {
            assert_eq!((answer.tenant, answer.binding), (Some(77), Some(0)));
            assert_eq!(view(packet, &memory, answer.place), frame);
        }
    }
}
