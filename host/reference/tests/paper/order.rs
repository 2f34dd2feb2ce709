//! Packets with two faults: the earlier check is the answer.

use crate::build::*;

/// Breaks the header checksum.
fn unsummed(mut packet: Vec<u8>) -> Vec<u8> {
    packet[11] ^= 1;
    packet
}

/// Breaks the transport checksum.
fn damaged(mut packet: Vec<u8>) -> Vec<u8> {
    let last = packet.len() - 1;
    packet[last] ^= 1;
    packet
}

#[test]
fn checks_2_to_7_in_order() {
    let mut bed = Bed::new();
    let packet = vxlan(PEER, 22, &T);
    let fragment = changed(&packet, |p| p[6] = 0x20);
    let elsewhere = changed(&packet, |p| p[16] ^= 1);
    let stranger = changed(&packet, |p| p[12] ^= 1);
    bed.refuses(3, &unsummed(packet.clone())[..49]);
    bed.refuses(4, &unsummed(fragment.clone()));
    bed.refuses(5, &changed(&fragment, |p| p[16] ^= 1));
    bed.refuses(6, &changed(&elsewhere, |p| p[12] ^= 1));
    bed.refuses(7, &changed(&stranger, |p| p[9] = 1));
    bed.refuses(7, &changed(&stranger, |p| set_word(p, 2, 27)));
    bed.memory.truncate(55_295);
    bed.refuses(2, &unsummed(packet.clone()));
    bed.refuses(2, &packet[..10]);
}

#[test]
fn nine_then_eight_then_nine_then_ten() {
    let mut bed = Bed::new();
    let datagram = vxlan_summed(PEER, 22, &T);
    let wrong_port = changed(&datagram, |p| set_word(p, 22, 1));
    bed.refuses(9, &changed(&wrong_port, |p| set_word(p, 2, 27)));
    bed.refuses(8, &changed(&wrong_port, |p| set_word(p, 24, 1)));
    bed.refuses(8, &damaged(wrong_port));
    bed.refuses(9, &damaged(changed(&datagram, |p| set_word(p, 24, 31))));
    bed.refuses(10, &damaged(changed(&datagram, |p| p[28] = 0)));

    let segment = part(1, &good(32), 0, 32);
    let wrong_port = changed(&segment, |p| set_word(p, 22, 1));
    bed.refuses(9, &changed(&wrong_port, |p| set_word(p, 2, 39)));
    bed.refuses(8, &changed(&wrong_port, |p| p[32] = 0x40));
    bed.refuses(8, &damaged(wrong_port));
    bed.refuses(9, &damaged(changed(&segment, |p| p[32] = 0x40)));
    bed.refuses(10, &damaged(changed(&segment, |p| set_word(p, 24, 31))));
}

#[test]
fn tunnel_headers_then_twelve_then_thirteen() {
    let mut bed = Bed::new();
    for inner in [&T[..13], &[]] {
        bed.refuses(13, &vxlan(PEER, 22, inner));
        bed.refuses(12, &vxlan(PEER, 23, inner));
        bed.refuses_at(25, 28, &changed(&vxlan(PEER, 23, inner), |p| p[28] = 0));
        bed.refuses(13, &nvgre(PEER, 4096, inner));
        bed.refuses(12, &nvgre(PEER, 4097, inner));
        let mistyped = changed(&nvgre(PEER, 4097, inner), |p| p[23] = 0x59);
        bed.refuses_at(27, 23, &mistyped);
        bed.refuses_at(26, 20, &changed(&mistyped, |p| p[20] = 0x24));
    }
    let mut tagged = T;
    tagged[12..14].copy_from_slice(&[0x81, 0x00]);
    let mut frame = stt_frame(CONTEXT, &tagged);
    bed.refuses_frame(13, &part(1, &frame, 0, 32));
    frame[9] ^= 1;
    bed.refuses_frame(12, &part(1, &frame, 0, 32));
    frame[0] = 1;
    bed.refuses_frame_at(28, 0, &part(1, &frame, 0, 32));
    // No frame has both 29 and 13: a tag hides TCP and UDP.
    let mut frame = stt_frame(CONTEXT ^ 1, &over_ipv4(5, 6, 34));
    bed.refuses_frame(12, &part(1, &frame, 0, 52));
    frame[1] = 3;
    bed.refuses_frame_at(29, 1, &part(1, &frame, 0, 52));
    frame[0] = 1;
    bed.refuses_frame_at(28, 0, &part(1, &frame, 0, 52));
}

#[test]
fn fourteen_to_seventeen() {
    let mut bed = Bed::new();
    for identifier in 0..4 {
        bed.holds(&segment(PEER, identifier, 60, 10, &[0; 10]));
    }
    bed.refuses(14, &segment(PEER, 0, 61, 60, &[0; 2]));
    bed.refuses(14, &segment(PEER, 0, 60, 10, &[]));
    bed.refuses(14, &segment(PEER, 9, 31, 0, &[0]));
    bed.refuses(15, &segment(PEER, 0, 61, 10, &[0; 10]));
    bed.refuses(16, &segment(PEER, 0, 60, 10, &[0; 10]));
    bed.refuses(17, &segment(PEER, 9, 60, 10, &[0; 10]));
    bed.holds(&segment(PEER, 0, 60, 20, &[0; 10]));
}
