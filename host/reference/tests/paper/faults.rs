//! "Faults seen in other controllers", one test each.

use crate::build::*;

#[test]
fn a_repeated_segment_does_not_complete_a_frame() {
    let mut bed = Bed::new();
    let frame = good(60);
    bed.holds(&part(1, &frame, 0, 30));
    for _ in 0..4 {
        bed.refuses(16, &part(1, &frame, 0, 30));
    }
    bed.completes(&frame, &part(1, &frame, 30, 60));
}

#[test]
fn two_peers_pieces_do_not_join() {
    let mut bed = Bed::new();
    let frame = good(60);
    bed.holds(&part(1, &frame, 0, 30));
    bed.holds(&segment(PEER_2, 1, 60, 30, &frame[30..]));
    bed.completes(&frame, &part(1, &frame, 30, 60));
    let rest = segment(PEER_2, 1, 60, 0, &frame[..30]);
    bed.delivers(203, 5, &frame[18..], &rest);
}

#[test]
fn a_tcp_checksum_of_0_is_not_none() {
    let mut bed = Bed::new();
    let packet = part(1, &good(32), 0, 32);
    let mut none = packet.clone();
    set_word(&mut none, 36, 0);
    bed.refuses(10, &none);
    // Where 0 is right (the sum moved to the window), it passes.
    set_word(&mut none, 34, word(&packet, 36));
    bed.completes(&good(32), &none);
    // UDP's 0 is none, even in front of a damaged frame.
    let mut datagram = vxlan_summed(PEER, 22, &T);
    datagram[49] ^= 1;
    bed.refuses(10, &datagram);
    set_word(&mut datagram, 26, 0);
    assert_eq!(bed.receive(&datagram).code, 0);
}

#[test]
fn offset_and_length_do_not_wrap() {
    let mut bed = Bed::new();
    bed.refuses(14, &segment(PEER, 1, 32, 65_535, &[0]));
    bed.refuses(14, &segment(PEER, 1, 1532, 65_535, &[0; 33]));
    bed.refuses(14, &segment(PEER, 1, 1532, 1531, &[0; 2]));
    bed.holds(&segment(PEER, 1, 1532, 1531, &[0]));
}

#[test]
fn the_binding_is_not_asked_on_the_first_segment() {
    let mut bed = Bed::new();
    let frame = good(60);
    bed.holds(&part(1, &frame, 30, 60));
    bed.holds(&part(1, &frame, 0, 9));
    bed.completes(&frame, &part(1, &frame, 9, 30));
    let unbound = stt_frame(CONTEXT ^ 1, &T);
    bed.holds(&part(1, &unbound, 0, 31));
    bed.refuses_frame(12, &part(1, &unbound, 31, 32));
}
