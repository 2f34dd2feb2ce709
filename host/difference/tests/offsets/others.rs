//! Every answer that names no byte, right behind one that does.

use crate::rules::{of_frame, of_packet, Verdict};
use crate::sides::{Sides, ID, OPTIONS, WITH_TCP};
use vectors::directed::{ENOUGH, FROM_A, PORT};
use vectors::packet::{self, with_byte, with_ip_options, with_word, Label, T};

fn segment(identifier: u32, length: usize, offset: usize, bytes: &[u8]) -> Vec<u8> {
    let label = Label::new(PORT, identifier, length, offset);
    packet::segment(FROM_A, label, bytes)
}

/// Packets, each with its answer, to be received in this order: frames 1 to 4 are
/// pending from their first segments on.
fn others(words: u8) -> Vec<(u8, Vec<u8>)> {
    let datagram = packet::vxlan_summed(FROM_A, ID, &T);
    let stt = packet::stt_frame(ID.into(), &T);
    let mut packets = vec![
        (0, datagram.clone()),
        (0, packet::nvgre(FROM_A, ID, &T)),
        (0, segment(9, 32, 0, &stt)),
        (5, with_word(&datagram, 6, 0x2000)),
        (6, with_byte(&datagram, 19, 99)),
        (7, with_byte(&datagram, 15, 99)),
        (8, with_word(&datagram, 22, 1)),
        (8, with_byte(&datagram, 9, 1)),
        (9, with_word(&datagram, 24, 31)),
        (12, packet::vxlan(FROM_A, ID ^ 1, &T)),
        (12, packet::nvgre(FROM_A, ID ^ 1, &T)),
        (12, segment(9, 32, 0, &packet::stt_frame(0, &T))),
        (13, packet::vxlan(FROM_A, ID, &T[..13])),
        (13, packet::nvgre(FROM_A, ID, &T[..13])),
        (14, segment(9, 31, 0, &stt[..31])),
    ];
    packets.extend((1..=4).map(|identifier| (1, segment(identifier, 32, 0, &stt[..9]))));
    packets.extend([
        (15, segment(1, 33, 9, &stt[9..])),
        (16, segment(1, 32, 8, &stt[8..])),
        (17, segment(9, 32, 0, &stt)),
        (0, segment(1, 32, 9, &stt[9..])),
    ]);
    for (_, packet) in &mut packets {
        *packet = with_ip_options(packet, words);
    }
    let mut damaged = with_ip_options(&datagram, words);
    // Any edit mends the sum, so this one comes last.
    if let Some(byte) = damaged.last_mut() {
        *byte ^= 1;
    }
    packets.insert(0, (10, damaged));
    packets
}

/// Packets that name a byte, one for each of the five; the last two by their frames.
fn named(words: u8) -> Vec<(Verdict, Vec<u8>)> {
    let packets = [
        with_byte(&packet::vxlan(FROM_A, ID, &T), 28, 0xF7),
        with_byte(&packet::nvgre(FROM_A, ID, &T), 21, 0x01),
        with_byte(&packet::nvgre(FROM_A, ID, &T), 23, 0x59),
    ];
    let mut named: Vec<_> = packets
        .into_iter()
        .map(|packet| with_ip_options(&packet, words))
        .map(|packet| (of_packet(&packet, 0), packet))
        .collect();
    for fault in [[1, 3], [0, 3]] {
        let mut frame = packet::stt_frame(ID.into(), &WITH_TCP);
        frame[..2].copy_from_slice(&fault);
        let packet = with_ip_options(&segment(8, frame.len(), 0, &frame), words);
        named.push((of_frame(&frame, 0), packet));
    }
    named
}

#[test]
fn no_other_answer_names_a_byte() {
    for words in OPTIONS {
        for (expected, packet) in named(words) {
            let mut sides = Sides::new();
            for (code, other) in others(words) {
                // A frame finds no slot once four are pending.
                let full = expected.code >= 28 && sides.codes[1] == 4;
                let before = if full { Verdict::of(17) } else { expected };
                sides.receive(&packet, before);
                sides.receive(&other, Verdict::of(code));
                sides.receive_in(ENOUGH - 1, &packet, Verdict::of(2));
                sides.receive(&other[..19], Verdict::of(3));
                let unsummed = packet::raw_byte(&other, 10, other[10] ^ 1);
                sides.receive(&unsummed, Verdict::of(4));
            }
            sides.check();
        }
    }
}
