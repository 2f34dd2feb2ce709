//! Checks 3 to 10, each with its nearest passing neighbour.

use crate::build::*;

fn with_total(packet: &[u8], total: u16) -> Vec<u8> {
    let mut copy = packet.to_vec();
    set_word(&mut copy, 2, total);
    mend(&mut copy);
    copy
}

#[test]
fn answer_3_lengths_and_version() {
    let mut bed = Bed::new();
    let packet = vxlan(PEER, 22, &T);
    for bytes in [0, 1, 19, 20, 49] {
        bed.refuses(3, &packet[..bytes]);
    }
    for first in [0x44, 0x40, 0x35, 0x55, 0x65, 0x05] {
        let mut copy = packet.clone();
        copy[0] = first;
        bed.refuses(3, &copy);
    }
    for total in [0, 19, 51, 65_535] {
        bed.refuses(3, &with_total(&packet, total));
    }
    bed.refuses(9, &with_total(&packet, 20));
    bed.delivers(101, 0, &T, &packet);
    // The header with its options counts.
    let optioned = with_options(&packet, 1);
    bed.refuses(3, &with_total(&optioned, 23));
    bed.refuses(9, &with_total(&optioned, 24));
    bed.delivers(101, 0, &T, &optioned);
}

#[test]
fn options_shift_every_offset() {
    let mut bed = Bed::new();
    for words in [1, 7, 10] {
        let header = 20 + 4 * usize::from(words);
        let place = bed.delivers(101, 0, &T, &with_options(&vxlan(PEER, 22, &T), words));
        assert_eq!((place.in_memory, place.start), (false, header + 16));
        let place = bed.delivers(102, 1, &T, &with_options(&nvgre(PEER, 4096, &T), words));
        assert_eq!((place.in_memory, place.start), (false, header + 8));
        let frame = good(32);
        bed.completes(&frame, &with_options(&part(1, &frame, 0, 32), words));
    }
    let summed = with_options(&vxlan_summed(PEER, 22, &T), 3);
    bed.delivers(101, 0, &T, &summed);
}

#[test]
fn trailing_bytes_do_not_count() {
    let mut bed = Bed::new();
    let trailed = |packet: Vec<u8>| [packet.as_slice(), &[0x5A; 41]].concat();
    bed.delivers(101, 0, &T, &trailed(vxlan_summed(PEER, 22, &T)));
    bed.delivers(102, 1, &T, &trailed(nvgre(PEER, 4096, &T)));
    bed.completes(&good(33), &trailed(part(1, &good(33), 0, 33)));
    bed.refuses(9, &trailed(outer(PEER, 17, &[0; 7])));
    bed.refuses(9, &trailed(outer(PEER, 6, &[0; 19])));
    bed.refuses(9, &trailed(outer(PEER, 47, &[0x20; 7])));
    bed.refuses(13, &trailed(nvgre(PEER, 4096, &T[..13])));
    bed.refuses(14, &trailed(segment(PEER, 1, 32, 0, &[])));
}

#[test]
fn answer_4_header_checksum() {
    let mut bed = Bed::new();
    let packet = with_options(&vxlan(PEER, 22, &T), 1);
    for at in [1, 4, 5, 6, 8, 9, 10, 11, 12, 19, 20, 23] {
        let mut copy = packet.clone();
        copy[at] ^= 4;
        bed.refuses(4, &copy);
    }
    // With the sum moved to the identification, 0 and 0xFFFF are both right.
    let mut moved = packet.clone();
    let field = word(&packet, 10);
    set_word(&mut moved, 4, field);
    for right in [0, 0xFFFF] {
        set_word(&mut moved, 10, right);
        bed.delivers(101, 0, &T, &moved);
    }
    for wrong in [1, 0xFFFE] {
        set_word(&mut moved, 10, wrong);
        bed.refuses(4, &moved);
    }
}

#[test]
fn answer_5_fragments() {
    let mut bed = Bed::new();
    let packet = vxlan(PEER, 22, &T);
    for flags in [0x2000, 0x0001, 0x1000, 0x1FFF, 0xE000, 0xC001] {
        bed.refuses(5, &changed(&packet, |p| set_word(p, 6, flags)));
    }
    for flags in [0x0000, 0x4000, 0x8000, 0xC000] {
        let free = changed(&packet, |p| set_word(p, 6, flags));
        bed.delivers(101, 0, &T, &free);
    }
}

#[test]
fn answers_6_and_7_addresses() {
    let mut bed = Bed::new();
    let packet = vxlan(PEER, 22, &T);
    for at in 16..20 {
        bed.refuses(6, &changed(&packet, |p| p[at] ^= 0x40));
        bed.refuses(7, &changed(&packet, |p| p[at - 4] ^= 0x40));
    }
    bed.refuses(7, &vxlan(OWN, 22, &T));
    bed.refuses(7, &vxlan(0, 22, &T));
    bed.delivers(101, 0, &T, &packet);
    bed.delivers(201, 3, &T, &vxlan(PEER_2, 22, &T));
}

#[test]
fn answer_8_protocols_and_ports() {
    let mut bed = Bed::new();
    for protocol in [0, 1, 5, 7, 16, 18, 46, 48, 255] {
        bed.refuses(8, &outer(PEER, protocol, &[]));
        bed.refuses(8, &outer(PEER, protocol, &[0; 60]));
    }
    for port in [4788, 4790, 0, PORT] {
        let packet = changed(&vxlan(PEER, 22, &T), |p| set_word(p, 22, port));
        bed.refuses(8, &packet);
    }
    let frame = good(32);
    for port in [PORT - 1, PORT + 1, 0, 4789] {
        let packet = changed(&part(1, &frame, 0, 32), |p| set_word(p, 22, port));
        bed.refuses(8, &packet);
    }
    let other_source = changed(&part(1, &frame, 0, 32), |p| set_word(p, 20, 4));
    bed.completes(&frame, &other_source);
}

#[test]
fn answer_9_too_short_for_ports() {
    let mut bed = Bed::new();
    bed.refuses(9, &outer(PEER, 17, &[]));
    bed.refuses(9, &outer(PEER, 17, &[0; 7]));
    bed.refuses(8, &outer(PEER, 17, &[0; 8]));
    bed.refuses(9, &outer(PEER, 6, &[]));
    bed.refuses(9, &outer(PEER, 6, &[0; 19]));
    bed.refuses(8, &outer(PEER, 6, &[0; 20]));
    bed.refuses(9, &outer(PEER, 47, &[]));
    bed.refuses(9, &outer(PEER, 47, &[0x20; 7]));
    bed.refuses_at(26, 20, &outer(PEER, 47, &[0; 8]));
}

#[test]
fn answer_9_udp_length() {
    let mut bed = Bed::new();
    let packet = vxlan(PEER, 22, &T);
    for length in [0, 8, 16, 29, 31, 50] {
        bed.refuses(9, &changed(&packet, |p| set_word(p, 24, length)));
    }
    bed.delivers(101, 0, &T, &packet);
    // 15 bytes are too few even if both lengths say so; 16 are enough.
    bed.refuses(
        9,
        &outer(
            PEER,
            17,
            &hex("cc b8 12 b5 00 0f 00 00 08 00 00 00 00 00 16"),
        ),
    );
    bed.refuses(13, &vxlan(PEER, 22, &[]));
}

#[test]
fn answer_9_data_offset() {
    let mut bed = Bed::new();
    let frame = good(32);
    let packet = part(1, &frame, 0, 32);
    for words in [0, 1, 4, 14, 15] {
        bed.refuses(9, &changed(&packet, |p| p[32] = words << 4));
    }
    // 13 words are just the payload: nothing is left for a segment.
    bed.refuses(14, &changed(&packet, |p| p[32] = 0xD0));
    bed.completes(&frame, &changed(&packet, |p| p[32] = 0x5F));
    for words in [1, 10] {
        let optioned = changed(&packet, |p| {
            p.splice(40..40, vec![1; 4 * words]);
            p[32] += (words as u8) << 4;
            let total = p.len() as u16;
            set_word(p, 2, total);
        });
        bed.completes(&frame, &optioned);
    }
}

#[test]
fn answer_10_udp() {
    let mut bed = Bed::new();
    for length in [14, 15, 60, 61] {
        let frame = inner(length);
        let packet = vxlan_summed(PEER, 22, &frame);
        bed.delivers(101, 0, &frame, &packet);
        for at in [20, 26, 27, 35, packet.len() - 1] {
            let mut copy = packet.clone();
            copy[at] ^= 2;
            bed.refuses(10, &copy);
        }
        let mut none = packet.clone();
        set_word(&mut none, 26, 0);
        bed.delivers(101, 0, &frame, &none);
    }
    // The sum moved to the source port: 0xFFFF is right where 0 would be.
    let zero_port = changed(&vxlan_summed(PEER, 22, &T), |p| set_word(p, 20, 0));
    let mut moved = zero_port.clone();
    set_word(&mut moved, 20, word(&zero_port, 26));
    set_word(&mut moved, 26, 0xFFFF);
    bed.delivers(101, 0, &T, &moved);
    set_word(&mut moved, 26, 0xFFFE);
    bed.refuses(10, &moved);
}

#[test]
fn answer_10_tcp() {
    let mut bed = Bed::new();
    for length in [32, 33, 100, 101] {
        let frame = good(length);
        let packet = part(1, &frame, 0, length);
        for at in [20, 33, 36, 38, packet.len() - 1] {
            let mut copy = packet.clone();
            copy[at] ^= 2;
            bed.refuses(10, &copy);
        }
        bed.completes(&frame, &packet);
        // Flags, window, urgent pointer and reserved bits are not examined.
        let free = changed(&packet, |p| {
            p[32] |= 0x0F;
            p[33] = 0xFF;
            p[34] = 0x12;
            p[39] = 0x34;
        });
        bed.completes(&frame, &free);
    }
}
