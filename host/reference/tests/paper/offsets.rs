//! Document 02, section 4: what is wrong in a tunnel header, and the offset of the
//! first byte that is.

use crate::build::*;

/// The lengths of an IPv4 header, in words of options behind its 20 bytes.
const OPTIONS: std::ops::RangeInclusive<u8> = 0..=10;

/// Bytes of the header with these options.
fn header(words: u8) -> usize {
    20 + 4 * usize::from(words)
}

/// The packet with this byte set, which is counted from behind the IPv4 header.
fn behind(packet: &[u8], words: u8, at: usize, value: u8) -> Vec<u8> {
    changed(packet, |p| p[header(words) + at] = value)
}

#[test]
fn a_missing_vxlan_flag_is_8_behind_the_ipv4_header() {
    let mut bed = Bed::new();
    for words in OPTIONS {
        for packet in [vxlan(PEER, 22, &T), vxlan_summed(PEER, 22, &T)] {
            let packet = with_options(&packet, words);
            for flags in 0..=255u8 {
                let packet = behind(&packet, words, 8, flags);
                if flags & 0x08 == 0 {
                    bed.refuses_frame_at(25, header(words) + 8, &packet);
                } else {
                    bed.delivers(101, 0, &T, &packet);
                }
            }
        }
    }
}

/// Bytes that are right at each place of a GRE header, and bytes that are wrong.
const GRE: [(&[u8], &[u8]); 4] = [
    (&[0x20, 0x21, 0x22, 0x23], &[0x00, 0x1F, 0x24, 0xA0, 0xFF]),
    (&[0x00, 0x08, 0xF8], &[0x01, 0x02, 0x04, 0x07, 0xFF]),
    (&[0x65], &[0x00, 0x58, 0x64, 0x66, 0xE5]),
    (&[0x58], &[0x00, 0x57, 0x59, 0x65, 0xD8]),
];

#[test]
fn each_byte_of_a_gre_header_wrong_alone() {
    let mut bed = Bed::new();
    for words in OPTIONS {
        let packet = with_options(&nvgre(PEER, 4096, &T), words);
        for (at, (right, wrong)) in GRE.iter().enumerate() {
            for &value in *right {
                bed.delivers(102, 1, &T, &behind(&packet, words, at, value));
            }
            let code = if at < 2 { 26 } else { 27 };
            for &value in *wrong {
                let packet = behind(&packet, words, at, value);
                bed.refuses_at(code, header(words) + at, &packet);
            }
        }
    }
}

/// Which of the four bytes are wrong, by the bits of a number: the lowest counts, and
/// so 26 comes before 27.
#[test]
fn bytes_of_a_gre_header_wrong_together() {
    let mut bed = Bed::new();
    for words in OPTIONS {
        for which in 1..16usize {
            for choice in 0..5 {
                let packet = with_options(&nvgre(PEER, 4096, &T), words);
                let packet = changed(&packet, |p| {
                    for (at, (right, wrong)) in GRE.iter().enumerate() {
                        let bytes = if which >> at & 1 == 1 { wrong } else { right };
                        p[header(words) + at] = bytes[choice % bytes.len()];
                    }
                });
                let (code, at) = match which {
                    _ if which & 1 != 0 => (26, 0),
                    _ if which & 2 != 0 => (26, 1),
                    _ if which & 4 != 0 => (27, 2),
                    _ => (27, 3),
                };
                bed.refuses_at(code, header(words) + at, &packet);
            }
        }
    }
}

/// An STT frame that carries TCP, with these two first bytes.
fn frame_with(version: u8, flags: u8) -> Vec<u8> {
    let mut frame = stt_frame(CONTEXT, &over_ipv4(5, 6, 42));
    frame[..2].copy_from_slice(&[version, flags]);
    frame
}

/// Code and offset that a frame of these two first bytes is refused with.
const STT: [(u8, u8, u8, usize); 8] = [
    (1, 0x00, 28, 0),
    (0x80, 0x01, 28, 0),
    (0xFF, 0xFE, 28, 0),
    (1, 0x03, 28, 0),
    (0xFF, 0xFF, 28, 0),
    (0, 0x03, 29, 1),
    (0, 0x83, 29, 1),
    (0, 0xFF, 29, 1),
];

/// Neither the outer header nor that of the segment counts.
#[test]
fn an_stt_fault_is_counted_in_the_frame() {
    let mut bed = Bed::new();
    for (version, flags, code, offset) in STT {
        let frame = frame_with(version, flags);
        for words in OPTIONS {
            let packet = with_options(&part(1, &frame, 0, 60), words);
            bed.refuses_frame_at(code, offset, &packet);
        }
    }
}

/// Every order of three segments, the first two bytes in one of them or in two:
/// whichever of them brings the byte, the last one gets the answer.
#[test]
fn the_faulty_byte_may_come_in_any_segment() {
    let orders = [
        [0, 1, 2],
        [0, 2, 1],
        [1, 0, 2],
        [1, 2, 0],
        [2, 0, 1],
        [2, 1, 0],
    ];
    let mut bed = Bed::new();
    for (version, flags, code, offset) in STT {
        let frame = frame_with(version, flags);
        for (first, second) in [(1, 2), (1, 30), (2, 3), (2, 59), (18, 19), (29, 31)] {
            let edges = [0, first, second, 60];
            for order in orders {
                let packets = order.map(|n| part(1, &frame, edges[n], edges[n + 1]));
                bed.holds(&packets[0]);
                bed.holds(&packets[1]);
                bed.refuses_frame_at(code, offset, &packets[2]);
                assert_eq!(bed.memory[..60], frame);
            }
        }
    }
}

/// An offset is of its own answer only: those that come next have 0.
#[test]
fn every_other_answer_has_offset_0() {
    let mut bed = Bed::new();
    let mut frame = good(60);
    let other = stt_frame(CONTEXT ^ 1, &T);
    bed.refuses_at(25, 28, &changed(&vxlan(PEER, 22, &T), |p| p[28] = 0));
    bed.holds(&part(1, &frame, 0, 30));
    bed.refuses_at(27, 23, &changed(&nvgre(PEER, 4096, &T), |p| p[23] = 0));
    bed.refuses(16, &part(1, &frame, 29, 31));
    bed.refuses(15, &segment(PEER, 1, 61, 30, &[0]));
    bed.refuses(14, &segment(PEER, 1, 61, 61, &[0]));
    bed.refuses_at(26, 21, &changed(&nvgre(PEER, 4096, &T), |p| p[21] = 1));
    bed.completes(&frame, &part(1, &frame, 30, 60));
    bed.refuses_frame_at(29, 1, &part(2, &frame_with(0, 3), 0, 60));
    bed.refuses_frame(12, &part(2, &other, 0, 32));
    set_word(&mut frame, 30, 0x8100);
    bed.refuses_frame_at(28, 0, &part(2, &frame_with(9, 3), 0, 60));
    bed.refuses_frame(13, &part(2, &frame, 0, 60));
    for words in OPTIONS {
        bed.refuses(12, &with_options(&vxlan(PEER, 23, &T), words));
        bed.refuses(13, &with_options(&vxlan(PEER, 22, &T[..13]), words));
        bed.refuses(12, &with_options(&nvgre(PEER, 4097, &T), words));
        bed.refuses(13, &with_options(&nvgre(PEER, 4096, &T[..13]), words));
        bed.delivers(101, 0, &T, &with_options(&vxlan(PEER, 22, &T), words));
    }
}
