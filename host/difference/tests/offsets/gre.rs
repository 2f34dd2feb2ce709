//! NVGRE: the four bytes that a GRE header begins with. No checksum covers them.

use crate::rules::of_packet;
use crate::sides::{Sides, ID, OPTIONS};
use vectors::directed::FROM_A;
use vectors::packet::{self, put16, T};

/// Every value of the word at this place of the packet.
fn every_word(sides: &mut Sides, packet: &mut [u8], at: usize, otherwise: u8) {
    for value in 0..=u16::MAX {
        put16(packet, at, value);
        sides.receive(packet, of_packet(packet, otherwise));
    }
}

/// A packet with so many words of options and these two words in front of its key. Bytes
/// behind the total length, which do not count, come with some.
fn nvgre(words: u8, vsid: u32, inner: &[u8], flags: u16, kind: u16) -> Vec<u8> {
    let plain = packet::nvgre(FROM_A, vsid, inner);
    let mut packet = packet::with_ip_options(&plain, words);
    let header = packet::header_length(&packet);
    put16(&mut packet, header, flags);
    put16(&mut packet, header + 2, kind);
    packet::trailed(&packet, &vec![0x5A; usize::from(words % 3)])
}

/// With the right type, with either byte of it wrong, and with both.
#[test]
fn every_first_two_bytes_behind_every_header() {
    let mut sides = Sides::new();
    for words in OPTIONS {
        for kind in [0x6558, 0x6458, 0x6559, 0x5865] {
            let mut packet = nvgre(words, ID, &T, 0x2000, kind);
            let header = packet::header_length(&packet);
            every_word(&mut sides, &mut packet, header, 0);
        }
    }
    sides.check();
    // Of 65,536 first words, 4 times 32 are right.
    assert_eq!(sides.codes[26], 11 * 4 * (65_536 - 128));
    assert_eq!(sides.codes[27], 11 * 3 * 128);
    assert_eq!(sides.codes[0], 11 * 128);
}

/// With right flags, with either byte of them wrong, and with both.
#[test]
fn every_protocol_type_behind_every_header() {
    let mut sides = Sides::new();
    for words in OPTIONS {
        for flags in [0x2000, 0x23F8, 0x2400, 0x2001, 0xFFFF] {
            let mut packet = nvgre(words, ID, &T, flags, 0x6558);
            let type_at = packet::header_length(&packet) + 2;
            every_word(&mut sides, &mut packet, type_at, 0);
        }
    }
    sides.check();
    assert_eq!(sides.codes[26], 11 * 3 * 65_536);
    assert_eq!(sides.codes[27], 11 * 2 * 65_535);
    assert_eq!(sides.codes[0], 11 * 2);
}

/// 12 and 13 come behind 26 and 27, and name no byte.
#[test]
fn what_is_found_later_names_no_byte() {
    let mut sides = Sides::new();
    for words in [0, 3, 10] {
        for (otherwise, vsid, inner) in [
            (12, ID ^ 1, &T[..]),
            (12, ID ^ 1, &T[..13]),
            (13, ID, &T[..13]),
            (13, ID, &[]),
        ] {
            let mut packet = nvgre(words, vsid, inner, 0x2000, 0x6558);
            let header = packet::header_length(&packet);
            every_word(&mut sides, &mut packet, header, otherwise);
            put16(&mut packet, header, 0x2000);
            every_word(&mut sides, &mut packet, header + 2, otherwise);
        }
    }
    sides.check();
    assert_eq!(sides.codes[12], 3 * 2 * 129);
    assert_eq!(sides.codes[13], 3 * 2 * 129);
}
