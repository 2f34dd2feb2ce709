//! VXLAN: the byte of the flags, which UDP's checksum may cover.

use crate::rules::{of_packet, Verdict};
use crate::sides::{Sides, ID, OPTIONS};
use vectors::directed::FROM_A;
use vectors::packet::{self, T};

/// With each reserved byte set or not.
fn datagram(network: u32, inner: &[u8], summed: bool, reserved: u8) -> Vec<u8> {
    let make = if summed {
        packet::vxlan_summed
    } else {
        packet::vxlan
    };
    packet::edited(&make(FROM_A, network, inner), |copy| {
        for at in [29, 30, 31, 35] {
            copy[at] = reserved;
        }
    })
}

/// Every value of the flags in a packet whose header ends here.
fn every_value(sides: &mut Sides, packet: &[u8], header: usize, otherwise: u8) {
    let at = header + 8;
    let summed = packet::get16(packet, header + 6) != 0;
    for flags in 0..=255 {
        let changed = packet::with_byte(packet, at, flags);
        sides.receive(&changed, of_packet(&changed, otherwise));
        // A wrong checksum is found first, and names no byte.
        if summed && flags != packet[at] {
            let unrepaired = packet::raw_byte(packet, at, flags);
            sides.receive(&unrepaired, Verdict::of(10));
        }
    }
}

#[test]
fn every_flag_byte_behind_every_header() {
    let mut sides = Sides::new();
    let mut packets = 0;
    for words in OPTIONS {
        let header = 20 + 4 * usize::from(words);
        for (otherwise, network, inner) in [
            (0, ID, &T[..]),
            (12, ID ^ 1, &T),
            (13, ID, &T[..13]),
            (13, ID, &[]),
        ] {
            for (summed, reserved) in [(false, 0), (false, 0xFF), (true, 0), (true, 0xFF)] {
                let plain = datagram(network, inner, summed, reserved);
                let packet = packet::with_ip_options(&plain, words);
                every_value(&mut sides, &packet, header, otherwise);
                let trailing = vec![reserved; usize::from(words)];
                let packet = packet::trailed(&packet, &trailing);
                every_value(&mut sides, &packet, header, otherwise);
                packets += 2;
            }
        }
    }
    sides.check();
    assert_eq!(sides.codes[25], 128 * packets);
    assert_eq!(sides.codes[10], 255 * packets / 2);
}
