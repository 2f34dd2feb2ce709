//! The STT header that is written, and every byte behind it.

use crate::frames::{
    every_first_byte, every_protocol, frame, ipv4, ipv6, put, with_transport, without_transport,
    IPV4, IPV6,
};
use crate::sides::Sides;
use vectors::packet::{TCP, UDP};
use vectors::prng::Prng;

/// Each of the four hints, and none, was written so often at least.
fn each_was_written(sides: &Sides, least: [usize; 5]) {
    let written = sides.seen.written;
    let enough = written
        .iter()
        .zip(least)
        .all(|(&count, least)| count >= least);
    assert!(enough, "written {written:?}, at least {least:?}");
}

/// Version and header length, with TCP, UDP and neither behind.
#[test]
fn every_first_byte_of_the_header_at_every_length() {
    let prng = &mut Prng::new(1);
    let mut sides = Sides::new();
    every_first_byte(prng, |_, frame| {
        sides.wrap(frame);
    });
    // A header of 5 to 15 words fits into 45, 41, .. 5 of the 65 lengths; one of IPv6, whose
    // first byte has 16 values, into 25.
    let [over_ipv4, over_ipv6] = [275, 400];
    let found = 2 * (over_ipv4 + over_ipv6);
    let none = 65 * 3 * 256 * 2 - found;
    let expected = [over_ipv4, over_ipv4, over_ipv6, over_ipv6, none];
    assert_eq!(sides.seen.written, expected);
}

/// The bits in front of the fragment offset are free. IPv6 has other fields there.
#[test]
fn every_fragment_word() {
    let prng = &mut Prng::new(2);
    let mut sides = Sides::new();
    for protocol in [TCP, UDP] {
        let mut over_ipv4 = ipv4(prng, 60, 7, protocol);
        let mut over_ipv6 = ipv6(prng, 60, protocol);
        for word in 0..=u16::MAX {
            put(&mut over_ipv4, 20, &word.to_be_bytes());
            sides.wrap(&over_ipv4);
            put(&mut over_ipv6, 20, &word.to_be_bytes());
            sides.wrap(&over_ipv6);
        }
    }
    let none = 2 * (65_536 - 8) + 2 * (65_536 - 512);
    assert_eq!(sides.seen.written, [8, 8, 512, 512, none]);
}

/// Behind headers of every length; and IPv6's with TCP where IPv4 has its protocol.
#[test]
fn every_protocol_and_next_header() {
    let prng = &mut Prng::new(3);
    let mut sides = Sides::new();
    every_protocol(prng, |_, frame| {
        sides.wrap(frame);
    });
    for number in 0..=255 {
        let mut over_ipv6 = ipv6(prng, 80, number);
        put(&mut over_ipv6, 23, &[TCP]);
        sides.wrap(&over_ipv6);
    }
    assert_eq!(sides.seen.written, [11, 11, 2, 2, 254 * 13]);
}

/// With either header behind it. A tag is refused, whatever comes behind.
#[test]
fn every_type() {
    let prng = &mut Prng::new(4);
    let mut sides = Sides::new();
    let frames = [
        ipv4(prng, 60, 5, TCP),
        ipv4(prng, 60, 5, UDP),
        ipv6(prng, 60, TCP),
        ipv6(prng, 60, UDP),
    ];
    for mut frame in frames {
        for kind in 0..=u16::MAX {
            put(&mut frame, 12, &kind.to_be_bytes());
            sides.wrap(&frame);
        }
    }
    // Two of the types are tags.
    assert_eq!(sides.seen.written, [1, 1, 1, 1, 4 * 65_533]);
}

/// Every byte in turn, those that the look does not read too, in frames that have a
/// transport header and in some that lack one by a single byte.
#[test]
fn every_value_of_every_byte() {
    let prng = &mut Prng::new(5);
    let mut sides = Sides::new();
    let frames = [with_transport(prng), without_transport(prng)].concat();
    for frame in &frames {
        for at in 0..frame.len() {
            let mut changed = frame.clone();
            for value in 0..=255 {
                changed[at] = value;
                sides.wrap(&changed);
            }
        }
    }
    each_was_written(&sides, [40_000, 40_000, 30_000, 30_000, 100_000]);
}

/// The header is in the first segment, and no later one begins with another.
#[test]
fn every_number_of_segments() {
    let prng = &mut Prng::new(6);
    let mut segments = [0; 3];
    for mtu in [576, 577, 806, 807, 1000, 1572, 1573, 1600] {
        let mut sides = Sides::of_mtu(mtu);
        let near_bounds = (500..=530).chain(1030..=1060).chain(1480..=1514);
        for length in (14..=90).chain(near_bounds) {
            for protocol in [TCP, UDP] {
                let words = prng.between(5, 15) as u8;
                sides.wrap(&ipv4(prng, length, words, protocol));
                sides.wrap(&ipv6(prng, length, protocol));
            }
            sides.wrap(&frame(prng, length, 0x0806));
        }
        each_was_written(&sides, [100, 100, 100, 100, 200]);
        for (sum, count) in segments.iter_mut().zip(sides.seen.segments) {
            *sum += count;
        }
    }
    // Of the lengths, 77 fit into one segment at every MTU.
    assert!(segments[0] >= 8 * 5 * 77, "{segments:?}");
    assert!(segments[1] >= 1000 && segments[2] >= 350, "{segments:?}");
}

/// What is written is delivered by a matching endpoint, whatever it says of the frame.
#[test]
fn what_is_written_is_delivered() {
    let prng = &mut Prng::new(8);
    let mut matching = Sides::matching();
    let mut segments = [0; 3];
    for mtu in [576, 806, 1600] {
        let mut sides = Sides::of_mtu(mtu);
        let mut frames = [with_transport(prng), without_transport(prng)].concat();
        for length in [530, 1000, 1060, 1514] {
            for protocol in [TCP, UDP, 0] {
                frames.push(ipv4(prng, length, 15, protocol));
                frames.push(ipv6(prng, length, protocol));
            }
        }
        for frame in frames {
            let mut packets = sides.wrap(&frame);
            for _ in 0..packets.len() {
                packets.rotate_left(1);
                matching.receive_written(&packets, &frame);
                segments[packets.len() - 1] += 1;
            }
        }
        matching.check();
    }
    let delivered = matching.seen.codes[0];
    assert_eq!(delivered, segments.iter().sum());
    assert!(segments.iter().all(|&count| count >= 18), "{segments:?}");
}

/// Bytes of no meaning behind either type.
#[test]
fn noise_behind_the_type() {
    let prng = &mut Prng::new(7);
    let mut sides = Sides::new();
    for _ in 0..50_000 {
        let kind = prng.pick(&[IPV4, IPV6]);
        let length = prng.between(14, 80);
        let mut noise = frame(prng, length, kind);
        // Half of them have a version and a protocol that are right, so that the rest decides.
        if prng.percent(50) {
            let version = if kind == IPV4 { 0x40 } else { 0x60 };
            put(&mut noise, 14, &[version | prng.byte() & 0x0F]);
            put(&mut noise, 20, &[prng.pick(&[0, 6, 17, 0x20, 0x40])]);
            put(&mut noise, 21, &[prng.pick(&[0, 0, 0, 1])]);
            put(&mut noise, 23, &[prng.pick(&[6, 17, 1])]);
        }
        sides.wrap(&noise);
    }
    each_was_written(&sides, [300, 300, 300, 300, 30_000]);
}
