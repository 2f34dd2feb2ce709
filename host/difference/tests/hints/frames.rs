//! Inner frames with the fields that the look reads; all their other bytes are any.

use vectors::packet::{TCP, UDP};
use vectors::prng::Prng;

pub const IPV4: u16 = 0x0800;
pub const IPV6: u16 = 0x86DD;

/// Lengths around every bound: of the frame, of an IPv4 header of any length, of IPv6's.
fn lengths() -> impl Iterator<Item = usize> {
    (14..=76).chain([1513, 1514])
}

/// Puts bytes at a place, as far as the frame reaches.
pub fn put(frame: &mut [u8], at: usize, bytes: &[u8]) {
    for (place, &byte) in frame.iter_mut().skip(at).zip(bytes) {
        *place = byte;
    }
}

/// A frame of any bytes, with this type.
pub fn frame(prng: &mut Prng, length: usize, kind: u16) -> Vec<u8> {
    let mut frame = prng.bytes(length);
    put(&mut frame, 12, &kind.to_be_bytes());
    frame
}

/// The first bits of the fragment word are any.
pub fn ipv4(prng: &mut Prng, length: usize, words: u8, protocol: u8) -> Vec<u8> {
    let mut frame = frame(prng, length, IPV4);
    put(&mut frame, 14, &[0x40 | words]);
    put(&mut frame, 20, &[prng.byte() & 0xE0, 0]);
    put(&mut frame, 23, &[protocol]);
    frame
}

/// The last bits of the first byte are any.
pub fn ipv6(prng: &mut Prng, length: usize, next_header: u8) -> Vec<u8> {
    let mut frame = frame(prng, length, IPV6);
    put(&mut frame, 14, &[0x60 | prng.byte() & 0x0F]);
    put(&mut frame, 20, &[next_header]);
    frame
}

/// Over IPv4 and IPv6: every first byte of the header, which has its version and length,
/// with TCP, UDP and neither behind, in frames of every length around a bound.
pub fn every_first_byte(prng: &mut Prng, mut each: impl FnMut(&mut Prng, &[u8])) {
    for length in lengths() {
        for protocol in [TCP, UDP, 0] {
            for first in 0..=255 {
                let over_ipv4 = ipv4(prng, length, 0, protocol);
                let over_ipv6 = ipv6(prng, length, protocol);
                for mut frame in [over_ipv4, over_ipv6] {
                    put(&mut frame, 14, &[first]);
                    each(prng, &frame);
                }
            }
        }
    }
}

/// Every protocol behind IPv4 headers of every length, and every next header of IPv6.
pub fn every_protocol(prng: &mut Prng, mut each: impl FnMut(&mut Prng, &[u8])) {
    for number in 0..=255 {
        for words in 5..=15 {
            let over_ipv4 = ipv4(prng, 80, words, number);
            each(prng, &over_ipv4);
        }
        let over_ipv6 = ipv6(prng, 80, number);
        each(prng, &over_ipv6);
    }
}

/// Frames with a transport header, in each way: IPv4 without options, with some and with
/// the most, whose header just ends with the frame, and IPv6.
pub fn with_transport(prng: &mut Prng) -> Vec<Vec<u8>> {
    let mut frames = Vec::new();
    for protocol in [TCP, UDP] {
        for (length, words) in [(34, 5), (60, 5), (60, 8), (74, 15)] {
            frames.push(ipv4(prng, length, words, protocol));
        }
        frames.push(ipv6(prng, 54, protocol));
        frames.push(ipv6(prng, 80, protocol));
    }
    frames
}

/// Frames without one, by one fault each.
pub fn without_transport(prng: &mut Prng) -> Vec<Vec<u8>> {
    const ICMP: u8 = 1;
    let mut later_fragment = ipv4(prng, 60, 5, TCP);
    later_fragment[21] = 1;
    let mut mistyped = ipv4(prng, 60, 5, UDP);
    put(&mut mistyped, 12, &IPV6.to_be_bytes());
    let mut frames = vec![
        frame(prng, 14, IPV4),
        frame(prng, 60, 0x0806),
        ipv4(prng, 33, 5, TCP),
        ipv4(prng, 73, 15, UDP),
        ipv4(prng, 60, 4, TCP),
        ipv4(prng, 60, 5, ICMP),
        later_fragment,
        mistyped,
        ipv6(prng, 53, TCP),
        ipv6(prng, 53, UDP),
    ];
    frames.extend(further_in(prng));
    frames
}

/// Frames whose transport header stands where no look goes: behind each extension header
/// of IPv6, which says that TCP follows, and behind an LLC header that says IPv4.
fn further_in(prng: &mut Prng) -> Vec<Vec<u8>> {
    let mut frames = Vec::new();
    for extension in [0, 43, 44, 51, 60, 135] {
        let mut frame = ipv6(prng, 90, extension);
        put(&mut frame, 54, &[TCP, 0]);
        frames.push(frame);
    }
    let packet = ipv4(prng, 60, 5, TCP).split_off(14);
    let mut frame = frame(prng, 22, 8 + packet.len() as u16);
    put(&mut frame, 14, &[0xAA, 0xAA, 3, 0, 0, 0, 0x08, 0x00]);
    frames.push([frame, packet].concat());
    frames
}
