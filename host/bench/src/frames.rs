//! Inner frames.

use vectors::packet::{put_ipv4, put_ipv6, TCP, UDP};
use vectors::prng::Prng;

/// A frame whose type is no tag and no IP.
pub fn inner(length: usize) -> Vec<u8> {
    let mut frame = Prng::new(length as u64).bytes(length);
    frame[12] = 0x08;
    assert_ne!(frame[13], 0x00);
    frame
}

fn ipv4(length: usize, words: u8, protocol: u8) -> Vec<u8> {
    let mut frame = inner(length);
    put_ipv4(&mut frame, words, protocol);
    frame
}

fn ipv6(length: usize, next_header: u8) -> Vec<u8> {
    let mut frame = inner(length);
    put_ipv6(&mut frame, next_header);
    frame
}

pub fn tcp_over_ipv4(length: usize) -> Vec<u8> {
    ipv4(length, 5, TCP)
}

/// Frames with a transport header behind each kind of IP header, each with its name; the
/// last has none. One without IP is `inner`.
pub fn over_ip(length: usize) -> [(&'static str, Vec<u8>); 5] {
    const ICMP: u8 = 1;
    [
        ("TCP over IPv4", tcp_over_ipv4(length)),
        ("UDP over IPv4 with options", ipv4(length, 8, UDP)),
        ("TCP over IPv6", ipv6(length, TCP)),
        ("UDP over IPv6", ipv6(length, UDP)),
        ("ICMP over IPv4", ipv4(length, 5, ICMP)),
    ]
}
