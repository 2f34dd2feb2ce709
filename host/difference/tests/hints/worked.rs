//! Frames whose hints the papers' text gives, worked out by hand: the table of bytes
//! must have them too.

use crate::look::{look, Hints};

/// An Ethernet header with this type, then these bytes, then zeros.
fn frame(kind: u16, length: usize, bytes: &[u8]) -> Vec<u8> {
    let mut frame = vec![2, 0, 0, 0, 0, 2, 2, 0, 0, 0, 0, 1];
    frame.extend(kind.to_be_bytes());
    frame.extend(bytes);
    frame.resize(length, 0);
    frame
}

/// The first 10 bytes of an IPv4 header.
fn ipv4(first: u8, fragment: u16, protocol: u8) -> [u8; 10] {
    let [high, low] = fragment.to_be_bytes();
    [first, 0, 0, 40, 0, 0, high, low, 64, protocol]
}

/// The first 8 bytes of an IPv6 header.
fn ipv6(first: u8, next_header: u8) -> [u8; 8] {
    [first, 0, 0, 0, 0, 20, next_header, 64]
}

fn found(flags: u8, l4_offset: u8) -> Option<Hints> {
    Some(Hints { flags, l4_offset })
}

#[test]
fn ipv4_as_the_section_says() {
    for (expected, length, header) in [
        (found(0x0C, 34), 54, ipv4(0x45, 0, 6)),
        (found(0x04, 34), 42, ipv4(0x45, 0, 17)),
        (found(0x0C, 34), 34, ipv4(0x45, 0x4000, 6)),
        (found(0x0C, 34), 34, ipv4(0x45, 0x2000, 6)),
        (found(0x04, 74), 74, ipv4(0x4F, 0xE000, 17)),
        (None, 33, ipv4(0x45, 0, 6)),
        (None, 73, ipv4(0x4F, 0, 17)),
        (None, 54, ipv4(0x44, 0, 6)),
        (None, 54, ipv4(0x55, 0, 6)),
        (None, 54, ipv4(0x45, 0x0001, 6)),
        (None, 54, ipv4(0x45, 0x1000, 17)),
        (None, 54, ipv4(0x45, 0, 1)),
        (None, 54, ipv4(0x45, 0, 41)),
    ] {
        let frame = frame(0x0800, length, &header);
        assert_eq!(look(&frame), expected, "{frame:02x?}");
    }
}

#[test]
fn ipv6_as_the_section_says() {
    for (expected, length, header) in [
        (found(0x08, 54), 74, ipv6(0x60, 6)),
        (found(0x00, 54), 54, ipv6(0x6F, 17)),
        (None, 53, ipv6(0x60, 6)),
        (None, 74, ipv6(0x45, 6)),
        (None, 74, ipv6(0x60, 0)),
        (None, 74, ipv6(0x60, 44)),
        (None, 74, ipv6(0x60, 58)),
    ] {
        let frame = frame(0x86DD, length, &header);
        assert_eq!(look(&frame), expected, "{frame:02x?}");
    }
}

#[test]
fn no_other_type_is_looked_into() {
    for kind in [0x0806, 0x8100, 0x88A8, 0x0028, 0x0008, 0xDD86, 0x88B5] {
        assert_eq!(look(&frame(kind, 60, &ipv4(0x45, 0, 6))), None);
        assert_eq!(look(&frame(kind, 74, &ipv6(0x60, 6))), None);
    }
    assert_eq!(look(&frame(0x0800, 74, &ipv6(0x60, 6))), None);
    assert_eq!(look(&frame(0x86DD, 74, &ipv4(0x45, 0, 6))), None);
    assert_eq!(look(&frame(0x0800, 14, &[])), None);
}
