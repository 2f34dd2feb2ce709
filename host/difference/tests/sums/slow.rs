//! The sum of RFC 1071, word by word as its text has it, and what it says of a
//! packet. It shares no code with the library or with the reference.

use vectors::packet::{get16, header_length, UDP};

/// "If the result is all 1 bits [..], the check succeeds" (1, (3)).
pub const ALL_ONES: u16 = 0xFFFF;

/// "On a 2's complement machine, the 1's complement sum must be computed by means of
/// an 'end around carry', i.e., any overflows from the most significant bits are
/// added into the least significant bits" (1).
pub fn add(a: u16, b: u16) -> u16 {
    let (sum, overflow) = a.overflowing_add(b);
    sum + u16::from(overflow)
}

/// "Adjacent octets to be checksummed are paired to form 16-bit integers, and the 1's
/// complement sum of these 16-bit integers is formed" (1, (1)), over the parts one
/// after another; the last byte of an odd number is paired with a zero. Every part but
/// the last has an even number of bytes.
pub fn sum(parts: &[&[u8]]) -> u16 {
    let mut sum = 0;
    for part in parts {
        let pairs = part.chunks_exact(2);
        if let [last] = *pairs.remainder() {
            sum = add(sum, u16::from(last) * 256);
        }
        for pair in pairs {
            sum = add(sum, u16::from(pair[0]) * 256 + u16::from(pair[1]));
        }
    }
    sum
}

/// What is to be added to a sum that it becomes `wanted`, which is not 0.
pub fn missing(sum: u16, wanted: u16) -> u16 {
    add(wanted, !sum)
}

/// The sum over an IPv4 header and its options.
pub fn of_header(packet: &[u8]) -> u16 {
    sum(&[&packet[..header_length(packet)]])
}

/// The sum over the payload and the pseudo header in front of it (RFC 768; RFC 793,
/// 3.1): both addresses, a zero, the protocol and the payload's length.
pub fn of_transport(packet: &[u8]) -> u16 {
    let payload = &packet[header_length(packet)..usize::from(get16(packet, 2))];
    let length = (payload.len() as u16).to_be_bytes();
    sum(&[&packet[12..20], &[0, packet[9]], &length, payload])
}

/// What the sums say that a receive must answer.
#[derive(Clone, Copy, Debug, PartialEq, Eq)]
pub enum Expected {
    /// Refused with this number.
    Refused(u8),
    /// Not refused by this check, nor by one before it.
    Past(u8),
}

impl Expected {
    pub fn allows(self, code: u8) -> bool {
        match self {
            Expected::Refused(refusal) => code == refusal,
            Expected::Past(check) => code < 2 || code > check,
        }
    }
}

/// Checks 3 and 4 of any packet.
pub fn judge_header(packet: &[u8]) -> Expected {
    if packet.len() < 20 {
        return Expected::Refused(3);
    }
    let (header, total) = (header_length(packet), usize::from(get16(packet, 2)));
    if packet[0] >> 4 != 4 || header < 20 || total < header || total > packet.len() {
        return Expected::Refused(3);
    }
    match of_header(packet) {
        ALL_ONES => Expected::Past(4),
        _ => Expected::Refused(4),
    }
}

/// Check 10 of a packet that passes those before it. A UDP field of 0 is none.
pub fn judge_transport(packet: &[u8]) -> Expected {
    let none = packet[9] == UDP && get16(packet, header_length(packet) + 6) == 0;
    if none || of_transport(packet) == ALL_ONES {
        return Expected::Past(10);
    }
    Expected::Refused(10)
}

/// The bytes of RFC 1071's example (3), which the paper's first case has too.
#[test]
fn the_slow_sum_gives_the_example_of_the_rfc() {
    let bytes = [0x00, 0x01, 0xf2, 0x03, 0xf4, 0xf5, 0xf6, 0xf7];
    assert_eq!(sum(&[&bytes]), 0xddf2);
    assert_eq!(sum(&[&bytes[..4], &bytes[4..]]), 0xddf2);
    // ddf2 - f6f7 is -1905, of which the ones' complement is e6fa; + f600.
    assert_eq!(sum(&[&bytes[..7]]), 0xdcfb);
    assert_eq!(sum(&[]), 0);
    assert_eq!(sum(&[&[0xFF, 0xFF, 0xFF, 0xFF]]), 0xFFFF);
    assert_eq!(sum(&[&[0xFF, 0xFF, 0x00, 0x01]]), 0x0001);
    for (sum, wanted) in [(0xddf2, 1), (1, 0xFFFF), (0xFFFF, 0xFFFF), (0xFFFF, 2)] {
        assert_eq!(add(sum, missing(sum, wanted)), wanted, "{sum:#x}");
    }
}
