//! The sum as it may be gathered in 64-bit words (RFC 1071, 2 (C)), the lowest byte first:
//! contents are chosen so that such a sum is next to a carry where the bytes behind the
//! last whole word are added, and where it is folded to 16 bits.

use crate::outer::{Carrier, HEADER};
use crate::slow;
use std::fmt;
use vectors::packet::put16;

/// Bytes of a word.
pub const WORD: usize = 8;

/// The ones' complement sum of the whole words.
pub fn sum(bytes: &[u8]) -> u64 {
    let words = bytes.chunks_exact(WORD);
    words.fold(0, |sum, word| {
        let places = word.iter().rev();
        let value = places.fold(0, |value, &byte| value << 8 | u64::from(byte));
        add(sum, value)
    })
}

fn add(a: u64, b: u64) -> u64 {
    let (sum, overflow) = a.overflowing_add(b);
    sum + u64::from(overflow)
}

/// The bytes of a word that makes a sum `wanted`.
pub fn missing(sum: u64, wanted: u64) -> [u8; WORD] {
    add(wanted, !sum).to_le_bytes()
}

/// Where the last whole word of so many bytes begins.
pub fn last_word(length: usize) -> usize {
    length / WORD * WORD - WORD
}

/// Sums of whole words: next to a carry at the top, in the middle, out of the lowest 16
/// bits; and such that the halves, or the digits of 16 bits, add up to a carry.
pub const SUMS: [u64; 16] = [
    u64::MAX,
    u64::MAX - 1,
    u64::MAX - 0xFF,
    u64::MAX - 0xFFFF,
    u64::MAX - 0xFFFF_FFFF,
    1 << 63,
    (1 << 63) - 1,
    1,
    0xFFFF,
    0x1_0000,
    0xFFFF_FFFF,
    0x1_0000_0000,
    0xFFFF_FFFF_0000_0001,
    0x0000_0001_FFFF_FFFF,
    0xFFFF_0000_0000_0001,
    0x0001_0000_0000_FFFF,
];

/// A sum of whole words, but for one of its digits of 16 bits, which makes the checksum
/// right.
#[derive(Clone, Copy)]
pub struct But {
    /// All else; the digit is 0.
    pub sum: u64,
    /// The bits below the digit.
    pub below: u32,
}

impl fmt::Debug for But {
    fn fmt(&self, f: &mut fmt::Formatter<'_>) -> fmt::Result {
        let But { sum, below } = self;
        write!(
            f,
            "64-bit sum {sum:#018x}, but for the digit from bit {below} on"
        )
    }
}

const fn but(sum: u64, below: u32) -> But {
    But { sum, below }
}

pub const ALL_BUT: [But; 11] = [
    but(0xFFFF_FFFF_FFFF_0000, 0),
    but(0xFFFF_FFFF_0000_FFFF, 16),
    but(0x0000_FFFF_FFFF_FFFF, 48),
    but(0, 0),
    but(0, 48),
    but(0xFFFF_FFFF_0000_0000, 0),
    but(0x0000_0000_FFFF_FFFF, 32),
    but(0x8000_0000_0000_0000, 0),
    but(0x7FFF_FFFF_FFFF_0000, 0),
    but(0x0000_FFFF_FFFF_0000, 0),
    but(0xFFFE_FFFF_FFFF_0000, 0),
];

impl But {
    /// Gives the payload its sum, by its last whole word, and with it the right checksum.
    pub fn put(self, carrier: Carrier, packet: &mut [u8]) {
        put16(packet, HEADER + carrier.field(), 0x1234);
        let word = HEADER + last_word(packet.len() - HEADER);
        packet[word..word + WORD].fill(0);
        let rest = sum(&packet[HEADER..]);
        packet[word..word + WORD].copy_from_slice(&missing(rest, self.sum));
        let digit = slow::missing(slow::of_transport(packet), slow::ALL_ONES);
        let wanted = self.sum | u64::from(digit.swap_bytes()) << self.below;
        packet[word..word + WORD].copy_from_slice(&missing(rest, wanted));
    }
}
