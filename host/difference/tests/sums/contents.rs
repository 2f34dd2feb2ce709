//! What the summed bytes are, by what they show.

use vectors::prng::Prng;

/// The bytes of a payload or of a header, before its fixed fields are put in.
#[derive(Clone, Copy, Debug, PartialEq, Eq)]
pub enum Contents {
    Random,
    /// 0xFF, but for one byte in eight: nearly every addition carries.
    MostlyOnes,
    /// One value throughout.
    All(u8),
    /// One value throughout, but for one byte at any place.
    AllBut {
        all: u8,
        one: u8,
    },
    /// By the place, counted from 0: each byte counts in its own half of a word.
    Alternating {
        even: u8,
        odd: u8,
    },
    /// Random bytes at the even places, zeros at the odd ones.
    EvenAlone,
    /// The reverse.
    OddAlone,
    /// Zeros, but for the last byte: of an odd number, the one that is padded.
    LastAlone,
    /// So many 64-bit words of one value, then as many of the other; the lowest byte
    /// first.
    Words {
        one: u64,
        other: u64,
        times: usize,
    },
    /// 16-bit words next to a carry.
    Edges,
}

use Contents::*;

/// The lowest bit of a 64-bit word whose highest byte comes first.
const FIRST: u64 = 1 << 56;

pub const ALL: [Contents; 24] = [
    Random,
    MostlyOnes,
    All(0x00),
    All(0xFF),
    AllBut { all: 0xFF, one: 0 },
    AllBut {
        all: 0xFF,
        one: 0xFE,
    },
    AllBut { all: 0, one: 0x01 },
    AllBut { all: 0, one: 0x80 },
    Alternating { even: 0xFF, odd: 0 },
    Alternating { even: 0, odd: 0xFF },
    EvenAlone,
    OddAlone,
    LastAlone,
    // A 1 after all ones: the carry goes through the whole word and out at its top.
    // Sums that are gathered apart, two to eight of them, have it each.
    words(u64::MAX, 1, 1),
    words(u64::MAX, 1, 2),
    words(u64::MAX, 1, 4),
    words(u64::MAX, 1, 8),
    // The carry that comes round makes all ones, and the next one goes on from there.
    words(u64::MAX - 1, 1, 1),
    // The same where the highest byte comes first.
    words(u64::MAX, FIRST, 1),
    words(u64::MAX - FIRST, FIRST, 1),
    // A carry out at the top alone, and one out of the lower half alone.
    words(1 << 63, 1 << 63, 1),
    words(u32::MAX as u64, 1, 1),
    words(1 << 31, 1 << 63, 2),
    Edges,
];

const fn words(one: u64, other: u64, times: usize) -> Contents {
    Words { one, other, times }
}

/// Words at which a sum of 16 bits, or of one half of them, is about to carry.
const EDGES: [u16; 12] = [
    0, 1, 0x00FF, 0x0100, 0x0101, 0x7FFF, 0x8000, 0xFEFF, 0xFF00, 0xFF7F, 0xFFFE, 0xFFFF,
];

impl Contents {
    /// So many bytes.
    pub fn bytes(self, length: usize, prng: &mut Prng) -> Vec<u8> {
        let mut bytes = vec![0; length];
        match self {
            Random => bytes = prng.bytes(length),
            MostlyOnes => {
                bytes.fill(0xFF);
                bytes.chunks_mut(8).for_each(|word| set_any(word, prng));
            }
            All(value) => bytes.fill(value),
            AllBut { all, one } => {
                bytes.fill(all);
                bytes[prng.below(length)] = one;
            }
            Alternating { even, odd } => {
                let values = [even, odd].into_iter().cycle();
                bytes.iter_mut().zip(values).for_each(|(b, v)| *b = v);
            }
            EvenAlone => every_other(&mut bytes, 0, prng),
            OddAlone => every_other(&mut bytes, 1, prng),
            LastAlone => bytes[length - 1] = 0xE7,
            Words { one, other, times } => {
                let words = bytes.chunks_mut(8).enumerate();
                words.for_each(|(n, word)| {
                    let value = if n / times % 2 == 0 { one } else { other };
                    word.copy_from_slice(&value.to_le_bytes()[..word.len()]);
                });
            }
            Edges => bytes.chunks_mut(2).for_each(|word| {
                let value = prng.pick(&EDGES).to_be_bytes();
                word.copy_from_slice(&value[..word.len()]);
            }),
        }
        bytes
    }
}

fn set_any(word: &mut [u8], prng: &mut Prng) {
    word[prng.below(word.len())] = prng.byte();
}

fn every_other(bytes: &mut [u8], first: usize, prng: &mut Prng) {
    let chosen = bytes.iter_mut().skip(first).step_by(2);
    chosen.for_each(|byte| *byte = prng.byte());
}
