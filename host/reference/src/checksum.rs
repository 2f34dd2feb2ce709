//! The Internet checksum (RFC 1071), by 64-bit words.

/// Ones' complement sum of the 16-bit big-endian words of `bytes`; an odd last
/// byte is padded with a zero byte (RFC 1071, section 4.1).
pub fn sum(bytes: &[u8]) -> u16 {
    // RFC 1071, section 2: the sum is independent of byte order up to a final
    // swap (B), and may be gathered in wider words (C), so native 64-bit words
    // with an end-around carry do. Two sums are gathered side by side, so that
    // neither waits for the other's carries.
    let (mut left, mut right) = (0, 0);
    let mut rest = bytes;
    while let Some((block, behind)) = rest.split_first_chunk::<128>() {
        left = add_words(left, &block[..64]);
        right = add_words(right, &block[64..]);
        rest = behind;
    }
    let wide = add(left, right);
    let (wide, rest) = add_block::<64>(wide, rest);
    let (wide, rest) = add_block::<32>(wide, rest);
    let (wide, rest) = add_block::<16>(wide, rest);
    let (wide, rest) = add_block::<8>(wide, rest);
    u16::from_be(fold(add(wide, short_sum(rest))))
}

/// 64-bit ones' complement addition. After a carry the sum is at most
/// 2^64 - 2, so adding the carry back cannot overflow.
fn add(a: u64, b: u64) -> u64 {
    let (sum, carry) = a.overflowing_add(b);
    sum + u64::from(carry)
}

/// Adds the 64-bit words of `bytes`, the carry of each with the next word and
/// the last one's at the end: an add-with-carry a word. Here too a sum with a
/// carry is at most 2^64 - 2.
fn add_words(wide: u64, bytes: &[u8]) -> u64 {
    let (mut sum, mut carry) = (wide, false);
    for bytes in bytes.chunks_exact(8) {
        let mut word = [0u8; 8];
        word.copy_from_slice(bytes);
        (sum, carry) = add_carrying(sum, u64::from_ne_bytes(word), carry);
    }
    sum + u64::from(carry)
}

/// At most one of the two additions overflows.
fn add_carrying(a: u64, b: u64, carry: bool) -> (u64, bool) {
    let (sum, first) = a.overflowing_add(b);
    let (sum, second) = sum.overflowing_add(u64::from(carry));
    (sum, first | second)
}

/// Adds the first `N` bytes if there are so many; gives back what is left.
fn add_block<const N: usize>(wide: u64, bytes: &[u8]) -> (u64, &[u8]) {
    match bytes.split_first_chunk::<N>() {
        Some((block, rest)) => (add_words(wide, block), rest),
        None => (wide, bytes),
    }
}

/// The sum of fewer than eight bytes, not folded.
fn short_sum(bytes: &[u8]) -> u64 {
    let (mut sum, mut rest) = (0, bytes);
    if let Some((word, behind)) = rest.split_first_chunk() {
        sum += u64::from(u32::from_ne_bytes(*word));
        rest = behind;
    }
    if let Some((word, behind)) = rest.split_first_chunk() {
        sum += u64::from(u16::from_ne_bytes(*word));
        rest = behind;
    }
    if let [odd] = rest {
        sum += u64::from(u16::from_ne_bytes([*odd, 0]));
    }
    sum
}

/// The four 16-bit parts, added with end-around carry.
fn fold(wide: u64) -> u16 {
    let (sum, carry) = ((wide >> 32) as u32).overflowing_add(wide as u32);
    let half = sum + u32::from(carry);
    join((half >> 16) as u16, half as u16)
}

/// Joins two ones' complement sums. The first must cover an even number of
/// bytes for the result to be the sum of both ranges.
pub fn join(a: u16, b: u16) -> u16 {
    let (sum, carry) = a.overflowing_add(b);
    sum + u16::from(carry)
}

/// The sum over 32-bit words, given as numbers. There are few, so 64 bits have
/// room for their carries.
pub fn sum_of_words(words: impl IntoIterator<Item = u32>) -> u16 {
    fold(words.into_iter().map(u64::from).sum())
}

/// The sum over an IPv4 header: five 32-bit words, then options, which few have.
pub fn header_sum(header: &[u8]) -> u16 {
    let (fixed, options) = header.split_at(20);
    let words = fixed.chunks_exact(4);
    let words = words.map(|word| u32::from_be_bytes([word[0], word[1], word[2], word[3]]));
    let fixed = sum_of_words(words);
    if options.is_empty() {
        fixed
    } else {
        join(fixed, sum(options))
    }
}

/// Sum of the pseudo-header of UDP (RFC 768) and TCP (RFC 793, section 3.1).
pub fn pseudo_header(source: u32, destination: u32, protocol: u8, length: u16) -> u16 {
    let last = u32::from(protocol) << 16 | u32::from(length);
    sum_of_words([source, destination, last])
}

#[cfg(test)]
mod tests {
    use super::*;

    /// The sum as RFC 1071's text defines it, one 16-bit word at a time.
    fn slow_sum(bytes: &[u8]) -> u16 {
        let mut total: u32 = 0;
        for pair in bytes.chunks(2) {
            let low = pair.get(1).copied().unwrap_or(0);
            total += u32::from(pair[0]) * 256 + u32::from(low);
            total = (total & 0xFFFF) + (total >> 16);
        }
        total as u16
    }

    #[test]
    fn case_1_of_the_bench_sheet() {
        let bytes = [0x00, 0x01, 0xf2, 0x03, 0xf4, 0xf5, 0xf6, 0xf7];
        assert_eq!(sum(&bytes), 0xDDF2);
    }

    #[test]
    fn odd_lengths_are_padded_behind() {
        assert_eq!(sum(&[]), 0);
        assert_eq!(sum(&[0x12]), 0x1200);
        assert_eq!(sum(&[0x12, 0x34, 0x56]), 0x6834);
        assert_eq!(sum(&[0, 1, 0, 1, 0, 1, 0, 1, 0x80]), 0x8004);
    }

    #[test]
    fn carries_come_round() {
        assert_eq!(sum(&[0xFF; 64]), 0xFFFF);
        assert_eq!(sum(&[0xFF, 0xFF, 0x00, 0x01]), 0x0001);
        // Folds that come to 0x10000 exactly, in either byte order.
        assert_eq!(sum(&[0xFF, 0xFF, 0x01, 0x00]), 0x0100);
        assert_eq!(sum(&[0x80, 0x00, 0x80, 0x00]), 0x0001);
        assert_eq!(sum(&[0x00, 0x80, 0x00, 0x80]), 0x0100);
        assert_eq!(sum(&[0xFF; 65]), 0xFF00);
        assert_eq!(join(0xFFFF, 0x0001), 0x0001);
        assert_eq!(join(0x8000, 0x8000), 0x0001);
        assert_eq!(join(0xFFFE, 0x0001), 0xFFFF);
    }

    /// Bytes of several kinds: noise; ones, in long and in endless runs, so that
    /// carries are frequent or never end; and zeros.
    fn contents() -> Vec<Vec<u8>> {
        let mut state: u32 = 7;
        let mut noise = || {
            state = state.wrapping_mul(1_103_515_245).wrapping_add(12_345);
            (state >> 16) as u8
        };
        let ones_but: [fn(usize) -> bool; 5] = [
            |_| true,
            |at| at % 5 == 0,
            |at| at / 64 % 2 == 0,
            |at| at % 97 == 0,
            |_| false,
        ];
        let kinds = ones_but.map(|is_noise| {
            let byte = |at| if is_noise(at) { noise() } else { 0xFF };
            (0..2100).map(byte).collect()
        });
        kinds.into_iter().chain([vec![0; 2100]]).collect()
    }

    #[test]
    fn agrees_with_the_word_by_word_sum_at_every_length() {
        for bytes in contents() {
            for length in 0..=2000 {
                for start in 0..=9 {
                    let part = &bytes[start..start + length];
                    assert_eq!(sum(part), slow_sum(part), "{start}, {length} bytes");
                }
            }
        }
    }

    /// One bit among zeros, and one missing among ones.
    #[test]
    fn every_bit_counts() {
        for length in [63, 64, 65, 127, 128, 129, 383, 384, 391] {
            for (at, bit) in (0..length).flat_map(|at| (0..8).map(move |bit| (at, bit))) {
                for background in [0x00, 0xFF] {
                    let mut bytes = [background; 391];
                    bytes[at] ^= 1 << bit;
                    let part = &bytes[..length];
                    assert_eq!(sum(part), slow_sum(part), "bit {bit} of {at}, {length}");
                }
            }
        }
    }

    /// Every row of eight words out of four, in which a word with the carry of
    /// the one before may come to 2^64 exactly: noise never does.
    #[test]
    fn carries_between_words_count() {
        let extremes = [0, 1, u64::MAX - 1, u64::MAX];
        for choice in 0..4_usize.pow(8) {
            let mut bytes = [0; 64];
            for (at, word) in bytes.chunks_exact_mut(8).enumerate() {
                word.copy_from_slice(&extremes[choice >> (2 * at) & 3].to_ne_bytes());
            }
            for length in [48, 63, 64] {
                let part = &bytes[..length];
                assert_eq!(sum(part), slow_sum(part), "{part:?}");
            }
        }
    }

    #[test]
    fn headers_agree_with_the_word_by_word_sum() {
        for bytes in contents() {
            for length in (20..=60).step_by(4) {
                for header in bytes.windows(length) {
                    assert_eq!(header_sum(header), slow_sum(header), "{header:?}");
                }
            }
        }
    }

    #[test]
    fn pseudo_headers_agree_with_the_word_by_word_sum() {
        for bytes in contents() {
            for window in bytes.windows(12) {
                let mut wire = window.to_vec();
                wire[8] = 0;
                let word = |at: usize| u32::from_be_bytes([0, 1, 2, 3].map(|i| wire[at + i]));
                let length = u16::from_be_bytes([wire[10], wire[11]]);
                let pseudo = pseudo_header(word(0), word(4), wire[9], length);
                assert_eq!(pseudo, slow_sum(&wire), "{wire:?}");
            }
        }
    }

    #[test]
    fn pseudo_header_has_addresses_protocol_and_length() {
        // 0a00 + 0001 + 0a00 + 0002 + 0006 + 0034 = 143d
        assert_eq!(pseudo_header(0x0A00_0001, 0x0A00_0002, 6, 0x34), 0x143D);
    }
}
