//! The received map: bit i mod 8, lowest first, of byte i div 8 says that frame
//! byte i was received (document 01, "Reassembly memory": held). That is bit
//! i mod 64 of the little-endian 64-bit word i div 64, so the map is read and
//! written by such words.

/// Bytes of a map.
pub const MAP_ROOM: usize = 192;

/// The map of one frame.
pub type Map = [u8; MAP_ROOM];

/// Bytes of a word, and its bits.
const BYTES: usize = 8;
const BITS: usize = 64;

fn load(bytes: &[u8]) -> u64 {
    let mut word = [0u8; BYTES];
    word.copy_from_slice(bytes);
    u64::from_le_bytes(word)
}

/// Word `number` of the map.
fn word(map: &Map, number: usize) -> u64 {
    load(&map[BYTES * number..BYTES * number + BYTES])
}

/// The words from number `from` up to number `to`.
fn words(map: &Map, from: usize, to: usize) -> impl Iterator<Item = u64> + '_ {
    map[BYTES * from..BYTES * to].chunks_exact(BYTES).map(load)
}

/// Sets the bits of `mask` in word `number`.
fn set(map: &mut Map, number: usize, mask: u64) {
    let marked = word(map, number) | mask;
    map[BYTES * number..BYTES * number + BYTES].copy_from_slice(&marked.to_le_bytes());
}

/// First and last word of the frame bytes `start..end`, with the masks of the
/// bits that count in each. `start < end` is the caller's promise.
fn reach(start: usize, end: usize) -> (usize, u64, usize, u64) {
    let last_bit = end - 1;
    let first_mask = u64::MAX << (start % BITS);
    let last_mask = u64::MAX >> (BITS - 1 - last_bit % BITS);
    (start / BITS, first_mask, last_bit / BITS, last_mask)
}

/// Whether any of the frame bytes `start..end` was received.
pub fn any_received(map: &Map, start: usize, end: usize) -> bool {
    let (first, first_mask, last, last_mask) = reach(start, end);
    if first == last {
        return word(map, first) & first_mask & last_mask != 0;
    }
    let ends = word(map, first) & first_mask | word(map, last) & last_mask;
    words(map, first + 1, last).fold(ends, |any, word| any | word) != 0
}

/// Marks the frame bytes `start..end` as received; no other bit changes.
pub fn mark_received(map: &mut Map, start: usize, end: usize) {
    let (first, first_mask, last, last_mask) = reach(start, end);
    if first == last {
        set(map, first, first_mask & last_mask);
        return;
    }
    set(map, first, first_mask);
    map[BYTES * (first + 1)..BYTES * last].fill(0xFF);
    set(map, last, last_mask);
}

/// Whether every frame byte below `length` was received. Bits from `length` on do
/// not count, whatever the lent memory has there.
pub fn is_complete(map: &Map, length: usize) -> bool {
    let (whole, bits) = (length / BITS, length % BITS);
    // Without bits left there may be no word to look at.
    let last = if bits == 0 {
        u64::MAX
    } else {
        word(map, whole) | u64::MAX << bits
    };
    words(map, 0, whole).fold(last, |all, word| all & word) == u64::MAX
}

#[cfg(test)]
mod tests {
    use super::*;

    /// Frame bytes that a map has bits for.
    const ALL: usize = 8 * MAP_ROOM;

    /// A map that begins with these bytes; the others are 0.
    fn map_of(bytes: &[u8]) -> Map {
        let mut map = [0u8; MAP_ROOM];
        map[..bytes.len()].copy_from_slice(bytes);
        map
    }

    #[test]
    fn case_8_of_the_bench_sheet() {
        assert!(is_complete(&map_of(&[0xFF, 0x01]), 9));
        assert!(!is_complete(&map_of(&[0xFF, 0x00]), 9));
        assert!(!is_complete(&map_of(&[0xFE, 0x01]), 9));
        assert!(!is_complete(&map_of(&[0xFF, 0xFE]), 9));
        assert!(is_complete(&map_of(&[0xFF, 0xFF]), 9));
        assert!(is_complete(&map_of(&[0xFF]), 8));
        assert!(!is_complete(&map_of(&[0x7F]), 8));
    }

    #[test]
    fn marks_are_byte_exact() {
        let mut map = map_of(&[]);
        mark_received(&mut map, 0, 9);
        assert_eq!(map, map_of(&[0xFF, 0x01, 0, 0]));
        mark_received(&mut map, 11, 12);
        assert_eq!(map, map_of(&[0xFF, 0x09, 0, 0]));
        mark_received(&mut map, 13, 26);
        assert_eq!(map, map_of(&[0xFF, 0xE9, 0xFF, 0x03]));
    }

    /// The definition of a bit, and with it those of the three calls.
    fn received(map: &Map, i: usize) -> bool {
        map[i / 8] >> (i % 8) & 1 == 1
    }

    fn check_complete(map: &Map, length: usize) {
        let expected = (0..length).all(|i| received(map, i));
        assert_eq!(is_complete(map, length), expected, "{length} of {map:?}");
    }

    fn check_any(map: &Map, start: usize, end: usize) {
        let expected = (start..end).any(|i| received(map, i));
        let any = any_received(map, start, end);
        assert_eq!(any, expected, "{start}..{end} of {map:?}");
    }

    fn check_mark(first: &Map, start: usize, end: usize) {
        let mut map = *first;
        mark_received(&mut map, start, end);
        for i in 0..ALL {
            let expected = (start..end).contains(&i) || received(first, i);
            assert_eq!(received(&map, i), expected, "{i} after {start}..{end}");
        }
    }

    fn flip(map: &mut Map, i: usize) {
        map[i / 8] ^= 1 << (i % 8);
    }

    /// First contents of several kinds: nothing, everything, few bits, many
    /// bits, whole words by turns, noise.
    fn contents() -> [Map; 6] {
        let mut state: u32 = 1;
        let noise = |_| {
            state = state.wrapping_mul(1_103_515_245).wrapping_add(12_345);
            (state >> 16) as u8
        };
        [
            [0; MAP_ROOM],
            [0xFF; MAP_ROOM],
            std::array::from_fn(|at| [0x10, 0x00, 0x81, 0x00, 0x02][at % 5]),
            std::array::from_fn(|at| [0xFF, 0xFF, 0xFF, 0x7F, 0xFE][at % 5]),
            std::array::from_fn(|at| [0x00, 0xFF][at / 8 % 2]),
            std::array::from_fn(noise),
        ]
    }

    /// Bits about every border of two words, or of two bytes next to it.
    fn border_bits() -> Vec<usize> {
        let borders = (0..=ALL).step_by(BITS);
        let about = [-9, -8, -7, -1, 0, 1, 7, 8, 9];
        let bits = borders.flat_map(|border| about.map(|by| border.checked_add_signed(by)));
        bits.flatten().filter(|&bit| bit <= ALL).collect()
    }

    /// Every length, with everything received below it and one bit missing: at
    /// the borders of words, at its own end and beyond it. What is beyond it is
    /// received or not.
    #[test]
    fn one_missing_bit_is_seen_at_every_length() {
        let borders = border_bits();
        for length in 0..=ALL {
            for beyond in [false, true] {
                let mut map = [0xFF; MAP_ROOM];
                (length..ALL)
                    .filter(|_| !beyond)
                    .for_each(|i| flip(&mut map, i));
                check_complete(&map, length);
                assert!(is_complete(&map, length));
                let ends = length.saturating_sub(3)..length + 3;
                for i in borders.iter().copied().chain(ends) {
                    if i < ALL {
                        flip(&mut map, i);
                        check_complete(&map, length);
                        flip(&mut map, i);
                    }
                }
            }
        }
    }

    /// Starts and ends at the borders of words, with one bit received: at every
    /// such place too, so inside and outside and at either end.
    #[test]
    fn one_received_bit_is_seen_between_all_borders() {
        let borders = border_bits();
        for &at in borders.iter().filter(|&&at| at < ALL) {
            let mut map = [0; MAP_ROOM];
            flip(&mut map, at);
            for &start in &borders {
                for &end in borders.iter().filter(|&&end| end > start) {
                    let inside = (start..end).contains(&at);
                    assert_eq!(
                        any_received(&map, start, end),
                        inside,
                        "{at} {start}..{end}"
                    );
                }
            }
        }
    }

    /// Every reach within the first 200 bits, and every one between the borders
    /// of words, on maps of several contents.
    #[test]
    fn agrees_with_the_definition_bit_by_bit() {
        let short: Vec<usize> = (0..=200).collect();
        for first in contents() {
            (0..=ALL).for_each(|length| check_complete(&first, length));
            for bits in [&short, &border_bits()] {
                for &start in bits {
                    for &end in bits.iter().filter(|&&end| end > start) {
                        check_any(&first, start, end);
                        check_mark(&first, start, end);
                    }
                }
            }
        }
    }
}
