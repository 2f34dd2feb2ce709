//! Refusal 29, and the frames that have both flags set and are not refused with it.

use crate::frames::{
    every_first_byte, every_protocol, frame, ipv4, ipv6, put, with_transport, without_transport,
};
use crate::rules::ID;
use crate::sides::Sides;
use difference::orders::ORDERS;
use vectors::packet::{self, TCP, UDP};
use vectors::prng::Prng;

const BOTH: u8 = 0x03;

/// An STT frame on the bound network, all of whose fields that do not count are any.
fn stt(prng: &mut Prng, flags: u8, inner: &[u8]) -> Vec<u8> {
    let mut stt = packet::stt_frame(ID, inner);
    stt[1] = flags;
    for at in [2, 3, 4, 5, 6, 7, 16, 17] {
        stt[at] = prng.byte();
    }
    stt
}

/// Cuts that part the flags from the rest, and the fields of the look from each other
/// and within themselves: the type is at 30 and 31, the first byte of the IP header at
/// 32, the next header or fragment word at 38 and 39, the protocol at 41.
const CUTS: [&[usize]; 17] = [
    &[],
    &[1],
    &[2],
    &[18],
    &[31],
    &[32],
    &[39],
    &[41],
    &[51],
    &[1, 2],
    &[2, 31],
    &[2, 42],
    &[18, 32],
    &[31, 32],
    &[32, 38],
    &[39, 41],
    &[41, 42],
];

/// Received in one of these ways, drawn.
fn receive_drawn(sides: &mut Sides, prng: &mut Prng, stt: &[u8]) {
    let count = prng.below(3);
    let mut cuts: Vec<usize> = (0..count).map(|_| prng.between(1, stt.len() - 1)).collect();
    cuts.sort_unstable();
    cuts.dedup();
    let order = prng.pick(ORDERS[cuts.len()]);
    sides.receive(stt, &cuts, order);
}

/// Every value of the flags, with and without a transport header, in every order.
#[test]
fn every_flag_byte_in_every_order() {
    let prng = &mut Prng::new(1);
    let mut sides = Sides::new();
    let with = with_transport(prng);
    let frames = [&with[..], &without_transport(prng)].concat();
    for inner in &frames {
        let length = 18 + inner.len();
        for cuts in CUTS
            .into_iter()
            .filter(|cuts| cuts.iter().all(|&cut| cut < length))
        {
            for flags in 0..=255 {
                let stt = stt(prng, flags, inner);
                for order in ORDERS[cuts.len()] {
                    sides.receive(&stt, cuts, order);
                }
            }
        }
    }
    sides.check();
    let seen = sides.seen;
    // Of the ways to cut a frame, 1 has one order, 8 have two and 8 have six.
    assert_eq!(seen.codes[29], with.len() * 64 * (1 + 8 * 2 + 8 * 6));
    assert!(seen.both_delivered > 60_000, "{seen:?}");
}

/// Version and header length, with TCP, UDP and neither behind. What an earlier frame
/// left behind the frame's end does not count.
#[test]
fn every_first_byte_of_the_header_at_every_length() {
    let prng = &mut Prng::new(2);
    let mut sides = Sides::new();
    every_first_byte(prng, |prng, inner| {
        let stt = stt(prng, BOTH, inner);
        receive_drawn(&mut sides, prng, &stt);
    });
    sides.check();
    assert_eq!(sides.seen.codes[29], 2 * (275 + 400));
    assert_eq!(
        sides.seen.both_delivered,
        65 * 3 * 256 * 2 - 2 * (275 + 400)
    );
}

/// A frame whose header ends one byte behind it, right after one in the same slot that
/// was a byte longer and the same otherwise.
#[test]
fn bytes_behind_the_end_do_not_count() {
    let prng = &mut Prng::new(3);
    let mut sides = Sides::new();
    for protocol in [TCP, UDP] {
        let over_ipv4 =
            (5..=15).map(|words| ipv4(prng, 14 + 4 * usize::from(words), words, protocol));
        let mut whole: Vec<Vec<u8>> = over_ipv4.collect();
        whole.push(ipv6(prng, 54, protocol));
        for inner in whole {
            let longer = stt(prng, BOTH, &inner);
            sides.receive_whole(&longer);
            for shorter in (32..longer.len()).rev() {
                sides.receive_whole(&longer[..shorter]);
                sides.receive(&longer[..shorter], &[20], &[1, 0]);
            }
        }
    }
    sides.check();
    assert_eq!(sides.seen.codes[29], 2 * 12);
    assert!(sides.seen.both_delivered > 1500, "{:?}", sides.seen);
}

#[test]
fn every_fragment_word() {
    let prng = &mut Prng::new(4);
    let mut sides = Sides::new();
    for inner in [
        ipv4(prng, 60, 5, TCP),
        ipv4(prng, 60, 9, UDP),
        ipv6(prng, 60, TCP),
    ] {
        let mut stt = stt(prng, BOTH, &inner);
        for word in 0..=u16::MAX {
            put(&mut stt, 18 + 20, &word.to_be_bytes());
            sides.receive_whole(&stt);
        }
    }
    sides.check();
    assert_eq!(sides.seen.codes[29], 8 + 8 + 512);
    assert_eq!(sides.seen.both_delivered, 3 * 65_536 - 528);
}

#[test]
fn every_protocol_and_next_header() {
    let prng = &mut Prng::new(5);
    let mut sides = Sides::new();
    every_protocol(prng, |prng, inner| {
        let stt = stt(prng, BOTH, inner);
        receive_drawn(&mut sides, prng, &stt);
    });
    sides.check();
    assert_eq!(sides.seen.codes[29], 2 * 12);
    assert_eq!(sides.seen.both_delivered, 254 * 12);
}

/// A tagged frame is not looked into: it is 13.
#[test]
fn every_type() {
    let prng = &mut Prng::new(6);
    let mut sides = Sides::new();
    for inner in [ipv4(prng, 60, 5, TCP), ipv6(prng, 60, UDP)] {
        let mut stt = stt(prng, BOTH, &inner);
        for kind in 0..=u16::MAX {
            put(&mut stt, 18 + 12, &kind.to_be_bytes());
            sides.receive_whole(&stt);
        }
    }
    sides.check();
    assert_eq!(sides.seen.codes[29], 2);
    assert_eq!(sides.seen.codes[13], 2 * 2);
    assert_eq!(sides.seen.both_delivered, 2 * 65_533);
}

/// A whole header, but behind a tag of four bytes.
#[test]
fn nothing_is_found_behind_a_tag() {
    let prng = &mut Prng::new(7);
    let mut sides = Sides::new();
    for tag in [[0x81, 0x00], [0x88, 0xA8]] {
        for inner in with_transport(prng) {
            let tagged = [&inner[..12], &tag, &[0, 22], &inner[12..]].concat();
            for flags in 0..=255 {
                let stt = stt(prng, flags, &tagged);
                receive_drawn(&mut sides, prng, &stt);
            }
        }
    }
    sides.check();
    assert_eq!(sides.seen.codes[13], 2 * 12 * 256);
}

/// L4 offset, reserved byte, MSS, tag and padding have every value, by twos; they are held
/// neither against the look nor against each other.
#[test]
fn what_the_sender_says_does_not_count() {
    let prng = &mut Prng::new(8);
    let mut sides = Sides::new();
    let (tcp, udp) = (ipv4(prng, 60, 6, TCP), ipv6(prng, 60, UDP));
    let none = frame(prng, 60, 0x0806);
    for (flags, inner) in [
        (BOTH, &tcp),
        (BOTH, &udp),
        (BOTH, &none),
        (0xFE, &tcp),
        (0xFD, &udp),
    ] {
        for at in [2, 4, 6, 16] {
            let mut stt = stt(prng, flags, inner);
            for word in 0..=u16::MAX {
                put(&mut stt, at, &word.to_be_bytes());
                sides.receive_whole(&stt);
            }
        }
    }
    sides.check();
    assert_eq!(sides.seen.codes[29], 2 * 4 * 65_536);
    assert_eq!(sides.seen.codes[0], 3 * 4 * 65_536);
    assert_eq!(sides.seen.both_delivered, 4 * 65_536);
}

/// Versions, flags, Context IDs and inner frames in every combination.
#[test]
fn answers_keep_their_order() {
    let prng = &mut Prng::new(9);
    let mut sides = Sides::new();
    let with = with_transport(prng);
    let untagged = [&with[..], &without_transport(prng)].concat();
    let mut tagged = untagged.clone();
    for frame in &mut tagged {
        put(frame, 12, &[0x81, 0x00]);
    }
    for inner in untagged.iter().chain(&tagged) {
        for version in [0, 1, 0x80, 0xFF] {
            for flags in 0..=255 {
                for network in [ID, ID ^ 1, ID ^ 1 << 63, 0] {
                    let mut stt = stt(prng, flags, inner);
                    stt[0] = version;
                    stt[8..16].copy_from_slice(&network.to_be_bytes());
                    receive_drawn(&mut sides, prng, &stt);
                }
            }
        }
    }
    sides.check();
    let codes = sides.seen.codes;
    let frames = untagged.len() + tagged.len();
    assert_eq!(codes[28], frames * 3 * 256 * 4);
    assert_eq!(codes[29], with.len() * 64 * 4);
    assert_eq!(codes[12], (frames * 256 - with.len() * 64) * 3);
    assert_eq!(codes[13], tagged.len() * 256);
}

/// Both sides of a frame's header come in different frames that are pending at once: each
/// is looked into for itself.
#[test]
fn frames_beside_each_other() {
    let prng = &mut Prng::new(10);
    let mut sides = Sides::new();
    let with = ipv4(prng, 60, 5, TCP);
    let without = frame(prng, 60, 0x0806);
    let frames: Vec<Vec<u8>> = [&with, &without, &without, &with]
        .map(|inner| stt(prng, BOTH, inner))
        .into();
    for cut in [1, 2, 18, 31, 33, 40, 60] {
        for first in [[0, 1], [1, 0]] {
            for turn in 0..4 {
                sides.receive_beside(&frames, cut, first, turn);
            }
        }
    }
    sides.check();
    assert_eq!(sides.seen.codes[29], 7 * 2 * 4 * 2);
    assert_eq!(sides.seen.both_delivered, 7 * 2 * 4 * 2);
}
