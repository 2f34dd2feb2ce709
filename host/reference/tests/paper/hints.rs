//! Document 02, section 5: which inner frames carry TCP or UDP over IP, what the header
//! of an STT frame says about them, and where both flags together are 29.

use crate::build::*;
use crate::wrapping::{writer, writes};
use niulassenc_reference::{view, Endpoint};

const TCP: u8 = 6;
const UDP: u8 = 17;

/// Flags and L4 offset where TCP or UDP is found.
type Found = Option<(u8, u8)>;

/// The frame with some bytes changed.
fn with(frame: &[u8], change: impl FnOnce(&mut Vec<u8>)) -> Vec<u8> {
    let mut copy = frame.to_vec();
    change(&mut copy);
    copy
}

/// The STT frame that is written for an inner frame.
fn whole(frame: &[u8], found: Found) -> Vec<u8> {
    let (flags, l4_offset) = found.unwrap_or((0, 0));
    with(&stt_frame(CONTEXT, frame), |stt| {
        stt[1] = flags;
        stt[2] = l4_offset;
    })
}

/// An STT frame with these flags, and nothing else to be ignored.
fn flagged(frame: &[u8], flags: u8) -> Vec<u8> {
    with(&stt_frame(CONTEXT, frame), |stt| stt[1] = flags)
}

/// Both sides of the look. The frame, which has no tag, is written with these hints;
/// with both flags set it is refused where TCP or UDP is found, and else delivered.
fn look(frame: &[u8], found: Found) {
    let (packet, count) = writes(&writer(1500), (2, 0), frame, 1500);
    assert_eq!(count, 1);
    assert_eq!(packet[40..], whole(frame, found), "{frame:02x?}");
    let mut bed = Bed::new();
    for flags in [0x03, 0xFF] {
        let stt = flagged(frame, flags);
        let packet = part(1, &stt, 0, stt.len());
        match found {
            Some(_) => bed.refuses_frame_at(29, 1, &packet),
            None => _ = bed.completes(&stt, &packet),
        }
    }
}

#[test]
fn the_four_kinds_and_none() {
    look(&over_ipv4(5, TCP, 60), Some((0x0C, 34)));
    look(&over_ipv4(5, UDP, 60), Some((0x04, 34)));
    look(&over_ipv6(TCP, 60), Some((0x08, 54)));
    // Found, although its flags are 0.
    look(&over_ipv6(UDP, 60), Some((0x00, 54)));
    look(&T, None);
    let arp = with(&inner(42), |f| set_word(f, 12, 0x0806));
    look(&arp, None);
}

/// Every header length, in frames that end with the header, behind it and before.
#[test]
fn ipv4_header_lengths() {
    for words in 0..=15 {
        let end = 14 + 4 * words;
        for length in [end + 1, end, end - 1, 34, 74, 1442] {
            if length < 15 {
                continue;
            }
            let frame = over_ipv4(words as u8, TCP, length);
            let found = words >= 5 && end <= length;
            look(&frame, found.then_some((0x0C, end as u8)));
        }
    }
}

#[test]
fn an_ipv4_header_inside_the_frame_and_one_byte_outside() {
    for (words, end) in [(5, 34), (6, 38), (15, 74)] {
        look(&over_ipv4(words, UDP, end), Some((0x04, end as u8)));
        look(&over_ipv4(words, UDP, end - 1), None);
    }
}

#[test]
fn an_ipv6_header_inside_the_frame_and_one_byte_outside() {
    for length in 21..=56 {
        let found = length >= 54;
        let next_header = if length % 2 == 0 { TCP } else { UDP };
        let flags = if next_header == TCP { 0x08 } else { 0 };
        let frame = over_ipv6(next_header, length);
        look(&frame, found.then_some((flags, 54)));
    }
}

#[test]
fn frames_that_end_with_the_type() {
    for kind in [0x0800, 0x86DD] {
        for length in 14..21 {
            let frame = with(&inner(length), |f| set_word(f, 12, kind));
            look(&frame, None);
            look(&with(&frame, |f| f[14..].fill(0x45)), None);
        }
    }
}

#[test]
fn versions() {
    for version in 0..16u8 {
        let frame = with(&over_ipv4(5, TCP, 74), |f| f[14] = version << 4 | 5);
        look(&frame, (version == 4).then_some((0x0C, 34)));
        // Half of the traffic class stands beside an IPv6 version.
        for low in [0, 5, 15] {
            let frame = with(&over_ipv6(TCP, 74), |f| f[14] = version << 4 | low);
            look(&frame, (version == 6).then_some((0x08, 54)));
        }
    }
}

#[test]
fn types() {
    let (four, six) = (over_ipv4(5, TCP, 74), over_ipv6(TCP, 74));
    // Each other's type, as it stands and with the protocol where either looks.
    look(&with(&four, |f| set_word(f, 12, 0x86DD)), None);
    look(&with(&six, |f| set_word(f, 12, 0x0800)), None);
    let both = |f: &mut Vec<u8>| {
        set_word(f, 20, 0x0600);
        f[23] = TCP;
    };
    look(&with(&with(&four, both), |f| set_word(f, 12, 0x86DD)), None);
    look(&with(&with(&six, both), |f| set_word(f, 12, 0x0800)), None);
    for bit in 0..16 {
        look(&with(&four, |f| set_word(f, 12, 0x0800 ^ 1 << bit)), None);
        look(&with(&six, |f| set_word(f, 12, 0x86DD ^ 1 << bit)), None);
    }
    // Lengths of IEEE 802.3 instead of a type.
    for length in [0, 46, 60, 1500, 1535] {
        look(&with(&four, |f| set_word(f, 12, length)), None);
        look(&with(&six, |f| set_word(f, 12, length)), None);
    }
}

#[test]
fn fragments() {
    for protocol in [TCP, UDP] {
        let found = Some((if protocol == TCP { 0x0C } else { 0x04 }, 34));
        let frame = over_ipv4(5, protocol, 60);
        // The reserved bit, DF and more-fragments, in every mixture.
        for flags in 0..8u16 {
            let first = with(&frame, |f| set_word(f, 20, flags << 13));
            look(&first, found);
            for offset in (0..13).map(|bit| 1 << bit).chain([0x1FFF]) {
                let later = with(&first, |f| set_word(f, 20, flags << 13 | offset));
                look(&later, None);
            }
        }
    }
}

#[test]
fn protocols() {
    for protocol in 0..=255 {
        let (four, six) = match protocol {
            TCP => (Some((0x0C, 34)), Some((0x08, 54))),
            UDP => (Some((0x04, 34)), Some((0x00, 54))),
            _ => (None, None),
        };
        look(&over_ipv4(5, protocol, 80), four);
        look(&over_ipv6(protocol, 80), six);
    }
}

/// What follows an extension header is not looked for: each names TCP and ends where
/// a TCP header would start.
#[test]
fn ipv6_extension_headers() {
    for extension in [0, 43, 44, 50, 60] {
        let frame = with(&over_ipv6(extension, 90), |f| {
            f[54..62].copy_from_slice(&[TCP, 0, 0, 0, 0, 0, 0, 0]);
        });
        look(&frame, None);
    }
}

/// No other byte of the frame counts, whatever it is.
#[test]
fn the_other_bytes_are_not_looked_at() {
    let four = over_ipv4(6, UDP, 60);
    for at in (0..60).filter(|at| ![12, 13, 14, 20, 21, 23].contains(at)) {
        for value in [0x00, 0xFF] {
            look(&with(&four, |f| f[at] = value), Some((0x04, 38)));
        }
    }
    let six = over_ipv6(UDP, 60);
    for at in (0..60).filter(|at| ![12, 13, 14, 20].contains(at)) {
        for value in [0x00, 0xFF] {
            look(&with(&six, |f| f[at] = value), Some((0x00, 54)));
        }
    }
}

/// The frame behind a tag of four bytes.
fn tagged(frame: &[u8], tag: u16) -> Vec<u8> {
    let mut copy = frame.to_vec();
    copy.splice(12..12, [(tag >> 8) as u8, tag as u8, 0, 9]);
    copy
}

/// A tagged frame is not looked into: with both flags set it is what it is without.
#[test]
fn tags_hide_what_is_behind_them() {
    let mut bed = Bed::new();
    for frame in [over_ipv4(5, TCP, 60), over_ipv6(UDP, 60)] {
        for tag in [0x8100, 0x88A8] {
            let tagged = tagged(&frame, tag);
            let retyped = with(&frame, |f| set_word(f, 12, tag));
            for frame in [tagged, retyped] {
                let mut stt = flagged(&frame, 0x03);
                bed.refuses_frame(13, &part(1, &stt, 0, stt.len()));
                stt[15] ^= 1;
                bed.refuses_frame(12, &part(1, &stt, 0, stt.len()));
            }
        }
        // A tag of another type makes a frame of a kind that is not known.
        look(&tagged(&frame, 0x9100), None);
    }
}

/// 29 keeps its place behind 28 and before 12, for the frames that it is given for.
#[test]
fn the_place_of_29() {
    let mut bed = Bed::new();
    let frames = [
        (over_ipv4(5, TCP, 60), true),
        (over_ipv6(UDP, 60), true),
        (over_ipv6(UDP, 53), false),
        (inner(60), false),
    ];
    for (frame, found) in frames {
        let unlisted = with(&flagged(&frame, 0x03), |f| f[8] ^= 0x80);
        let length = unlisted.len();
        let (code, offset) = if found { (29, 1) } else { (12, 0) };
        bed.refuses_frame_at(code, offset, &part(1, &unlisted, 0, length));
        for version in [1, 0xFF] {
            let stt = with(&unlisted, |f| f[0] = version);
            bed.refuses_frame_at(28, 0, &part(1, &stt, 0, length));
            let stt = with(&flagged(&frame, 0x03), |f| f[0] = version);
            bed.refuses_frame_at(28, 0, &part(1, &stt, 0, length));
        }
    }
}

/// The last segment gets the answer, whichever bytes it brings: each byte that the look
/// asks for comes last once, and the two flags.
#[test]
fn what_the_look_asks_for_may_come_last() {
    let mut bed = Bed::new();
    for (frame, places) in [
        (over_ipv4(5, TCP, 60), &[12, 13, 14, 20, 21, 23, 33][..]),
        (over_ipv6(UDP, 60), &[12, 13, 14, 20, 53]),
    ] {
        let stt = flagged(&frame, 0x03);
        for at in places.iter().map(|at| 18 + at).chain([1]) {
            bed.holds(&part(1, &stt, 0, at));
            bed.holds(&part(1, &stt, at + 1, 78));
            bed.refuses_frame_at(29, 1, &part(1, &stt, at, at + 1));
            assert_eq!(bed.memory[..78], stt);
        }
    }
    // The IP header as a whole, behind the rest.
    let stt = flagged(&over_ipv4(5, UDP, 60), 0x03);
    bed.holds(&part(1, &stt, 52, 78));
    bed.holds(&part(1, &stt, 0, 32));
    bed.refuses_frame_at(29, 1, &part(1, &stt, 32, 52));
    // The slot is free again.
    for identifier in 0..4 {
        bed.holds(&part(identifier, &stt, 0, 32));
    }
}

/// The frame's own length counts, not what an earlier frame left behind it.
#[test]
fn bytes_of_an_earlier_frame_do_not_count() {
    let mut bed = Bed::new();
    for (frame, end) in [(over_ipv4(5, TCP, 60), 34), (over_ipv6(TCP, 60), 54)] {
        let long = flagged(&frame, 0x03);
        bed.refuses_frame_at(29, 1, &part(1, &long, 0, 78));
        let short = flagged(&frame[..end - 1], 0x03);
        bed.completes(&short, &part(1, &short, 0, short.len()));
        let enough = flagged(&frame[..end], 0x03);
        bed.refuses_frame_at(29, 1, &part(1, &enough, 0, enough.len()));
    }
}

/// All flags but the two together, any L4 offset, any MSS and any VLAN: delivered, and
/// never held against what the frame carries.
#[test]
fn other_hints_are_ignored() {
    let mut bed = Bed::new();
    for frame in [
        over_ipv4(5, TCP, 60),
        over_ipv4(6, UDP, 60),
        over_ipv6(TCP, 60),
        over_ipv6(UDP, 60),
        inner(60),
    ] {
        for flags in (0..=255u8).filter(|flags| flags & 3 != 3) {
            let stt = flagged(&frame, flags);
            bed.completes(&stt, &part(1, &stt, 0, 78));
        }
        for l4_offset in 0..=255 {
            let stt = with(&flagged(&frame, 0x0C), |f| f[2] = l4_offset);
            bed.completes(&stt, &part(1, &stt, 0, 78));
        }
        for at in (3..8).chain([16, 17]) {
            for flags in [0x00, 0x01, 0x02, 0x0E] {
                let stt = with(&flagged(&frame, flags), |f| f[at] = 0xFF);
                bed.completes(&stt, &part(1, &stt, 0, 78));
            }
        }
    }
}

#[test]
fn a_packet_with_tcp_whole() {
    let mut frame = hex("02 00 00 00 00 02 02 00 00 00 00 01 08 00
         45 00 00 28 12 34 40 00 40 06 a7 48 c0 a8 00 01 c0 a8 00 02
         04 d2 00 50 00 00 00 01 00 00 00 00 50 02 20 00 09 6c 00 00");
    let head = "45 00 00 70 00 00 40 00 40 06 26 86 0a 00 00 01 0a 00 00 02";
    let context = "00 00 00 00 00 01 23 45 67 89 ab cd ef 00 00";
    let (packet, _) = writes(&writer(1500), (2, 0), &frame, 1500);
    let expected = [
        hex(head),
        hex("cc 03 1d 2f 00 48 00 00 00 00 00 05 50 18 00 00 67 3c 00 00"),
        hex("00 0c 22"),
        hex(context),
        frame.clone(),
    ];
    assert_eq!(packet, expected.concat());
    // The same frame by UDP.
    frame[23] = UDP;
    let (packet, _) = writes(&writer(1500), (2, 0), &frame, 1500);
    let expected = [
        hex(head),
        hex("cc 03 1d 2f 00 48 00 00 00 00 00 05 50 18 00 00 67 39 00 00"),
        hex("00 04 22"),
        hex(context),
        frame.clone(),
    ];
    assert_eq!(packet, expected.concat());
}

/// The hints stand in the first segment alone, whichever is written first, and the
/// segments' bytes in a row are the STT frame.
#[test]
fn frames_in_several_segments() {
    for (mtu, length, count) in [(576, 519, 2), (576, 1514, 3), (1500, 1443, 2)] {
        let endpoint = writer(mtu);
        for (frame, found) in [
            (over_ipv4(5, TCP, length), Some((0x0C, 34))),
            (over_ipv4(15, UDP, length), Some((0x04, 74))),
            (over_ipv6(TCP, length), Some((0x08, 54))),
            (over_ipv6(UDP, length), Some((0x00, 54))),
            (inner(length), None),
        ] {
            let mut parts = Vec::new();
            for segment in (0..count).rev() {
                let (packet, segments) = writes(&endpoint, (2, segment), &frame, 1600);
                assert_eq!(segments, count);
                let mut mended = packet.clone();
                mend(&mut mended);
                assert_eq!(packet, mended, "checksums");
                parts.insert(0, packet[40..].to_vec());
            }
            assert_eq!(parts.concat(), whole(&frame, found));
        }
    }
}

/// What is written is never refused for its hints.
#[test]
fn a_matching_endpoint_takes_the_hints() {
    let (mut matching, _) = Endpoint::start(PEER, PORT.into(), 576);
    matching.add_peer(OWN);
    matching.add_binding(0, 3, CONTEXT, 77);
    let mut memory = vec![0xA5; ENOUGH];
    for frame in [
        over_ipv4(5, TCP, 34),
        over_ipv4(15, UDP, 74),
        over_ipv6(TCP, 54),
        over_ipv6(UDP, 54),
    ] {
        let (packet, _) = writes(&writer(1500), (2, 0), &frame, 1500);
        let answer = matching.receive(&packet, &mut memory);
        assert_eq!((answer.code, answer.tenant), (0, Some(77)));
        let got = view(&packet, &memory, answer.place);
        assert_eq!(got, frame);
    }
}

/// VXLAN and NVGRE have no hints: TCP or UDP inside changes nothing but the frame.
#[test]
fn the_other_kinds_have_no_hints() {
    let mut bed = Bed::new();
    for frame in [over_ipv4(5, TCP, 60), over_ipv6(UDP, 60)] {
        let (packet, _) = writes(&writer(1500), (0, 0), &frame, 1500);
        assert_eq!(packet[28..36], [8, 0, 0, 0, 0, 0, 22, 0]);
        assert_eq!(packet[36..], frame);
        let (packet, _) = writes(&writer(1500), (1, 0), &frame, 1500);
        assert_eq!(packet[20..28], [0x20, 0, 0x65, 0x58, 0, 0x10, 0, 0]);
        assert_eq!(packet[28..], frame);
        bed.delivers(101, 0, &frame, &vxlan(PEER, 22, &frame));
        bed.delivers(102, 1, &frame, &nvgre(PEER, 4096, &frame));
    }
}
