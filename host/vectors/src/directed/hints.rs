//! The look into the inner frame (document 02, section 5): the hints that the header of
//! an STT frame is written with, and both flags set on receipt: 29 where TCP or UDP
//! is found, and nothing where it is not.

use super::*;
use crate::packet::*;

pub const CASES: &[(&str, Case)] = &[
    ("the four hints, and none", kinds),
    ("IPv4 header lengths", ipv4_lengths),
    ("IPv6 header lengths", ipv6_lengths),
    ("IP versions", versions),
    ("types", types),
    ("fragments", fragments),
    ("protocols and extension headers", protocols),
    ("tags in front of IP", tags),
    ("place of 29", place),
    ("a byte of the look in the last segment", last_bytes),
    ("bytes behind the frame", earlier_bytes),
    ("hints that are ignored", ignored),
    ("hints in several segments", several_segments),
];

/// Flags and L4 offset where TCP or UDP is found.
type Found = Option<(u8, u8)>;

/// An inner frame of `length` bytes with an IPv4 header of `words` words, or with what
/// of it there is room for.
fn over_ipv4(prng: &mut Prng, words: u8, protocol: u8, length: usize) -> Vec<u8> {
    let mut frame = inner(prng, length.max(34));
    put_ipv4(&mut frame, words, protocol);
    frame.truncate(length);
    frame
}

/// The same with an IPv6 header.
fn over_ipv6(prng: &mut Prng, next_header: u8, length: usize) -> Vec<u8> {
    let mut frame = inner(prng, length.max(54));
    put_ipv6(&mut frame, next_header);
    frame.truncate(length);
    frame
}

fn with(frame: &[u8], change: impl FnOnce(&mut [u8])) -> Vec<u8> {
    let mut copy = frame.to_vec();
    change(&mut copy);
    copy
}

/// The STT frame around an inner frame, with these flags.
fn flagged(frame: &[u8], flags: u8) -> Vec<u8> {
    with(&stt_frame(CONTEXT, frame), |stt| stt[1] = flags)
}

/// The STT frame that is to be written for an inner frame.
fn written(frame: &[u8], found: Found) -> Vec<u8> {
    let (flags, l4_offset) = found.unwrap_or((0, 0));
    with(&flagged(frame, flags), |stt| stt[2] = l4_offset)
}

/// A complete STT frame in one segment.
fn whole(r: &mut Recorder, code: u8, offset: usize, stt: &[u8]) {
    r.receive_at(code, offset, &part(1, stt, 0, stt.len()));
}

/// Both sides of the look, of a frame without a tag: what is written, and the answer to
/// both flags.
fn look(r: &mut Recorder, frame: &[u8], found: Found) {
    r.wrap(0, 2, 0, 58 + frame.len(), frame);
    let packet = r.driver.written();
    assert!(packet[40..] == written(frame, found), "case {}", r.case);
    let (code, offset) = if found.is_some() { (29, 1) } else { (0, 0) };
    whole(r, code, offset, &flagged(frame, 0x03));
}

fn kinds(r: &mut Recorder, prng: &mut Prng) {
    set_up(r, prng.draw() as u32);
    look(r, &over_ipv4(prng, 5, TCP, 34), Some((0x0C, 34)));
    look(r, &over_ipv4(prng, 5, UDP, 34), Some((0x04, 34)));
    look(r, &over_ipv6(prng, TCP, 54), Some((0x08, 54)));
    // Found, although its flags are 0.
    look(r, &over_ipv6(prng, UDP, 54), Some((0x00, 54)));
    look(r, &T, None);
    let arp = with(&inner(prng, 42), |f| put16(f, 12, 0x0806));
    look(r, &arp, None);
}

/// The header ends with the frame, or one byte behind it.
fn ipv4_lengths(r: &mut Recorder, prng: &mut Prng) {
    set_up(r, prng.draw() as u32);
    for words in [5, 6, 9, 14, 15] {
        let end = 14 + 4 * words;
        let frame = over_ipv4(prng, words, TCP, end.into());
        look(r, &frame, Some((0x0C, end)));
        look(r, &frame[..frame.len() - 1], None);
    }
    for words in 0..5 {
        look(r, &over_ipv4(prng, words, UDP, 34), None);
    }
    look(r, &over_ipv4(prng, 15, UDP, 99), Some((0x04, 74)));
    // Nothing but the type, and a first byte without the rest.
    for length in [14, 15, 20, 24] {
        look(r, &over_ipv4(prng, 5, TCP, length), None);
    }
}

fn ipv6_lengths(r: &mut Recorder, prng: &mut Prng) {
    set_up(r, prng.draw() as u32);
    for (next_header, flags) in [(TCP, 0x08), (UDP, 0x00)] {
        look(r, &over_ipv6(prng, next_header, 55), Some((flags, 54)));
        look(r, &over_ipv6(prng, next_header, 54), Some((flags, 54)));
        for length in [53, 34, 21, 15, 14] {
            look(r, &over_ipv6(prng, next_header, length), None);
        }
    }
}

fn versions(r: &mut Recorder, prng: &mut Prng) {
    set_up(r, prng.draw() as u32);
    let four = over_ipv4(prng, 5, TCP, 54);
    let six = over_ipv6(prng, TCP, 54);
    for version in [0, 2, 3, 5, 6, 7, 12] {
        look(r, &with(&four, |f| f[14] = version << 4 | 5), None);
    }
    for version in [0, 2, 4, 5, 7, 14] {
        look(r, &with(&six, |f| f[14] = version << 4 | 5), None);
    }
    // Beside an IPv6 version stands no length.
    for low in [0, 4, 15] {
        look(r, &with(&six, |f| f[14] = 0x60 | low), Some((0x08, 54)));
    }
}

fn types(r: &mut Recorder, prng: &mut Prng) {
    set_up(r, prng.draw() as u32);
    // The protocol stands where either header has it.
    let both = |f: &mut [u8]| {
        put16(f, 20, 0x0600);
        f[23] = TCP;
    };
    let four = over_ipv4(prng, 5, TCP, 54);
    let six = over_ipv6(prng, TCP, 54);
    for frame in [four.clone(), with(&four, both)] {
        look(r, &with(&frame, |f| put16(f, 12, 0x86DD)), None);
    }
    look(r, &with(&six, |f| put16(f, 12, 0x0800)), None);
    for kind in [0x0801, 0x0900, 0x0808, 0x0008, 46, 1500, 0x9100] {
        look(r, &with(&four, |f| put16(f, 12, kind)), None);
    }
    for kind in [0x86DC, 0x86DE, 0x87DD, 0xDD86, 46, 1500] {
        look(r, &with(&six, |f| put16(f, 12, kind)), None);
    }
}

/// More-fragments and DF are free; only the offset counts, each of its bits.
fn fragments(r: &mut Recorder, prng: &mut Prng) {
    set_up(r, prng.draw() as u32);
    let tcp = over_ipv4(prng, 5, TCP, 34);
    let udp = over_ipv4(prng, 5, UDP, 34);
    for word in [0x0000, 0x2000, 0x4000, 0x8000, 0xE000] {
        look(r, &with(&tcp, |f| put16(f, 20, word)), Some((0x0C, 34)));
        look(r, &with(&udp, |f| put16(f, 20, word)), Some((0x04, 34)));
    }
    for bit in 0..13 {
        look(r, &with(&tcp, |f| put16(f, 20, 1 << bit)), None);
    }
    for word in [0x2001, 0x5000, 0x3FFF, 0xFFFF] {
        look(r, &with(&udp, |f| put16(f, 20, word)), None);
    }
}

fn protocols(r: &mut Recorder, prng: &mut Prng) {
    set_up(r, prng.draw() as u32);
    for protocol in [0, 1, 2, 5, 7, 16, 18, 41, 47, 132, 255] {
        look(r, &over_ipv4(prng, 5, protocol, 34), None);
    }
    // Each extension header says that TCP follows.
    for next_header in [0, 43, 44, 50, 51, 60, 1, 5, 7, 16, 18, 58, 59] {
        let frame = with(&over_ipv6(prng, next_header, 62), |f| f[54] = TCP);
        look(r, &frame, None);
    }
}

/// A tag hides what is behind it: 13 where the network is listed, else 12.
fn tags(r: &mut Recorder, prng: &mut Prng) {
    set_up(r, prng.draw() as u32);
    let mut frame = over_ipv4(prng, 5, TCP, 34);
    frame.splice(12..12, [0x81, 0x00, 0, 9]);
    let six = over_ipv6(prng, UDP, 54);
    let retyped = with(&six, |f| put16(f, 12, 0x88A8));
    for frame in [frame, retyped] {
        let stt = flagged(&frame, 0x03);
        whole(r, 13, 0, &stt);
        whole(r, 12, 0, &with(&stt, |stt| stt[15] ^= 1));
        r.wrap(13, 2, 0, 200, &frame);
    }
}

/// Behind 28 and before 12; a header of one byte less has no 29.
fn place(r: &mut Recorder, prng: &mut Prng) {
    set_up(r, prng.draw() as u32);
    let four = over_ipv4(prng, 6, UDP, 38);
    let six = over_ipv6(prng, UDP, 54);
    for (frame, found) in [
        (&four[..], true),
        (&four[..37], false),
        (&six, true),
        (&six[..53], false),
    ] {
        let unlisted = with(&flagged(frame, 0x03), |stt| stt[8] ^= 0x80);
        let (code, offset) = if found { (29, 1) } else { (12, 0) };
        whole(r, code, offset, &unlisted);
        whole(r, 28, 0, &with(&unlisted, |stt| stt[0] = 1));
        whole(r, 28, 0, &with(&flagged(frame, 0x03), |stt| stt[0] = 0x80));
    }
}

/// Whichever byte comes last, its segment gets the answer; of the frame of another kind
/// too.
fn last_bytes(r: &mut Recorder, prng: &mut Prng) {
    set_up(r, prng.draw() as u32);
    let four = flagged(&over_ipv4(prng, 5, TCP, 34), 0x03);
    for at in [1, 18 + 12, 18 + 14, 18 + 21, 18 + 23] {
        let parts = cut(FROM_A, PORT, 1, &four, &[at, at + 1]);
        r.receive(1, &parts[2]);
        r.receive(1, &parts[0]);
        r.receive_at(29, 1, &parts[1]);
    }
    // The last byte of the IP header is not looked at, but must be there.
    r.receive(1, &part(1, &four, 0, 51));
    r.receive_at(29, 1, &part(1, &four, 51, 52));
    let six = flagged(&over_ipv6(prng, UDP, 54), 0x03);
    for at in [1, 18 + 13, 18 + 14, 18 + 20] {
        let parts = cut(FROM_A, PORT, 1, &six, &[at, at + 1]);
        r.receive(1, &parts[1]);
        r.receive(1, &parts[2]);
        r.receive_at(29, 1, &parts[0]);
    }
    let later = with(&four, |stt| put16(stt, 18 + 20, 1));
    let parts = cut(FROM_A, PORT, 1, &later, &[39, 40]);
    r.receive(1, &parts[2]);
    r.receive(1, &parts[0]);
    r.receive(0, &parts[1]);
}

/// The slot still has the bytes of a longer frame; they are none of the next one's.
fn earlier_bytes(r: &mut Recorder, prng: &mut Prng) {
    set_up(r, prng.draw() as u32);
    let four = over_ipv4(prng, 5, TCP, 60);
    let six = over_ipv6(prng, UDP, 60);
    for (frame, end) in [(four, 34), (six, 54)] {
        whole(r, 29, 1, &flagged(&frame, 0x03));
        whole(r, 0, 0, &flagged(&frame[..end - 1], 0x03));
        whole(r, 29, 1, &flagged(&frame[..end], 0x03));
    }
}

/// No flags but the two together count, and no other field: right ones, wrong ones or
/// none.
fn ignored(r: &mut Recorder, prng: &mut Prng) {
    set_up(r, prng.draw() as u32);
    let four = over_ipv4(prng, 5, TCP, 34);
    let six = over_ipv6(prng, UDP, 54);
    for frame in [four, six] {
        for flags in [0, 1, 2, 4, 8, 0x10, 0x20, 0x40, 0x80, 0xFD, 0xFE] {
            whole(r, 0, 0, &flagged(&frame, flags));
        }
        for l4_offset in [14, 34, 54, 255] {
            let stt = with(&flagged(&frame, 0x0C), |stt| stt[2] = l4_offset);
            whole(r, 0, 0, &stt);
        }
        let all = with(&flagged(&frame, 0xFE), |stt| {
            stt[2..8].fill(0xFF);
            stt[16..18].fill(0xFF);
        });
        whole(r, 0, 0, &all);
        let both = with(&all, |stt| stt[1] = 0xFF);
        whole(r, 29, 1, &both);
    }
}

/// The hints stand in the first segment, and the segments' bytes in a row are the STT
/// frame; a matching endpoint takes them in any order.
fn several_segments(r: &mut Recorder, prng: &mut Prng) {
    let tcp = over_ipv4(prng, 15, TCP, 519);
    let udp = over_ipv6(prng, UDP, 1055);
    for (frame, count, found) in [(tcp, 2, (0x0C, 74)), (udp, 3, (0x00, 54))] {
        r.start(0, OWN, PORT, 576);
        r.peer(0, PEER_A);
        r.binding(0, 0, STT, CONTEXT, 3);
        let mut packets = r.wrap_all(0, prng.draw() as u32, &frame);
        let parts: Vec<_> = packets.iter().map(|packet| &packet[40..]).collect();
        assert_eq!(parts.len(), count, "case {}", r.case);
        let stt = written(&frame, Some(found));
        assert!(parts.concat() == stt, "case {}", r.case);
        prng.shuffle(&mut packets);
        r.start(0, PEER_A, PORT, 1500);
        r.peer(0, OWN);
        r.binding(0, 0, STT, CONTEXT, 77);
        r.lend(ENOUGH, prng.draw() as u32);
        for (number, packet) in (1..).zip(&packets) {
            r.receive(u8::from(number < count), packet);
        }
        assert!(r.driver.handed_back() == frame, "case {}", r.case);
    }
}
