//! Directed runs through the library and the reference reassembler: a frame of 65 segments,
//! one of 64, what comes before 32 and what comes after it, orders, overlaps, repeats, all
//! peers at once, ticks, and the memory that is lent.

use beside::counts::{Counts, Event};
use beside::reassembler::{BLOCK_BYTES, MEMORY_NEEDED, REBUILT, SEGMENTS, TOO_MANY};
use beside::scene::{endpoint, from, ordered, pieces, Sent, VNI};
use beside::sides::{Codes, Memories};
use beside::{Reassembler, Sides};
use niulassenc::limits::{PEERS, SLOTS};
use niulassenc::{numbers, MEMORY_NEEDED as LIBRARY_NEEDED};
use std::ops::Range;
use vectors::directed::{good_frame, inner, with_tcp, CONTEXT};
use vectors::driver::memory_contents;
use vectors::packet::{raw_byte, stt_frame, vxlan, with_byte, T};
use vectors::prng::Prng;

/// One byte more than as many segments as are kept can have, one each.
const LONG: usize = SEGMENTS + 1;

/// Both with eight peers and the least memory.
fn sides(prng: &mut Prng) -> Sides {
    Sides::new(&endpoint(PEERS), Memories::least(prng.draw() as u32))
}

fn receive(sides: &mut Sides, packet: &[u8]) -> Codes {
    sides.receive(packet).unwrap_or_else(|why| panic!("{why}"))
}

/// Both answer this.
fn expect(sides: &mut Sides, code: u8, packet: &[u8]) {
    let both = Codes {
        library: code,
        reference: code,
    };
    assert_eq!(receive(sides, packet), both);
}

/// The reference reassembler answers 32, where the library answers this.
fn expect_32(sides: &mut Sides, library: u8, packet: &[u8]) {
    let codes = Codes {
        library,
        reference: TOO_MANY,
    };
    assert_eq!(receive(sides, packet), codes);
}

fn tick(sides: &mut Sides) {
    sides.tick().unwrap_or_else(|why| panic!("{why}"));
}

/// The frame's last segment is delivered to this tenant, as it was sent.
fn delivered(sides: &mut Sides, tenant: u16, sent: &Sent, bytes: Range<usize>) {
    let packet = sent.part(bytes);
    expect(sides, 0, &packet);
    assert_eq!(sides.last().tenant, tenant);
    assert_eq!(sides.delivered(&packet), &sent.frame[18..]);
}

fn good(prng: &mut Prng, peer: usize, identifier: u32, length: usize) -> Sent {
    Sent {
        path: from(peer),
        identifier,
        frame: good_frame(prng, length),
    }
}

/// The first so many one-byte segments, in some order; all of them are taken.
fn fill(sides: &mut Sides, prng: &mut Prng, sent: &Sent, count: usize) {
    let bytes = (0..count).map(|at| at..at + 1).collect();
    for byte in ordered(prng, bytes) {
        expect(sides, 1, &sent.part(byte));
    }
}

/// A frame of which as many segments are taken as are kept, and its last bytes miss.
fn filled(sides: &mut Sides, prng: &mut Prng, peer: usize, length: usize) -> Sent {
    let sent = good(prng, peer, 1, length);
    fill(sides, prng, &sent, SEGMENTS);
    sent
}

/// Without the comparison's help: two calls on the library and on the reference
/// reassembler as they stand.
#[test]
fn the_65th_segment_is_32_and_changes_nothing_where_the_library_delivers() {
    let prng = &mut Prng::new(65);
    for last in 0..LONG {
        let mut library = endpoint(2);
        let mut reference = Reassembler::start(&library);
        let mut library_memory = memory_contents(LIBRARY_NEEDED, prng.draw() as u32);
        let mut memory = memory_contents(MEMORY_NEEDED, prng.draw() as u32);
        let sent = good(prng, 1, 7, LONG);
        let others = (0..LONG).filter(|&at| at != last);
        for byte in ordered(prng, others.map(|at| at..at + 1).collect()) {
            let packet = sent.part(byte);
            assert_eq!(library.receive(&packet, &mut library_memory).code, 1);
            assert_eq!(reference.receive(&packet, &mut memory).code, 1);
        }
        let packet = sent.part(last..last + 1);

        let receipt = library.receive(&packet, &mut library_memory);
        assert_eq!((receipt.code, receipt.tenant), (0, 101));
        let frame = receipt.place.view(&packet, &library_memory);
        assert_eq!(frame, &sent.frame[18..]);

        let (before, memory_before) = (reference.clone(), memory.clone());
        let receipt = reference.receive(&packet, &mut memory);
        assert_eq!((receipt.code, receipt.offset), (32, 0));
        assert_eq!((receipt.tenant, receipt.binding), (0xFFFF, 0xFFFF));
        assert_eq!(receipt.place, niulassenc::Place::default());
        assert!(reference.reads_as(&before));
        assert_eq!(memory, memory_before);
        assert_eq!(reference.frames(1).len(), 1);
        assert_eq!(usize::from(reference.frames(1)[0].count), SEGMENTS);
    }
}

#[test]
fn frames_of_65_segments_of_any_cut_are_32_at_the_last() {
    let prng = &mut Prng::new(1);
    let mut counts = Counts::default();
    for round in 0..200 {
        let length = [65, 66, 100, 500, 1531, 1532][round % 6];
        let mut sides = sides(prng);
        let identifier = prng.draw() as u32;
        let sent = good(prng, round % PEERS, identifier, length);
        let cut = pieces(prng, length, LONG);
        let mut cut = ordered(prng, cut);
        let last = cut.pop().expect("65 pieces");
        for piece in cut {
            expect(&mut sides, 1, &sent.part(piece));
        }
        for _ in 0..3 {
            expect_32(&mut sides, 0, &sent.part(last.clone()));
        }
        counts.add(&sides.counts);
    }
    counts.at_least(&[(Event::Answer(TOO_MANY), 600), (Event::Answer(1), 12_800)]);
}

#[test]
fn frames_of_64_segments_are_delivered_by_both() {
    let prng = &mut Prng::new(2);
    let mut counts = Counts::default();
    for round in 0..200 {
        let length = [64, 65, 100, 500, 1531, 1532][round % 6];
        let peer = round % PEERS;
        let mut sides = sides(prng);
        let identifier = prng.draw() as u32;
        let sent = good(prng, peer, identifier, length);
        let cut = pieces(prng, length, SEGMENTS);
        let mut cut = ordered(prng, cut);
        let last = cut.pop().expect("64 pieces");
        for piece in &cut {
            expect(&mut sides, 1, &sent.part(piece.clone()));
        }
        delivered(&mut sides, 100 + peer as u16, &sent, last);
        // A late repeat opens a frame anew.
        expect(&mut sides, 1, &sent.part(cut[0].clone()));
        counts.add(&sides.counts);
    }
    counts.at_least(&[(Event::ReassembledOf64, 200), (Event::Answer(1), 12_800)]);
}

#[test]
fn what_comes_before_32_is_answered_before_it() {
    let prng = &mut Prng::new(3);
    let mut sides = sides(prng);
    let length = SEGMENTS + 6;
    let sent = filled(&mut sides, prng, 0, length);
    let missing = SEGMENTS..length;
    let fresh = &sent.frame[missing.clone()];

    // 14: empty, outside its frame, or of a frame too short or too long.
    for offset in [0, SEGMENTS, length] {
        expect(&mut sides, 14, &sent.labelled(length, offset, &[]));
    }
    for offset in [SEGMENTS + 1, length, 65_535] {
        expect(&mut sides, 14, &sent.labelled(length, offset, fresh));
    }
    for other in [0, 31, 1533, 65_535] {
        expect(&mut sides, 14, &sent.labelled(other, SEGMENTS, &fresh[..1]));
    }
    // 15: another length, of bytes that miss and of bytes that are there.
    for other in [length - 1, length + 1, 1532] {
        expect(&mut sides, 15, &sent.labelled(other, SEGMENTS, &fresh[..1]));
        expect(&mut sides, 15, &sent.labelled(other, 3, &[1]));
    }
    // 16: some byte is there.
    for at in 0..SEGMENTS {
        expect(&mut sides, 16, &sent.part(at..at + 1));
        expect(&mut sides, 16, &sent.part(at..length));
    }
    // The packet's own checks.
    let packet = sent.part(missing.clone());
    expect(&mut sides, 4, &raw_byte(&packet, 8, 63));
    expect(&mut sides, 6, &with_byte(&packet, 19, 9));
    expect(&mut sides, 7, &with_byte(&packet, 15, 99));
    expect(&mut sides, 8, &with_byte(&packet, 23, 0));
    expect(&mut sides, 10, &raw_byte(&packet, 40, packet[40] ^ 1));
    // 32 for any bytes that miss, complete with them or not.
    for from in missing.clone() {
        for to in from + 1..=length {
            let library = u8::from((from..to) != missing);
            expect_32(&mut sides, library, &sent.part(from..to));
        }
    }
    // 17 is for others: the frame itself is pending.
    for identifier in 2..5 {
        let other = good(prng, 0, identifier, 40);
        expect(&mut sides, 1, &other.part(0..20));
    }
    let fifth = good(prng, 0, 5, 40);
    expect(&mut sides, 17, &fifth.part(0..20));
    expect_32(&mut sides, 0, &packet);
    expect(&mut sides, 16, &sent.part(0..1));
    sides.counts.at_least(&[
        (Event::RefusedOf64(14), 10),
        (Event::RefusedOf64(15), 6),
        (Event::RefusedOf64(16), 129),
        (Event::InsteadOf32(0), 2),
        (Event::InsteadOf32(1), 20),
    ]);
}

/// A complete frame that the library refuses is 32 too, where its last segment is the 65th;
/// and is refused by both where that is the 64th.
#[test]
fn the_65th_segment_of_a_bad_frame_is_32() {
    let prng = &mut Prng::new(4);
    let mut counts = Counts::default();
    for (code, segments) in [28, 29, 12, 13]
        .into_iter()
        .flat_map(|c| [(c, 64), (c, 65)])
    {
        let mut sides = sides(prng);
        let mut bytes = with_tcp(prng, 80);
        if code == 13 {
            bytes[12..14].copy_from_slice(&[0x88, 0xA8]);
        }
        let context = if code == 12 { CONTEXT ^ 1 } else { CONTEXT };
        let mut frame = stt_frame(context, &bytes);
        frame[0] = u8::from(code == 28);
        frame[1] = if code == 29 { 3 } else { 0 };
        let sent = Sent {
            path: from(3),
            identifier: 9,
            frame,
        };
        fill(&mut sides, prng, &sent, segments - 1);
        let last = sent.part(segments - 1..sent.frame.len());
        if segments == SEGMENTS {
            expect(&mut sides, code, &last);
            assert_eq!(sides.taken(sent.path.from, 9), 0);
        } else {
            expect_32(&mut sides, code, &last);
            assert_eq!(sides.taken(sent.path.from, 9), SEGMENTS);
        }
        counts.add(&sides.counts);
    }
    for code in [28, 29, 12, 13] {
        counts.at_least(&[(Event::Answer(code), 1), (Event::InsteadOf32(code), 1)]);
    }
}

#[test]
fn a_frame_that_met_32_ages_and_others_are_delivered() {
    let prng = &mut Prng::new(5);
    for ticks_before in 0..4 {
        let mut sides = sides(prng);
        let sent = good(prng, 2, 1, LONG);
        let last = SEGMENTS..LONG;
        // Some of its segments come between the ticks; the first one's age counts.
        expect(&mut sides, 1, &sent.part(0..1));
        for _ in 0..ticks_before {
            tick(&mut sides);
        }
        for at in 1..SEGMENTS {
            expect(&mut sides, 1, &sent.part(at..at + 1));
        }
        for _ in ticks_before..3 {
            expect_32(&mut sides, 0, &sent.part(last.clone()));
            tick(&mut sides);
        }
        expect_32(&mut sides, 0, &sent.part(last.clone()));
        // Others: of this peer and another, in one segment and in two, and VXLAN.
        for peer in [2, 3] {
            let other = good(prng, peer, 2, 60);
            delivered(&mut sides, 100 + peer as u16, &other, 0..60);
            expect(&mut sides, 1, &other.part(30..60));
            delivered(&mut sides, 100 + peer as u16, &other, 0..30);
            let packet = vxlan(from(peer), VNI, &T);
            expect(&mut sides, 0, &packet);
            assert_eq!(sides.delivered(&packet), T);
        }
        expect_32(&mut sides, 0, &sent.part(last.clone()));
        // The fourth tick gives it up; the identifier begins anew.
        tick(&mut sides);
        assert!(sides.reference().frames(2).is_empty());
        expect(&mut sides, 1, &sent.part(last.clone()));
        delivered(&mut sides, 102, &sent, 0..SEGMENTS);
        sides.counts.at_least(&[(Event::GivenUpOf64, 1)]);
    }
}

/// Every order of some items (Heap's algorithm).
fn orders(items: &mut Vec<Range<usize>>, count: usize, each: &mut impl FnMut(&[Range<usize>])) {
    if count <= 1 {
        return each(items);
    }
    for at in 0..count {
        orders(items, count - 1, each);
        items.swap(if count % 2 == 0 { at } else { 0 }, count - 1);
    }
}

#[test]
fn five_segments_in_every_order_with_repeats_and_overlaps_between() {
    let prng = &mut Prng::new(6);
    let mut sides = sides(prng);
    let mut identifier = 0;
    for length in [32, 90, 1532] {
        let mut cut = pieces(prng, length, 5);
        orders(&mut cut, 5, &mut |order| {
            identifier += 1;
            let peer = prng.below(PEERS);
            let sent = good(prng, peer, identifier, length);
            let (last, others) = order.split_last().expect("five");
            for piece in others {
                expect(&mut sides, 1, &sent.part(piece.clone()));
                expect(&mut sides, 16, &sent.part(piece.clone()));
                expect(&mut sides, 16, &sent.part(piece.start..length));
                expect(&mut sides, 16, &sent.part(0..piece.end));
                let bytes = &sent.frame[piece.clone()];
                let other = if length == 1532 { 1531 } else { length + 1 };
                let code = if piece.end > other { 14 } else { 15 };
                expect(&mut sides, code, &sent.labelled(other, piece.start, bytes));
            }
            delivered(&mut sides, 100 + peer as u16, &sent, last.clone());
        });
    }
    sides.counts.at_least(&[
        (Event::Reassembled, 360),
        (Event::Answer(16), 4320),
        (Event::Answer(15), 1300),
    ]);
}

/// Every byte of what the peers can have pending at once.
#[test]
fn eight_peers_have_four_frames_each_pending_at_once() {
    let prng = &mut Prng::new(7);
    for segments in [2, 3, SEGMENTS] {
        let mut sides = sides(prng);
        let mut waiting: Vec<(usize, Sent, Vec<Range<usize>>)> = Vec::new();
        for peer in 0..PEERS {
            for number in 0..SLOTS {
                // The same identifiers at every peer.
                let sent = good(prng, peer, number as u32, 1532);
                let cut = pieces(prng, 1532, segments);
                waiting.push((peer, sent, ordered(prng, cut)));
            }
        }
        // All frames are open before any is complete.
        prng.shuffle(&mut waiting);
        for (_, sent, cut) in &mut waiting {
            expect(&mut sides, 1, &sent.part(cut.remove(0)));
        }
        for peer in 0..PEERS {
            let fifth = good(prng, peer, 99, 40);
            expect(&mut sides, 17, &fifth.part(0..40));
            assert_eq!(sides.reference().frames(peer).len(), SLOTS);
        }
        tick(&mut sides);
        // Up to the last segment of each, mixed; then the last of each.
        let mut at: Vec<usize> = (0..waiting.len())
            .flat_map(|frame| vec![frame; segments - 2])
            .collect();
        prng.shuffle(&mut at);
        for frame in at {
            let (_, sent, cut) = &mut waiting[frame];
            expect(&mut sides, 1, &sent.part(cut.remove(0)));
        }
        tick(&mut sides);
        for (peer, sent, mut cut) in waiting {
            delivered(&mut sides, 100 + peer as u16, &sent, cut.remove(0));
        }
        let frames = (PEERS * SLOTS) as u64;
        sides.counts.at_least(&[(Event::Reassembled, frames)]);
    }
}

#[test]
fn frames_last_three_ticks_and_not_four() {
    let prng = &mut Prng::new(8);
    let mut sides = sides(prng);
    // One is opened before each tick: they go one by one.
    let all: Vec<Sent> = (0..SLOTS).map(|n| good(prng, 4, n as u32, 50)).collect();
    for sent in &all {
        expect(&mut sides, 1, &sent.part(0..25));
        tick(&mut sides);
    }
    for (gone, sent) in (1..).zip(&all) {
        let left = sides.reference().frames(4);
        assert_eq!(left.len(), SLOTS - gone);
        assert!(left.iter().all(|f| f.identifier != sent.identifier));
        tick(&mut sides);
    }
    // Three ticks are not too many.
    for sent in &all {
        expect(&mut sides, 1, &sent.part(0..25));
    }
    for _ in 0..3 {
        tick(&mut sides);
    }
    for sent in &all {
        delivered(&mut sides, 104, sent, 25..50);
    }
    sides.counts.at_least(&[(Event::GivenUp, SLOTS as u64)]);
}

/// In less than 50,688 bytes everything is 2, and nothing changes.
#[test]
fn too_little_memory_is_2() {
    let prng = &mut Prng::new(9);
    let sent = good(prng, 0, 1, 40);
    let packets = [
        sent.part(0..20),
        sent.part(20..40),
        sent.part(0..40),
        vxlan(from(0), VNI, &T),
        vxlan(from(0), VNI, &inner(prng, 13)),
        with_byte(&sent.part(0..40), 15, 99),
        Vec::new(),
    ];
    assert_eq!((REBUILT, MEMORY_NEEDED), (49_152, 50_688));
    let mut reference = Reassembler::start(&endpoint(1));
    let mut memory = memory_contents(MEMORY_NEEDED, 1);
    assert_eq!(reference.receive(&packets[0], &mut memory).code, 1);
    let (before, memory_before) = (reference.clone(), memory.clone());
    for length in [0, 1, BLOCK_BYTES, REBUILT, MEMORY_NEEDED - 1] {
        for packet in &packets {
            let receipt = reference.receive(packet, &mut memory[..length]);
            assert_eq!((receipt.code, receipt.offset), (2, 0), "{length}");
            assert_eq!((receipt.tenant, receipt.binding), (0xFFFF, 0xFFFF));
            assert_eq!(receipt.place, niulassenc::Place::default());
        }
    }
    assert!(reference.reads_as(&before));
    assert_eq!(memory, memory_before);
    let codes = packets.map(|packet| reference.receive(&packet, &mut memory).code);
    assert_eq!(codes, [16, 0, 0, 0, 13, 7, 3]);
    // The library's own limit is another.
    let (mut library, packet) = (endpoint(1), sent.part(0..40));
    let mut memory = vec![0; LIBRARY_NEEDED];
    let too_little = &mut memory[..LIBRARY_NEEDED - 1];
    assert_eq!(library.receive(&packet, too_little).code, 2);
    assert_eq!(library.receive(&packet, &mut memory).code, 0);
}

/// What is pending at the endpoint stays there, and is nothing to the reference
/// reassembler: it starts with no frame pending, and no call changes the endpoint.
#[test]
fn the_endpoint_inside_never_changes() {
    let prng = &mut Prng::new(10);
    let mut library = endpoint(2);
    let mut library_memory = memory_contents(LIBRARY_NEEDED, 1);
    let sent = good(prng, 1, 5, 40);
    let first = library.receive(&sent.part(0..20), &mut library_memory);
    assert_eq!(first.code, 1);
    let begun: numbers::Raw = *library.raw();
    assert!(begun.peers[1].slots[0].pending);

    let mut reference = Reassembler::start(&library);
    let mut memory = memory_contents(MEMORY_NEEDED, 2);
    assert!((0..PEERS).all(|peer| reference.frames(peer).is_empty()));
    let packets = [20..40, 0..10, 0..20, 10..20].map(|part| sent.part(part));
    for (packet, code) in packets.iter().zip([1, 1, 16, 0]) {
        assert_eq!(reference.receive(packet, &mut memory).code, code);
        assert_eq!(*reference.endpoint(), begun);
    }
    for _ in 0..5 {
        reference.tick();
        assert_eq!(*reference.endpoint(), begun);
    }
}
