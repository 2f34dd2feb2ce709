//! STT: the two bytes that a frame begins with, in whichever segments they come.

use crate::look::look;
use crate::rules::{of_frame, Verdict};
use crate::sides::{Sides, ID, WITH_TCP};
use difference::orders::ORDERS;
use vectors::directed::{FROM_A, PORT};
use vectors::packet::{self, header_length, Label, T};

const SLOT: usize = 1728;
const HELD: Verdict = Verdict { code: 1, offset: 0 };

/// The bytes of a frame from one place on, as a packet.
struct Segment {
    packet: Vec<u8>,
    from: usize,
    to: usize,
}

impl Segment {
    /// With so many words of options in both headers of the packet.
    fn new(identifier: u32, frame: &[u8], from: usize, to: usize, words: u8) -> Segment {
        let label = Label::new(PORT, identifier, frame.len(), from);
        let packet = packet::segment(FROM_A, label, &frame[from..to]);
        let packet = packet::with_ip_options(&packet, words);
        let packet = packet::with_tcp_options(&packet, 10 - words);
        Segment { packet, from, to }
    }

    /// Has the bytes of another frame of the same length.
    fn carry(&mut self, frame: &[u8]) {
        let header = header_length(&self.packet);
        let tcp = usize::from(self.packet[header + 12] >> 4) * 4;
        self.packet[header + tcp..].copy_from_slice(&frame[self.from..self.to]);
        packet::repair(&mut self.packet);
    }
}

fn frame(context: u64, inner: &[u8]) -> Vec<u8> {
    packet::stt_frame(context, inner)
}

/// Segments of the frame, cut before these places, in this order.
fn segments(identifier: u32, frame: &[u8], cuts: &[usize], order: &[usize]) -> Vec<Segment> {
    let edges = [&[0], cuts, &[frame.len()]].concat();
    let part = |&number: &usize| {
        let words = (3 * number + order[0] + cuts.len()) % 11;
        let (from, to) = (edges[number], edges[number + 1]);
        Segment::new(identifier, frame, from, to, words as u8)
    };
    order.iter().map(part).collect()
}

/// Frames that stay pending in so many slots: the next one takes the slot behind them.
fn with_pending(count: usize) -> Sides {
    let mut sides = Sides::new();
    for identifier in 0..count as u32 {
        let pending = Segment::new(100 + identifier, &[0xFF; 60], 0, 20, 0);
        sides.receive(&pending.packet, HELD);
    }
    sides
}

/// Every version and every value of the flags in a frame that is cut so, in the slot of
/// this number.
fn every_pair(slot: usize, frame: &mut [u8], parts: &mut [Segment], otherwise: u8) {
    let mut sides = with_pending(slot);
    for pair in 0..=u16::MAX {
        frame[..2].copy_from_slice(&pair.to_be_bytes());
        for part in parts.iter_mut().filter(|part| part.from < 2) {
            part.carry(frame);
        }
        let Some((last, others)) = parts.split_last() else {
            return;
        };
        for part in others {
            sides.receive(&part.packet, HELD);
        }
        sides.receive(&last.packet, of_frame(frame, otherwise));
        let stored = sides.stored(slot * SLOT, frame.len());
        assert!(stored == frame, "{pair:#06x}: the last segment is stored");
    }
    sides.check();
    let refused = if look(&frame[18..]).is_some() { 64 } else { 0 };
    assert_eq!(sides.codes[28], 255 * 256);
    assert_eq!(sides.codes[29], refused);
    assert_eq!(sides.codes[usize::from(otherwise)], 256 - refused);
}

/// The same in every order of the segments that these cuts make.
fn every_pair_cut(cuts: &[usize]) {
    for (number, order) in ORDERS[cuts.len()].iter().enumerate() {
        let mut frame = frame(ID.into(), &WITH_TCP);
        let mut parts = segments(7, &frame, cuts, order);
        let slot = (number + cuts[0]) % 4;
        every_pair(slot, &mut frame, &mut parts, 0);
    }
}

/// In every slot; and with no binding, with a tag, with both, and without a transport
/// header.
#[test]
fn every_version_and_flags_in_one_segment() {
    let mut tagged = WITH_TCP;
    tagged[12..14].copy_from_slice(&[0x81, 0x00]);
    let bound = u64::from(ID);
    for (slot, (otherwise, mut frame)) in [
        (0, frame(bound, &WITH_TCP)),
        (12, frame(bound ^ 1, &WITH_TCP)),
        (13, frame(bound, &tagged)),
        (12, frame(bound ^ 1, &tagged)),
        (0, frame(bound, &T)),
    ]
    .into_iter()
    .enumerate()
    {
        let mut parts = segments(7, &frame, &[], &[0]);
        every_pair(slot % 4, &mut frame, &mut parts, otherwise);
    }
}

#[test]
fn every_version_and_flags_in_two_segments() {
    for cut in [1, 2, 17] {
        every_pair_cut(&[cut]);
    }
}

#[test]
fn every_version_and_flags_in_three_segments() {
    every_pair_cut(&[1, 2]);
}

/// With one of the two bytes behind the other's segment, or both in one.
#[test]
fn every_version_and_flags_in_other_three_segments() {
    every_pair_cut(&[1, 20]);
    every_pair_cut(&[2, 31]);
}

/// What the frames in the four slots have wrong.
const FAULTS: [[u8; 2]; 4] = [[1, 0], [0, 3], [0xFF, 0xFF], [0, 2]];

/// Four frames at a time, each completed in its turn: each has its own offset.
#[test]
fn frames_beside_each_other() {
    let frames = FAULTS.map(|fault| {
        let mut frame = frame(ID.into(), &WITH_TCP);
        frame[..2].copy_from_slice(&fault);
        frame
    });
    for cut in [1, 2, 20] {
        for number in 0..24 {
            let mut sides = Sides::new();
            let parts = [0, 1, 2, 3].map(|slot| {
                let order = ORDERS[1][(number + slot) % 2];
                segments(slot as u32, &frames[slot], &[cut], order)
            });
            for part in &parts {
                sides.receive(&part[0].packet, HELD);
            }
            let mut waiting = vec![0, 1, 2, 3];
            for left in [number % 4, number / 4 % 3, number / 12, 0] {
                let slot = waiting.remove(left);
                let expected = of_frame(&frames[slot], 0);
                sides.receive(&parts[slot][1].packet, expected);
            }
            sides.check();
        }
    }
}

/// A segment that is refused changes nothing: what counts are the bytes received first.
#[test]
fn refused_segments_do_not_count() {
    let good = frame(ID.into(), &WITH_TCP);
    let length = good.len();
    for fault in FAULTS {
        let mut bad = good.clone();
        bad[..2].copy_from_slice(&fault);
        for [first, second] in [[&good, &bad], [&bad, &good]] {
            let mut sides = Sides::new();
            let part = |frame: &[u8], from, to| Segment::new(1, frame, from, to, 0).packet;
            sides.receive(&part(first, 0, 2), HELD);
            sides.receive(&part(second, 0, 2), Verdict::of(16));
            sides.receive(&part(second, 1, length), Verdict::of(16));
            let longer = [&second[..], &[0]].concat();
            sides.receive(&part(&longer, 2, length + 1), Verdict::of(15));
            sides.receive(&part(second, 2, length), of_frame(first, 0));
            sides.check();
        }
    }
}
