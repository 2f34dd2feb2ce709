//! Sums in written packets: the IPv4 header's of every kind, and the TCP segment's of
//! STT.

use crate::aligned::{Aligned, BORDER, MARK};
use crate::contents::{Contents, ALL};
use crate::sides::{Part, SetUp, Sides, SET_UPS};
use crate::slow;
use crate::wide;
use std::ops::RangeInclusive;
use vectors::packet::{get16, put16, TCP, UDP};
use vectors::prng::Prng;

/// The numbers of the bindings.
const VXLAN: u32 = 0;
const NVGRE: u32 = 1;
const STT: u32 = 2;

/// Lengths of an inner frame.
const FRAMES: RangeInclusive<usize> = 14..=1514;

/// Lengths of a written TCP segment.
const SEGMENTS: RangeInclusive<usize> = 21..=1552;

/// MTUs that make segments of odd and of even lengths, one to three of a frame.
const MTUS: [usize; 6] = [576, 577, 1000, 1001, 1500, 1600];

/// The checksums' places in a packet.
const HEADER_FIELD: usize = 10;
const TCP_FIELD: usize = 36;
const UDP_FIELD: usize = 26;

/// An inner frame.
struct Frame {
    contents: Contents,
    bytes: Vec<u8>,
}

impl Frame {
    /// A frame of these contents and without a tag.
    fn new(contents: Contents, length: usize, prng: &mut Prng) -> Frame {
        let mut bytes = contents.bytes(length, prng);
        if matches!(get16(&bytes, 12), 0x8100 | 0x88A8) {
            bytes[12] = 0x08;
        }
        Frame { contents, bytes }
    }
}

/// Both sides of a set-up, and the room for the frame and for the output.
struct Writer {
    set_up: SetUp,
    mtu: usize,
    sides: Sides,
    frame: Aligned,
    output: Aligned,
}

impl Writer {
    fn new(set_up: SetUp, mtu: usize) -> Writer {
        Writer {
            set_up,
            mtu,
            sides: Sides::new(&set_up, mtu as u32),
            frame: Aligned::new(1514),
            output: Aligned::new(1600 + BORDER),
        }
    }

    /// Every STT segment of a frame of so many bytes.
    fn segments(&self, frame: usize, identifier: u32) -> impl Iterator<Item = Part> {
        let segments = (18 + frame).div_ceil(self.mtu - 40);
        (0..segments as u32).map(move |segment| Part::new(STT, segment, identifier))
    }

    /// Bytes of a packet.
    fn length(&self, frame: usize, part: Part) -> usize {
        let room = self.mtu - 40;
        match part.binding {
            VXLAN => 36 + frame,
            NVGRE => 28 + frame,
            _ => 40 + room.min(18 + frame - part.segment as usize * room),
        }
    }

    /// Writes a packet that the MTU allows on both sides, frame and output each at an
    /// offset of its own, into an output that has just enough room or more. It must be
    /// the same, byte by byte, nothing else written, and the checksums those of the
    /// slow sum.
    fn write(&mut self, frame: &Frame, part: Part, offset: usize) -> Vec<u8> {
        let length = self.length(frame.bytes.len(), part);
        let room = length + [0, 1, 8, 64][offset / 16 % 4];
        let lent = self.frame.lend(BORDER - 1 - offset, &frame.bytes, 0);
        let output = self.output.marked(offset, room);
        let mut expected = vec![MARK; room];
        let written = self.sides.wrap(lent, part, output, &mut expected);
        let output = self.output.written(offset, room);
        let wrong = differing(output, &expected).or_else(|| wrong_field(&expected[..length]));
        if written != Ok(length) || wrong.is_some() {
            panic!(
                "{} of {length} bytes, {part:x?}, frame of {} bytes, {:x?}, MTU {}, {}, output at \
                 {offset} of {BORDER}: {written:?}; {}",
                ["VXLAN", "NVGRE", "STT"][part.binding as usize],
                frame.bytes.len(),
                frame.contents,
                self.mtu,
                self.set_up,
                wrong.unwrap_or_default(),
            );
        }
        expected.truncate(length);
        expected
    }
}

/// Tells the first byte that is not the reference's, or that one beside the output was
/// written.
fn differing(output: Option<&[u8]>, expected: &[u8]) -> Option<String> {
    let Some(output) = output else {
        return Some("a byte beside the output was written".to_string());
    };
    if output == expected {
        return None;
    }
    let at = output.iter().zip(expected).position(|(a, b)| a != b)?;
    let (ours, theirs) = (output[at], expected[at]);
    Some(format!(
        "byte {at}: library {ours:#04x}, reference {theirs:#04x}"
    ))
}

/// Tells a checksum that is not the complement of the slow sum over all else.
fn wrong_field(packet: &[u8]) -> Option<String> {
    let header = !slow::sum(&[&packet[..10], &packet[12..20]]);
    let transport = match packet[9] {
        TCP => (TCP_FIELD, !tcp_sum(packet)),
        UDP => (UDP_FIELD, 0),
        _ => (HEADER_FIELD, header),
    };
    let mut fields = [(HEADER_FIELD, header), transport].into_iter();
    let (at, right) = fields.find(|&(at, right)| get16(packet, at) != right)?;
    let field = get16(packet, at);
    Some(format!(
        "bytes {at} and on: library and reference {field:#06x}, by the slow sum {right:#06x}"
    ))
}

/// The sum over pseudo header and segment, without the field.
fn tcp_sum(packet: &[u8]) -> u16 {
    let length = ((packet.len() - 20) as u16).to_be_bytes();
    let pseudo = [0, TCP, length[0], length[1]];
    slow::sum(&[&packet[12..20], &pseudo, &packet[20..36], &packet[38..]])
}

#[test]
fn every_frame_length_is_written_with_its_checksums() {
    let prng = &mut Prng::new(21);
    let mut seen = vec![[false; BORDER]; *SEGMENTS.end() + 1];
    for (turn, mtu) in MTUS.into_iter().enumerate() {
        let mut writer = Writer::new(SET_UPS[turn % SET_UPS.len()], mtu);
        for length in FRAMES {
            for (n, contents) in ALL.into_iter().enumerate() {
                let frame = Frame::new(contents, length, prng);
                for part in writer.segments(length, prng.draw() as u32) {
                    // Eight kinds of contents have every offset.
                    for offset in (n % 8..BORDER).step_by(8) {
                        let packet = writer.write(&frame, part, offset);
                        seen[packet.len() - 20][offset] = true;
                    }
                }
            }
        }
    }
    let unseen = SEGMENTS.filter(|&length| seen[length] != [true; BORDER]);
    assert_eq!(unseen.count(), 0);
}

/// The header's sum is over the packet's length: every length of both kinds.
#[test]
fn every_length_of_vxlan_and_nvgre_is_written_with_its_checksum() {
    let prng = &mut Prng::new(22);
    for set_up in SET_UPS {
        let mut writer = Writer::new(set_up, 1600);
        for (turn, length) in FRAMES.enumerate() {
            let frame = Frame::new(ALL[turn % ALL.len()], length, prng);
            for binding in [VXLAN, NVGRE] {
                for offset in (turn % 8..BORDER).step_by(8) {
                    writer.write(&frame, Part::new(binding, 0, 0), offset);
                }
            }
        }
    }
}

/// Every MTU cuts the longest frames, and one of any length, its own way.
#[test]
fn every_mtu_cuts_segments_with_their_checksums() {
    let prng = &mut Prng::new(23);
    for mtu in 576..=1600 {
        let mut writer = Writer::new(SET_UPS[mtu % SET_UPS.len()], mtu);
        let any = prng.between(14, 1514);
        for (turn, length) in [1514, 1513, any].into_iter().enumerate() {
            let frame = Frame::new(ALL[(mtu + turn) % ALL.len()], length, prng);
            for part in writer.segments(length, 1) {
                writer.write(&frame, part, (mtu + 3 * turn) % BORDER);
            }
        }
    }
}

/// Sums at which a fold that stops too early, or that drops a carry, is off: 1 and a few
/// more, in either order of the bytes, and those just below all ones. All ones are
/// written as 0.
const WANTED: [u16; 12] = [
    0xFFFF, 1, 2, 3, 0x0100, 0x0200, 0x0300, 0xFFFE, 0xFEFF, 0x00FF, 0xFF00, 0x8000,
];

/// Identifiers that make the sum of every segment what is wanted, by either half.
#[test]
fn every_frame_length_is_written_with_sums_next_to_a_carry() {
    let prng = &mut Prng::new(24);
    for (turn, mtu) in [577, 1000, 1600].into_iter().enumerate() {
        let mut writer = Writer::new(SET_UPS[turn], mtu);
        for length in FRAMES {
            for contents in [ALL[length % ALL.len()], Contents::Random] {
                let frame = Frame::new(contents, length, prng);
                for part in writer.segments(length, 0) {
                    steer(&mut writer, &frame, part, length % BORDER);
                }
            }
        }
    }
}

/// Writes a segment for each sum that is wanted, of pseudo header and segment and then
/// of the segment alone. Its identifier is 0 at first.
fn steer(writer: &mut Writer, frame: &Frame, mut part: Part, offset: usize) {
    let alone = |packet: &[u8]| slow::sum(&[&packet[20..36], &packet[38..]]);
    let plain = writer.write(frame, part, offset);
    for (n, wanted) in WANTED.into_iter().enumerate() {
        let mut write = |sum| {
            part.identifier = u32::from(slow::missing(sum, wanted)) << (n % 2 * 16);
            writer.write(frame, part, offset)
        };
        let packet = write(tcp_sum(&plain));
        assert_eq!(get16(&packet, TCP_FIELD), !wanted, "{part:?}");
        let packet = write(alone(&plain));
        assert_eq!(alone(&packet), wanted, "{part:?}");
    }
}

/// Frames that make the sum of a segment's whole 64-bit words what is wanted.
#[test]
fn every_frame_length_is_written_with_sums_of_64_bits_next_to_a_carry() {
    let prng = &mut Prng::new(27);
    for (turn, mtu) in [577, 1000, 1600].into_iter().enumerate() {
        let mut writer = Writer::new(SET_UPS[turn], mtu);
        for length in FRAMES {
            for contents in [ALL[length % ALL.len()], Contents::All(0xFF)] {
                let mut frame = Frame::new(contents, length, prng);
                for part in writer.segments(length, 0) {
                    steer_wide(&mut writer, &mut frame, part, length % BORDER);
                }
            }
        }
    }
}

/// Writes a segment for each sum of its whole 64-bit words that is wanted. The last of
/// them makes it so, if all of it is of the frame, behind what gives the source port.
fn steer_wide(writer: &mut Writer, frame: &mut Frame, part: Part, offset: usize) {
    let at = wide::last_word(writer.length(frame.bytes.len(), part) - 20);
    let sent = part.segment as usize * (writer.mtu - 40);
    let place = (at + sent).saturating_sub(20 + 18);
    if at < 20 || place < 14 {
        return;
    }
    let word = place..place + wide::WORD;
    frame.bytes[word.clone()].fill(0);
    let sum = wide_sum(writer.write(frame, part, offset));
    for wanted in wide::SUMS {
        frame.bytes[word.clone()].copy_from_slice(&wide::missing(sum, wanted));
        let packet = writer.write(frame, part, offset);
        assert_eq!(wide_sum(packet), wanted, "{part:x?}");
    }
}

/// The sum of the segment's whole 64-bit words, without the field.
fn wide_sum(mut packet: Vec<u8>) -> u64 {
    put16(&mut packet, TCP_FIELD, 0);
    wide::sum(&packet[20..])
}

/// Every lower half of an identifier: every TCP checksum but 0xFFFF is written, 0 too.
#[test]
fn every_value_of_a_tcp_checksum_is_written() {
    let prng = &mut Prng::new(25);
    for (turn, length) in [14, 15, 21, 60, 64, 77].into_iter().enumerate() {
        let mut writer = Writer::new(SET_UPS[turn % SET_UPS.len()], 1500);
        let frame = Frame::new(ALL[turn], length, prng);
        let mut written = vec![false; 65_536];
        for identifier in 0..=0xFFFF {
            let part = Part::new(STT, 0, identifier);
            let packet = writer.write(&frame, part, identifier as usize % BORDER);
            written[usize::from(get16(&packet, TCP_FIELD))] = true;
        }
        assert_eq!(written.iter().position(|&w| !w), Some(0xFFFF));
    }
}

/// Every lower half of the peer's address: every header checksum but 0xFFFF is written,
/// 0 too, of each kind.
#[test]
fn every_value_of_a_header_checksum_is_written() {
    let frame = Frame::new(Contents::All(2), 14, &mut Prng::new(26));
    let mut written = vec![[false; 3]; 65_536];
    let mut set_up = SET_UPS[0];
    for low in 0..=0xFFFF {
        set_up.peer = 0x0B00_0000 | low;
        let mut writer = Writer::new(set_up, 1500);
        for binding in [VXLAN, NVGRE, STT] {
            let part = Part::new(binding, 0, low);
            let packet = writer.write(&frame, part, low as usize % BORDER);
            let field = get16(&packet, HEADER_FIELD);
            written[usize::from(field)][binding as usize] = true;
        }
    }
    for binding in 0..3 {
        let missing = written.iter().position(|kinds| !kinds[binding]);
        assert_eq!(missing, Some(0xFFFF), "binding {binding}");
    }
}
