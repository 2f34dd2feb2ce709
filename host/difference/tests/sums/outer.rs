//! Packets around given contents.

use crate::contents::Contents;
use crate::sides::SetUp;
use crate::slow;
use std::fmt;
use std::ops::RangeInclusive;
use vectors::packet::{get16, put16, TCP, UDP};
use vectors::prng::Prng;

/// The two carriers whose checksum is over the payload.
#[derive(Clone, Copy, Debug, PartialEq, Eq)]
pub enum Carrier {
    /// A UDP datagram with VXLAN.
    Udp,
    /// A TCP-shaped segment with STT.
    Tcp,
}

impl fmt::Display for Carrier {
    fn fmt(&self, f: &mut fmt::Formatter<'_>) -> fmt::Result {
        f.write_str(match self {
            Carrier::Udp => "UDP datagram",
            Carrier::Tcp => "TCP segment",
        })
    }
}

/// Bytes of an IPv4 header without options.
pub const HEADER: usize = 20;

/// Bytes of the header of an STT frame, and of a frame.
const STT_HEADER: usize = 18;
const STT_FRAME: RangeInclusive<usize> = 32..=1532;

impl Carrier {
    /// The shortest payload whose sum is asked: one byte less is 9.
    pub fn shortest(self) -> usize {
        match self {
            Carrier::Udp => 16,
            Carrier::Tcp => 20,
        }
    }

    fn protocol(self) -> u8 {
        match self {
            Carrier::Udp => UDP,
            Carrier::Tcp => TCP,
        }
    }

    /// The checksum's place in the payload.
    pub fn field(self) -> usize {
        match self {
            Carrier::Udp => 6,
            Carrier::Tcp => 16,
        }
    }

    /// From here to its end, and in its first two bytes, a payload has nothing that a
    /// check before 10 reads.
    pub fn free(self) -> usize {
        match self {
            Carrier::Udp => 6,
            Carrier::Tcp => 14,
        }
    }

    /// A payload of these contents that passes every check before 10; and those behind
    /// it too, where its length and its contents allow. Its checksum is 0.
    fn payload(self, set_up: &SetUp, mut bytes: Vec<u8>) -> Vec<u8> {
        match self {
            Carrier::Udp => vxlan(set_up, &mut bytes),
            Carrier::Tcp => stt(set_up, &mut bytes),
        }
        put16(&mut bytes, self.field(), 0);
        bytes
    }

    /// A packet with its right checksums.
    pub fn packet(
        self,
        set_up: &SetUp,
        contents: Contents,
        length: usize,
        prng: &mut Prng,
    ) -> Vec<u8> {
        let payload = self.payload(set_up, contents.bytes(length, prng));
        let mut packet = around(set_up, self.protocol(), &payload);
        let at = HEADER + self.field();
        match !slow::of_transport(&packet) {
            // "If the computed checksum is zero, it is transmitted as all ones" (RFC 768).
            0 if self == Carrier::Udp => put16(&mut packet, at, 0xFFFF),
            field => put16(&mut packet, at, field),
        }
        packet
    }
}

/// Port, length, and a VXLAN header with the flag and the network that are bound.
fn vxlan(set_up: &SetUp, datagram: &mut [u8]) {
    put16(datagram, 2, 4789);
    put16(datagram, 4, datagram.len() as u16);
    datagram[8] |= 0x08;
    datagram[12..15].copy_from_slice(&set_up.vni.to_be_bytes()[1..]);
}

/// Port and data offset, which goes from 5 to 15 with the length. A segment that may be
/// a whole frame is one, of the network that is bound.
fn stt(set_up: &SetUp, segment: &mut [u8]) {
    put16(segment, 2, set_up.port);
    let words = (5 + segment.len() % 11).min(segment.len() / 4);
    segment[12] = (words as u8) << 4 | segment[12] & 0x0F;
    let frame = segment.len() - 4 * words;
    if STT_FRAME.contains(&frame) {
        put16(segment, 4, frame as u16);
        put16(segment, 6, 0);
        let header = &mut segment[4 * words..][..STT_HEADER];
        header[0] = 0;
        header[1] &= !0x03;
        header[8..16].copy_from_slice(&set_up.context.to_be_bytes());
    }
}

/// The payload behind an IPv4 header from the peer to us.
pub fn around(set_up: &SetUp, protocol: u8, payload: &[u8]) -> Vec<u8> {
    let mut packet = vec![0x45, 0, 0, 0, 0, 0, 0x40, 0, 64, protocol, 0, 0];
    packet.extend(set_up.peer.to_be_bytes());
    packet.extend(set_up.own.to_be_bytes());
    packet.extend(payload);
    let total = packet.len() as u16;
    put16(&mut packet, 2, total);
    seal_header(&mut packet);
    packet
}

/// Gives an IPv4 header its right checksum.
pub fn seal_header(packet: &mut [u8]) {
    put16(packet, 10, 0);
    let field = !slow::of_header(packet);
    put16(packet, 10, field);
}

/// Makes 0 the right checksum: it moves what is missing of all ones to the first word of
/// the payload, a port that nobody asks for.
pub fn make_zero_right(carrier: Carrier, packet: &mut [u8]) {
    put16(packet, HEADER, 0);
    put16(packet, HEADER + carrier.field(), 0);
    let missing = slow::missing(slow::of_transport(packet), slow::ALL_ONES);
    put16(packet, HEADER, missing);
}

/// A change of a packet, after which its sum is another, or after all the same.
#[derive(Clone, Copy, Debug, PartialEq, Eq)]
pub enum Change {
    /// The field more by so much.
    Field(u16),
    /// A field of 0: none for UDP alone.
    FieldZero,
    /// The field's bytes exchanged.
    FieldExchanged,
    /// A bit of the payload's first byte.
    FirstByte,
    /// A bit of its last byte.
    LastByte,
    /// A bit of any byte.
    AnyByte,
    /// Two neighbouring bytes exchanged.
    Bytes,
    /// Two words exchanged, which no sum tells.
    Words,
    /// A word more by 1 and another less by 1, which only a lost carry tells.
    MoreAndLess,
}

pub const CHANGES: [Change; 13] = [
    Change::Field(1),
    Change::Field(0xFFFF),
    Change::Field(0x0100),
    Change::Field(0xFF00),
    Change::Field(0x8000),
    Change::FieldZero,
    Change::FieldExchanged,
    Change::FirstByte,
    Change::LastByte,
    Change::AnyByte,
    Change::Bytes,
    Change::Words,
    Change::MoreAndLess,
];

impl Change {
    /// Changes the packet where no check before 10 looks.
    pub fn apply(self, carrier: Carrier, packet: &mut [u8], prng: &mut Prng) {
        let payload = &mut packet[HEADER..];
        let (field, free, end) = (carrier.field(), carrier.free(), payload.len());
        let bit = 1 << prng.below(8);
        let mut word = || free + 2 * prng.below((end - free) / 2);
        let (one, other) = (word(), word());
        match self {
            Change::Field(more) => more_by(payload, field, more),
            Change::FieldZero => put16(payload, field, 0),
            Change::FieldExchanged => payload.swap(field, field + 1),
            Change::FirstByte => payload[0] ^= bit,
            Change::LastByte => payload[end - 1] ^= bit,
            Change::AnyByte => payload[prng.between(free, end - 1)] ^= bit,
            Change::Bytes => {
                let at = prng.between(free, end - 2);
                payload.swap(at, at + 1);
            }
            Change::Words => {
                payload.swap(one, other);
                payload.swap(one + 1, other + 1);
            }
            Change::MoreAndLess => {
                more_by(payload, one, 1);
                more_by(payload, other, 0xFFFF);
            }
        }
    }
}

/// Adds to a field, modulo 65,536.
fn more_by(bytes: &mut [u8], at: usize, more: u16) {
    let value = get16(bytes, at).wrapping_add(more);
    put16(bytes, at, value);
}
