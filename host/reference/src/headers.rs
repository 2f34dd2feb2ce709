//! Reading of the outer headers: IPv4, then UDP, GRE or the TCP-shaped header
//! of STT, then the tunnel headers. Every reader knows only its own bytes; that of
//! an STT frame also asks what its inner frame carries.

use crate::answer::{Fault, Refusal};
use crate::checksum;
use crate::inner::Hints;

/// IP protocol numbers of the three carriers.
pub const PROTOCOL_TCP: u8 = 6;
pub const PROTOCOL_UDP: u8 = 17;
pub const PROTOCOL_GRE: u8 = 47;

/// UDP destination port of VXLAN (RFC 7348, section 5).
pub const VXLAN_PORT: u16 = 4789;

/// Protocol type of an Ethernet frame in GRE (RFC 7637, section 3.2).
pub const TRANSPARENT_ETHERNET: u16 = 0x6558;

pub const IPV4_HEADER: usize = 20;
pub const UDP_HEADER: usize = 8;
pub const VXLAN_HEADER: usize = 8;
pub const GRE_HEADER: usize = 8;
pub const TCP_HEADER: usize = 20;
pub const STT_HEADER: usize = 18;

/// Shortest and longest inner frame (document 01, "Listing and numbers").
pub const MIN_INNER: usize = 14;
pub const MAX_INNER: usize = 1514;

/// The `N` bytes from `at` on, for the big-endian readers below.
fn field<const N: usize>(bytes: &[u8], at: usize) -> [u8; N] {
    let mut field = [0u8; N];
    field.copy_from_slice(&bytes[at..at + N]);
    field
}

pub fn be16(bytes: &[u8], at: usize) -> u16 {
    u16::from_be_bytes(field(bytes, at))
}

fn be32(bytes: &[u8], at: usize) -> u32 {
    u32::from_be_bytes(field(bytes, at))
}

fn be64(bytes: &[u8], at: usize) -> u64 {
    u64::from_be_bytes(field(bytes, at))
}

/// What the endpoint needs of an outer IPv4 header (RFC 791, section 3.1).
pub struct Ipv4<'a> {
    pub protocol: u8,
    pub source: u32,
    pub destination: u32,
    /// Bytes of the header with its options: where the payload starts.
    pub header_length: usize,
    /// From the header's end up to the total length; trailing bytes are cut.
    pub payload: &'a [u8],
}

impl<'a> Ipv4<'a> {
    /// Checks 3, 4 and 5, in this order.
    pub fn parse(packet: &'a [u8]) -> Result<Ipv4<'a>, Refusal> {
        if packet.len() < IPV4_HEADER || packet[0] >> 4 != 4 {
            return Err(Refusal::NotIpv4);
        }
        let header_length = usize::from(packet[0] & 0x0F) * 4;
        let total_length = usize::from(be16(packet, 2));
        if header_length < IPV4_HEADER
            || total_length < header_length
            || total_length > packet.len()
        {
            return Err(Refusal::NotIpv4);
        }
        // RFC 1071, section 1 (3): right when the sum, field included, is all ones.
        if checksum::header_sum(&packet[..header_length]) != 0xFFFF {
            return Err(Refusal::BadIpv4Checksum);
        }
        // More-fragments (0x2000) and the offset; 0x4000 and 0x8000 are free.
        if be16(packet, 6) & 0x3FFF != 0 {
            return Err(Refusal::Fragment);
        }
        Ok(Ipv4 {
            protocol: packet[9],
            source: be32(packet, 12),
            destination: be32(packet, 16),
            header_length,
            payload: &packet[header_length..total_length],
        })
    }

    /// Whether the sum over pseudo-header and payload is all ones.
    fn transport_sum_is_right(&self) -> bool {
        let pseudo = checksum::pseudo_header(
            self.source,
            self.destination,
            self.protocol,
            self.payload.len() as u16,
        );
        checksum::join(pseudo, checksum::sum(self.payload)) == 0xFFFF
    }
}

/// The carriage of a packet whose outer header is accepted.
pub enum Carriage<'a> {
    /// VXLAN header and inner frame.
    Vxlan(&'a [u8; VXLAN_HEADER], &'a [u8]),
    /// GRE header and inner frame.
    Nvgre(&'a [u8; GRE_HEADER], &'a [u8]),
    Stt(Segment<'a>),
}

/// An STT segment: a part of an STT frame (draft-davie-stt-06, section 3.2).
pub struct Segment<'a> {
    pub identifier: u32,
    pub frame_length: u16,
    pub offset: u16,
    pub bytes: &'a [u8],
}

impl<'a> Carriage<'a> {
    /// Checks 9 (too short for ports), 8, 9 (the rest) and 10.
    pub fn parse(ip: &Ipv4<'a>, stt_port: u16) -> Result<Carriage<'a>, Refusal> {
        match ip.protocol {
            PROTOCOL_UDP => parse_udp(ip),
            PROTOCOL_TCP => parse_segment(ip, stt_port).map(Carriage::Stt),
            PROTOCOL_GRE => match ip.payload.split_first_chunk() {
                Some((header, inner)) => Ok(Carriage::Nvgre(header, inner)),
                None => Err(Refusal::BadTransportHeader),
            },
            _ => Err(Refusal::UnknownProtocol),
        }
    }
}

fn parse_udp<'a>(ip: &Ipv4<'a>) -> Result<Carriage<'a>, Refusal> {
    let datagram = ip.payload;
    if datagram.len() < UDP_HEADER {
        return Err(Refusal::BadTransportHeader);
    }
    if be16(datagram, 2) != VXLAN_PORT {
        return Err(Refusal::UnknownProtocol);
    }
    if usize::from(be16(datagram, 4)) != datagram.len() {
        return Err(Refusal::BadTransportHeader);
    }
    let Some((header, inner)) = datagram[UDP_HEADER..].split_first_chunk() else {
        return Err(Refusal::BadTransportHeader);
    };
    // RFC 768: a field of 0 means that the sender worked out no checksum.
    if be16(datagram, 6) != 0 && !ip.transport_sum_is_right() {
        return Err(Refusal::BadTransportChecksum);
    }
    Ok(Carriage::Vxlan(header, inner))
}

fn parse_segment<'a>(ip: &Ipv4<'a>, stt_port: u16) -> Result<Segment<'a>, Refusal> {
    let segment = ip.payload;
    if segment.len() < TCP_HEADER {
        return Err(Refusal::BadTransportHeader);
    }
    if be16(segment, 2) != stt_port {
        return Err(Refusal::UnknownProtocol);
    }
    let data_offset = usize::from(segment[12] >> 4) * 4;
    if data_offset < TCP_HEADER || data_offset > segment.len() {
        return Err(Refusal::BadTransportHeader);
    }
    // Unlike UDP, TCP has no "none": a field of 0 must be right too.
    if !ip.transport_sum_is_right() {
        return Err(Refusal::BadTransportChecksum);
    }
    Ok(Segment {
        identifier: be32(segment, 8),
        frame_length: be16(segment, 4),
        offset: be16(segment, 6),
        bytes: &segment[data_offset..],
    })
}

/// The VNI of a VXLAN header (RFC 7348, section 5). Only the I flag counts. A fault's
/// offset is within the header, here and in the next two.
pub fn vxlan_network_id(header: &[u8; VXLAN_HEADER]) -> Result<u64, Fault> {
    if header[0] & 0x08 == 0 {
        return Err(Fault::new(Refusal::BadVxlanFlag, 0));
    }
    // 24 bits of network id above 8 bits that do not count on receipt.
    Ok(u64::from(be32(header, 4) >> 8))
}

/// The bits that count in the first four bytes of a GRE header, and what they must
/// be: 0x20 to 0x23, three low bits 0, the protocol type.
const GRE_COUNTED: u32 = 0xFC07_FFFF;
const GRE_RIGHT: u32 = 0x2000_0000 | TRANSPARENT_ETHERNET as u32;

/// The VSID of an NVGRE header (RFC 7637, section 3.2): key present, no
/// checksum, no sequence number, version 0. Document 01 leaves free the two low
/// bits of the first byte and the five high bits of the second.
pub fn nvgre_network_id(header: &[u8; GRE_HEADER]) -> Result<u64, Fault> {
    if be32(header, 0) & GRE_COUNTED != GRE_RIGHT {
        return Err(gre_fault(header));
    }
    // 24 bits of network id above 8 bits that do not count on receipt.
    Ok(u64::from(be32(header, 4) >> 8))
}

/// What is wrong with a GRE header that is not right, byte by byte.
#[cold]
fn gre_fault(header: &[u8; GRE_HEADER]) -> Fault {
    if !(0x20..=0x23).contains(&header[0]) {
        return Fault::new(Refusal::BadGreFlags, 0);
    }
    if header[1] & 0x07 != 0 {
        return Fault::new(Refusal::BadGreFlags, 1);
    }
    if header[2] != TRANSPARENT_ETHERNET.to_be_bytes()[0] {
        return Fault::new(Refusal::BadGreType, 2);
    }
    Fault::new(Refusal::BadGreType, 3)
}

/// The Context ID of an STT frame (draft-davie-stt-06, section 3.1). Flags 0
/// (checksum verified) and 1 (checksum partial) exclude each other where the inner
/// frame has TCP or UDP; the hints of every other frame are ignored.
pub fn stt_network_id(frame: &[u8]) -> Result<u64, Fault> {
    if frame[0] != 0 {
        return Err(Fault::new(Refusal::BadSttVersion, 0));
    }
    if frame[1] & 0x03 == 0x03 && Hints::of(&frame[STT_HEADER..]).is_some() {
        return Err(Fault::new(Refusal::BadSttFlags, 1));
    }
    Ok(be64(frame, 8))
}

/// Check 13: 14 to 1,514 bytes and no VLAN tag (0x8100, 0x88A8).
pub fn check_inner(frame: &[u8]) -> Result<(), Refusal> {
    if !(MIN_INNER..=MAX_INNER).contains(&frame.len()) || matches!(be16(frame, 12), 0x8100 | 0x88A8)
    {
        return Err(Refusal::BadFrame);
    }
    Ok(())
}
