//! Writing of outer packets (document 01, "Wrapping"; the hints of an STT frame:
//! document 02, section 5).

use crate::answer::{Refusal, Wrapped, DONE};
use crate::checksum;
use crate::headers::{self, PROTOCOL_GRE, PROTOCOL_TCP, PROTOCOL_UDP};
use crate::headers::{GRE_HEADER, IPV4_HEADER, STT_HEADER, TCP_HEADER, UDP_HEADER, VXLAN_HEADER};
use crate::headers::{TRANSPARENT_ETHERNET, VXLAN_PORT};
use crate::inner::Hints;
use crate::listing::{Binding, Config, Kind, Listing};

/// Which part of the frame is asked for.
#[derive(Clone, Copy)]
pub struct Part {
    /// Segment number, from 0.
    pub number: u32,
    /// Identifier of the STT frame.
    pub identifier: u32,
}

/// Where the packet goes: our address and the peer's.
#[derive(Clone, Copy)]
struct Route {
    source: u32,
    destination: u32,
}

/// TCP flags ACK and PSH, and the data offset of a header without options.
const ACK: u8 = 0x10;
const PSH: u8 = 0x08;
const FIVE_WORDS: u8 = 0x50;

/// Checks 23 (binding), 13, 22, 23 (segment), 21, then writes.
pub fn wrap(
    config: &Config,
    listing: &Listing,
    binding: u32,
    frame: &[u8],
    part: Part,
    output: &mut [u8],
) -> Wrapped {
    try_wrap(config, listing, binding, frame, part, output).unwrap_or_else(|refusal| Wrapped {
        code: refusal.code(),
        length: 0,
        segments: 0,
    })
}

fn try_wrap(
    config: &Config,
    listing: &Listing,
    binding: u32,
    frame: &[u8],
    part: Part,
    output: &mut [u8],
) -> Result<Wrapped, Refusal> {
    let binding = listing
        .bindings()
        .get(binding as usize)
        .ok_or(Refusal::NoSuch)?;
    headers::check_inner(frame)?;
    let route = Route {
        source: config.own,
        destination: listing.peers()[usize::from(binding.peer)],
    };
    match binding.kind {
        Kind::Vxlan => {
            let headers = UDP_HEADER + VXLAN_HEADER;
            let packet = single_packet(config, headers, frame, part, output)?;
            Ok(write_vxlan(packet, route, binding, frame))
        }
        Kind::Nvgre => {
            let packet = single_packet(config, GRE_HEADER, frame, part, output)?;
            Ok(write_nvgre(packet, route, binding, frame))
        }
        Kind::Stt => wrap_stt(config, route, binding, frame, part, output),
    }
}

/// Checks 22, 23 (segment) and 21 of a kind that never cuts a frame; the part
/// of the output that the packet fills.
fn single_packet<'o>(
    config: &Config,
    headers: usize,
    frame: &[u8],
    part: Part,
    output: &'o mut [u8],
) -> Result<&'o mut [u8], Refusal> {
    let total = IPV4_HEADER + headers + frame.len();
    if total > usize::from(config.mtu) {
        return Err(Refusal::ExceedsMtu);
    }
    if part.number != 0 {
        return Err(Refusal::NoSuch);
    }
    output.get_mut(..total).ok_or(Refusal::OutputTooShort)
}

fn put16(bytes: &mut [u8], at: usize, value: u16) {
    bytes[at..at + 2].copy_from_slice(&value.to_be_bytes());
}

fn put32(bytes: &mut [u8], at: usize, value: u32) {
    bytes[at..at + 4].copy_from_slice(&value.to_be_bytes());
}

/// RFC 791 header without options; its total length is the packet's. `packet`
/// is at most 1,600 bytes long, the largest MTU.
fn write_ipv4(packet: &mut [u8], protocol: u8, route: Route) {
    let mut words = [
        0x4500_0000 | packet.len() as u32,
        0x0000_4000,
        0x4000_0000 | u32::from(protocol) << 16,
        route.source,
        route.destination,
    ];
    words[2] |= u32::from(!checksum::sum_of_words(words));
    for (field, word) in packet[..IPV4_HEADER].chunks_exact_mut(4).zip(words) {
        field.copy_from_slice(&word.to_be_bytes());
    }
}

/// 49,152 plus the plain sum of the seven words of the first 14 inner bytes,
/// modulo 16,384: no end-around carry.
fn source_port(frame: &[u8]) -> u16 {
    let words = frame[..14].chunks_exact(2);
    let sum: u32 = words
        .map(|word| u32::from(u16::from_be_bytes([word[0], word[1]])))
        .sum();
    49_152 + (sum % 16_384) as u16
}

fn write_vxlan(packet: &mut [u8], route: Route, binding: &Binding, frame: &[u8]) -> Wrapped {
    write_ipv4(packet, PROTOCOL_UDP, route);
    let (headers, inner) = packet[IPV4_HEADER..].split_at_mut(UDP_HEADER + VXLAN_HEADER);
    put16(headers, 0, source_port(frame));
    put16(headers, 2, VXLAN_PORT);
    put16(headers, 4, (headers.len() + frame.len()) as u16);
    put16(headers, 6, 0);
    put32(headers, 8, 0x0800_0000);
    put32(headers, 12, (binding.network_id as u32) << 8);
    inner.copy_from_slice(frame);
    written(packet, 1)
}

fn write_nvgre(packet: &mut [u8], route: Route, binding: &Binding, frame: &[u8]) -> Wrapped {
    write_ipv4(packet, PROTOCOL_GRE, route);
    let (header, inner) = packet[IPV4_HEADER..].split_at_mut(GRE_HEADER);
    put16(header, 0, 0x2000);
    put16(header, 2, TRANSPARENT_ETHERNET);
    put32(header, 4, (binding.network_id as u32) << 8);
    inner.copy_from_slice(frame);
    written(packet, 1)
}

fn written(packet: &[u8], segments: u32) -> Wrapped {
    Wrapped {
        code: DONE,
        length: packet.len(),
        segments,
    }
}

/// Cuts the STT frame (18-byte header and inner frame) into segments of
/// MTU - 40 bytes and writes the one asked for. An MTU is at least 576 here:
/// a refused start has no binding. STT never gives 22.
fn wrap_stt(
    config: &Config,
    route: Route,
    binding: &Binding,
    frame: &[u8],
    part: Part,
    output: &mut [u8],
) -> Result<Wrapped, Refusal> {
    let frame_length = STT_HEADER + frame.len();
    let room = usize::from(config.mtu) - IPV4_HEADER - TCP_HEADER;
    let segments = frame_length.div_ceil(room) as u32;
    // Compared before multiplying: the number is any 32-bit one.
    if part.number >= segments {
        return Err(Refusal::NoSuch);
    }
    let start = part.number as usize * room;
    let end = frame_length.min(start + room);
    let total = IPV4_HEADER + TCP_HEADER + (end - start);
    let packet = output.get_mut(..total).ok_or(Refusal::OutputTooShort)?;
    write_ipv4(packet, PROTOCOL_TCP, route);
    let segment = &mut packet[IPV4_HEADER..];
    let (header, payload) = segment.split_at_mut(TCP_HEADER);
    put16(header, 0, source_port(frame));
    put16(header, 2, config.stt_port);
    put16(header, 4, frame_length as u16);
    put16(header, 6, start as u16);
    put32(header, 8, part.identifier);
    write_tcp_rest(header, part.number + 1 == segments);
    write_frame_part(payload, start, binding.network_id, frame);
    write_tcp_checksum(segment, route);
    Ok(written(packet, segments))
}

/// The fields after the acknowledgement number, as section 3.2 of
/// draft-davie-stt-06 wants them: ACK, PSH on a frame's last segment, window
/// and urgent pointer 0. The checksum field is 0 until it is worked out.
fn write_tcp_rest(header: &mut [u8], is_last: bool) {
    header[12] = FIVE_WORDS;
    header[13] = if is_last { ACK | PSH } else { ACK };
    header[14..20].fill(0);
}

/// The header of the STT frame around `frame`: hints, Context ID, and every other
/// field 0.
fn stt_header(context_id: u64, frame: &[u8]) -> [u8; STT_HEADER] {
    let hints = Hints::of(frame).unwrap_or_default();
    let mut header = [0; STT_HEADER];
    header[1] = hints.flags;
    header[2] = hints.l4_offset;
    header[8..16].copy_from_slice(&context_id.to_be_bytes());
    header
}

/// The bytes of the STT frame from `start` on that fill `payload`.
fn write_frame_part(payload: &mut [u8], start: usize, context_id: u64, frame: &[u8]) {
    let of_header = STT_HEADER.saturating_sub(start).min(payload.len());
    let (head, tail) = payload.split_at_mut(of_header);
    if of_header > 0 {
        let header = stt_header(context_id, frame);
        head.copy_from_slice(&header[start..start + of_header]);
    }
    let inner_start = start + of_header - STT_HEADER;
    tail.copy_from_slice(&frame[inner_start..inner_start + tail.len()]);
}

/// RFC 793, section 3.1. A sum that comes out 0 is written as 0.
fn write_tcp_checksum(segment: &mut [u8], route: Route) {
    let pseudo = checksum::pseudo_header(
        route.source,
        route.destination,
        PROTOCOL_TCP,
        segment.len() as u16,
    );
    let field = !checksum::join(pseudo, checksum::sum(segment));
    put16(segment, 16, field);
}

#[cfg(test)]
mod tests {
    use super::*;

    #[test]
    fn case_2_of_the_bench_sheet() {
        let t = [2, 0, 0, 0, 0, 2, 2, 0, 0, 0, 0, 1, 0x88, 0xb5];
        assert_eq!(source_port(&t), 52_408);
    }

    #[test]
    fn the_source_port_is_a_plain_sum() {
        // 7 × 0xFFFF = 458,745 = 27 × 16,384 + 16,377; a carry brought round
        // would give 0xFFFF and so 16,383.
        assert_eq!(source_port(&[0xFF; 14]), 49_152 + 16_377);
        let mut frame = [0u8; 15];
        frame[14] = 0xFF;
        assert_eq!(source_port(&frame), 49_152);
    }

    #[test]
    fn a_frame_part_may_start_anywhere() {
        // TCP over IPv4, so that no byte of the hints is 0.
        let mut frame: Vec<u8> = (100..140).collect();
        frame[12..15].copy_from_slice(&[0x08, 0x00, 0x45]);
        frame[20..24].copy_from_slice(&[0, 0, 64, 6]);
        let whole: Vec<u8> = [0, 0x0C, 34, 0, 0, 0, 0, 0, 1, 2, 3, 4, 5, 6, 7, 8, 0, 0]
            .into_iter()
            .chain(frame.iter().copied())
            .collect();
        for start in 0..whole.len() {
            // No segment ends within the header: each has room for 536 bytes.
            for end in (start + 1).max(STT_HEADER)..=whole.len() {
                let mut payload = vec![0xAA; end - start];
                write_frame_part(&mut payload, start, 0x0102_0304_0506_0708, &frame);
                assert_eq!(payload, whole[start..end]);
            }
        }
    }
}
