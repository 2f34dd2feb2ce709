//! The look into an inner frame (document 02, section 5): the IP header that it
//! carries, the TCP or UDP header behind that, and the hints that follow for the
//! header of an STT frame (draft-davie-stt-06, section 3.1).

use crate::headers::{be16, IPV4_HEADER, PROTOCOL_TCP, PROTOCOL_UDP};

const ETHERNET_HEADER: usize = 14;
const IPV6_HEADER: usize = 40;

/// Ethernet types.
const TYPE_IPV4: u16 = 0x0800;
const TYPE_IPV6: u16 = 0x86DD;

/// The offset in an IPv4 header's word of fragments; the bits above are flags.
const FRAGMENT_OFFSET: u16 = 0x1FFF;

/// Flags number 2 (IP version) and 3 (TCP payload) of an STT frame.
const FLAG_IPV4: u8 = 0x04;
const FLAG_TCP: u8 = 0x08;

/// An IP header that lies whole in an inner frame, of any protocol.
pub enum Ip<'a> {
    /// 20 to 60 bytes.
    V4(&'a [u8]),
    /// The fixed header; extension headers stand behind it.
    V6(&'a [u8; IPV6_HEADER]),
}

impl<'a> Ip<'a> {
    /// Right behind the Ethernet header: a tag makes another type.
    pub fn of(frame: &'a [u8]) -> Option<Ip<'a>> {
        let (ethernet, packet) = frame.split_first_chunk::<ETHERNET_HEADER>()?;
        match be16(ethernet, 12) {
            TYPE_IPV4 => ipv4_header(packet).map(Ip::V4),
            TYPE_IPV6 => ipv6_header(packet).map(Ip::V6),
            _ => None,
        }
    }
}

fn ipv4_header(packet: &[u8]) -> Option<&[u8]> {
    let first = *packet.first()?;
    let length = usize::from(first & 0x0F) * 4;
    if first >> 4 != 4 || length < IPV4_HEADER {
        return None;
    }
    packet.get(..length)
}

fn ipv6_header(packet: &[u8]) -> Option<&[u8; IPV6_HEADER]> {
    let header: &[u8; IPV6_HEADER] = packet.first_chunk()?;
    (header[0] >> 4 == 6).then_some(header)
}

/// What an STT frame header says about its inner frame; all 0 without TCP or UDP.
#[derive(Clone, Copy, Default)]
pub struct Hints {
    pub flags: u8,
    /// Where the TCP or UDP header starts in the inner frame.
    pub l4_offset: u8,
}

impl Hints {
    /// The hints of a frame in which TCP or UDP is found: directly behind the IP
    /// header, and not in a later fragment. UDP over IPv6 is found with flags 0.
    pub fn of(frame: &[u8]) -> Option<Hints> {
        let (protocol, version, length) = match Ip::of(frame)? {
            Ip::V4(header) if be16(header, 6) & FRAGMENT_OFFSET != 0 => return None,
            Ip::V4(header) => (header[9], FLAG_IPV4, header.len()),
            Ip::V6(header) => (header[6], 0, header.len()),
        };
        let payload = match protocol {
            PROTOCOL_TCP => FLAG_TCP,
            PROTOCOL_UDP => 0,
            _ => return None,
        };
        Some(Hints {
            flags: version | payload,
            // At most 14 + 60.
            l4_offset: (ETHERNET_HEADER + length) as u8,
        })
    }
}

#[cfg(test)]
mod tests {
    use super::*;

    /// A frame of this type: `first` begins its IP header, zeros follow.
    fn frame(kind: u16, first: u8, length: usize) -> Vec<u8> {
        let mut frame = vec![0; length];
        frame[12..14].copy_from_slice(&kind.to_be_bytes());
        frame[14] = first;
        frame
    }

    /// Bytes of the IP header that the frame carries.
    fn header(frame: &[u8]) -> Option<usize> {
        Ip::of(frame).map(|ip| match ip {
            Ip::V4(header) => header.len(),
            Ip::V6(header) => header.len(),
        })
    }

    #[test]
    fn an_ip_header_is_whole_or_not_there() {
        for words in 0..16u8 {
            let bytes = 4 * usize::from(words);
            for length in 15..=80 {
                let expected = (words >= 5 && 14 + bytes <= length).then_some(bytes);
                let found = header(&frame(0x0800, 0x40 | words, length));
                assert_eq!(found, expected, "{words} words in {length} bytes");
            }
        }
        for length in 15..=80 {
            let expected = (length >= 54).then_some(40);
            assert_eq!(header(&frame(0x86DD, 0x60, length)), expected);
            assert_eq!(header(&frame(0x86DD, 0x6F, length)), expected);
        }
        for short in [&[][..], &[0; 13], &frame(0x0800, 0x45, 15)[..14]] {
            assert_eq!(header(short), None);
        }
    }

    #[test]
    fn type_and_version_agree() {
        for first in 0..=255u8 {
            let expected = (0x45..=0x4F).contains(&first);
            assert_eq!(header(&frame(0x0800, first, 80)).is_some(), expected);
            let expected = (0x60..=0x6F).contains(&first);
            assert_eq!(header(&frame(0x86DD, first, 80)).is_some(), expected);
            for kind in [0x0801, 0x0900, 0x86DC, 0x8100, 0x88A8, 0x0028] {
                assert_eq!(header(&frame(kind, first, 80)), None);
            }
        }
    }

    /// The first part asks neither for a protocol nor for fragments.
    #[test]
    fn every_protocol_and_every_fragment_has_an_ip_header() {
        let mut packet = frame(0x0800, 0x45, 60);
        packet[20..22].copy_from_slice(&[0x3F, 0xFF]);
        for protocol in 0..=255u8 {
            packet[23] = protocol;
            assert_eq!(header(&packet), Some(20));
            assert!(Hints::of(&packet).is_none());
        }
        let mut packet = frame(0x86DD, 0x60, 60);
        for protocol in 0..=255u8 {
            packet[20] = protocol;
            assert_eq!(header(&packet), Some(40));
            let found = [PROTOCOL_TCP, PROTOCOL_UDP].contains(&protocol);
            assert_eq!(Hints::of(&packet).is_some(), found);
        }
    }
}
