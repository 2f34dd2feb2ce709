//! The hints in the header of an STT frame: what a wrap tells of the inner frame,
//! and that both checksum flags are refused (29) only where it has TCP or UDP.

use niulassenc::{Dropped, Endpoint, Kind, Offset, Received, Refusal, MEMORY_NEEDED};

/// The paper's inner frame T.
const T: [u8; 14] = [2, 0, 0, 0, 0, 2, 2, 0, 0, 0, 0, 1, 0x88, 0xb5];

/// The flags of an STT frame.
const VERIFIED: u8 = 0x01;
const PARTIAL: u8 = 0x02;
const IPV4: u8 = 0x04;
const TCP: u8 = 0x08;

const STT: u16 = 0;
const VXLAN: u16 = 1;

/// One end, which sends packets of at most 576 bytes: Context ID and network 22 of
/// the other end are tenant 7's.
fn end(own: u8, peer: u8) -> Endpoint {
    let mut endpoint = Endpoint::start([10, 0, 0, own].into(), 7471, 576).expect("a start");
    let peer = endpoint.add_peer([10, 0, 0, peer].into()).expect("a peer");
    assert_eq!(endpoint.add_binding(peer, Kind::Stt, 22, 7), Ok(STT));
    assert_eq!(endpoint.add_binding(peer, Kind::Vxlan, 22, 7), Ok(VXLAN));
    endpoint
}

/// A frame of this type and length, all of it 0xFF behind the type.
fn ethernet(kind: u16, length: usize) -> Vec<u8> {
    let mut frame = T[..12].to_vec();
    frame.extend(kind.to_be_bytes());
    frame.resize(length, 0xFF);
    frame
}

/// A frame with an IPv4 header that begins with this byte.
fn ipv4(first: u8, fragment: u16, protocol: u8, length: usize) -> Vec<u8> {
    let mut frame = ethernet(0x0800, length);
    frame[14] = first;
    frame[20..22].copy_from_slice(&fragment.to_be_bytes());
    frame[23] = protocol;
    frame
}

/// A frame with an IPv6 header that begins with this byte.
fn ipv6(first: u8, next: u8, length: usize) -> Vec<u8> {
    let mut frame = ethernet(0x86DD, length);
    frame[14] = first;
    frame[20] = next;
    frame
}

/// Frames in which TCP or UDP is found, with the flags and the L4 offset.
fn found() -> Vec<(Vec<u8>, u8, u8)> {
    vec![
        (ipv4(0x45, 0, 6, 60), IPV4 | TCP, 34),
        (ipv4(0x45, 0, 17, 60), IPV4, 34),
        (ipv4(0x4E, 0, 6, 100), IPV4 | TCP, 70),
        (ipv4(0x45, 0xE000, 6, 60), IPV4 | TCP, 34), // a first fragment
        (ipv4(0x45, 0, 17, 34), IPV4, 34),           // the header ends with the frame
        (ipv4(0x4F, 0, 6, 74), IPV4 | TCP, 74),
        (ipv4(0x45, 0, 6, 1514), IPV4 | TCP, 34), // three segments
        (ipv6(0x60, 6, 100), TCP, 54),
        (ipv6(0x6F, 17, 100), 0, 54),
        (ipv6(0x60, 6, 54), TCP, 54), // the header ends with the frame
        (ipv6(0x60, 17, 1514), 0, 54),
    ]
}

/// Frames in which it is not found.
fn not_found() -> Vec<Vec<u8>> {
    vec![
        T.to_vec(),
        ethernet(0x0800, 14),
        ethernet(0x0806, 60),
        ipv4(0x45, 0, 1, 60),      // ICMP
        ipv4(0x45, 0x0001, 6, 60), // fragments but the first
        ipv4(0x45, 0x3000, 17, 60),
        ipv4(0x44, 0, 6, 60), // too short a header
        ipv4(0x65, 0, 6, 60), // another version
        ipv4(0x4F, 0, 6, 73), // the header ends one byte outside
        ipv4(0x45, 0, 17, 33),
        ipv6(0x60, 58, 100), // ICMPv6
        ipv6(0x60, 0, 100),  // an extension header
        ipv6(0x45, 6, 100),
        ipv6(0x60, 6, 53),
        ethernet(0x88B5, 1514),
    ]
}

/// What one end writes for a frame, all its packets.
fn wrapped(frame: &[u8]) -> Vec<Vec<u8>> {
    let sender = end(1, 2);
    let mut packets = Vec::new();
    loop {
        let mut output = vec![0xAA; 576];
        let number = packets.len() as u32;
        let wrote = sender.wrap(STT, frame, number, 77, &mut output);
        let wrote = wrote.expect("a packet");
        output.truncate(wrote.length);
        packets.push(output);
        if packets.len() == wrote.segments as usize {
            return packets;
        }
    }
}

/// A packet of the sender with its TCP checksum made right.
fn summed(mut packet: Vec<u8>) -> Vec<u8> {
    packet[36..38].fill(0);
    let mut bytes = packet[12..].to_vec(); // both addresses, then what is summed
    bytes.extend([0, 6]);
    if packet.len() % 2 == 1 {
        bytes.insert(packet.len() - 12, 0);
    }
    bytes.extend((packet.len() as u16 - 20).to_be_bytes());
    let words = bytes.chunks(2).map(|word| [word[0], word[1]]);
    let mut sum: u32 = words.map(|word| u32::from(u16::from_be_bytes(word))).sum();
    while sum > 0xFFFF {
        sum = (sum & 0xFFFF) + (sum >> 16);
    }
    packet[36..38].copy_from_slice(&(!(sum as u16)).to_be_bytes());
    packet
}

/// What the other end makes of a frame whose STT header has these flags and this L4
/// offset: the bytes that it delivers.
fn received(frame: &[u8], flags: u8, l4: u8) -> Result<Vec<u8>, Dropped> {
    let mut receiver = end(2, 1);
    let mut memory = vec![0; MEMORY_NEEDED];
    let mut packets = wrapped(frame);
    packets[0][41..43].copy_from_slice(&[flags, l4]);
    packets[0] = summed(packets[0].clone());
    let last = packets.pop().expect("at least one");
    for packet in packets {
        let pending = receiver.receive(&packet, &mut memory);
        assert_eq!(pending, Ok(Received::Pending));
    }
    match receiver.receive(&last, &mut memory)? {
        Received::Delivered(got) => Ok(got.bytes.to_vec()),
        Received::Pending => panic!("it was the last"),
    }
}

#[test]
fn what_a_wrap_tells() {
    let none = not_found().into_iter().map(|frame| (frame, 0, 0));
    for (frame, flags, l4) in found().into_iter().chain(none) {
        let packets = wrapped(&frame);
        let carried: Vec<u8> = packets
            .iter()
            .flat_map(|packet| &packet[40..])
            .copied()
            .collect();
        let context = [0, 0, 0, 0, 0, 0, 0, 22, 0, 0];
        let expected = [&[0, flags, l4, 0, 0, 0, 0, 0], &context[..], &frame].concat();
        assert_eq!(carried, expected);
        for packet in packets {
            assert_eq!(packet, summed(packet.clone()));
        }
    }
}

/// The header of VXLAN has no hints, whatever the frame carries.
#[test]
fn vxlan_tells_nothing() {
    let mut output = [0xAA; 576];
    let written = end(1, 2).wrap(VXLAN, &ipv4(0x45, 0, 6, 60), 0, 0, &mut output);
    assert_eq!(written.map(|wrote| wrote.length), Ok(96));
    assert_eq!(output[28..36], [8, 0, 0, 0, 0, 0, 22, 0]);
}

#[test]
fn both_checksum_flags() {
    let refused = Dropped {
        refusal: Refusal::BadSttFlags,
        offset: Some(Offset::SttFrame(1)),
    };
    for (frame, flags, l4) in found() {
        for flags in [flags, 0, 0xFC] {
            let got = received(&frame, flags | VERIFIED | PARTIAL, l4);
            assert_eq!(got, Err(refused), "{frame:02x?}");
        }
    }
    for frame in not_found() {
        for flags in [0, IPV4 | TCP, 0xFC] {
            let got = received(&frame, flags | VERIFIED | PARTIAL, 34);
            assert_eq!(got, Ok(frame.clone()));
        }
    }
}

/// Hints that are not true of the frame are no reason to refuse it.
#[test]
fn received_hints_are_not_compared() {
    let none = not_found().into_iter().map(|frame| (frame, 0, 0));
    for (frame, flags, l4) in found().into_iter().chain(none) {
        assert_eq!(received(&frame, flags, l4), Ok(frame.clone()));
        for flags in [0, VERIFIED, PARTIAL | TCP, 0xFC | PARTIAL] {
            assert_eq!(received(&frame, flags, 255 - l4), Ok(frame.clone()));
        }
    }
}
