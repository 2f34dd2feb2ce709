//! Packets, and an endpoint with a memory that says what it expects.

use niulassenc_reference::{view, Answer, Endpoint, Place};

pub const OWN: u32 = 0x0A00_0001;
pub const PEER: u32 = 0x0A00_0002;
pub const PEER_2: u32 = 0x0A00_0003;
pub const PORT: u16 = 7471;
pub const CONTEXT: u64 = 0x0123_4567_89AB_CDEF;
pub const ENOUGH: usize = 55_296;
pub const T: [u8; 14] = [2, 0, 0, 0, 0, 2, 2, 0, 0, 0, 0, 1, 0x88, 0xb5];

pub fn hex(text: &str) -> Vec<u8> {
    text.split_whitespace()
        .map(|pair| u8::from_str_radix(pair, 16).expect("two hex digits"))
        .collect()
}

fn checksum(bytes: &[u8]) -> u16 {
    let mut total = 0u32;
    for pair in bytes.chunks(2) {
        total += u32::from(pair[0]) * 256 + u32::from(*pair.get(1).unwrap_or(&0));
    }
    while total > 0xFFFF {
        total = (total >> 16) + (total & 0xFFFF);
    }
    !(total as u16)
}

pub fn word(packet: &[u8], at: usize) -> u16 {
    u16::from_be_bytes([packet[at], packet[at + 1]])
}

pub fn set_word(packet: &mut [u8], at: usize, value: u16) {
    packet[at..at + 2].copy_from_slice(&value.to_be_bytes());
}

/// Works out the header checksum and, where there is one, that of the payload.
pub fn mend(packet: &mut [u8]) {
    let header = usize::from(packet[0] & 15) * 4;
    let total = usize::from(word(packet, 2));
    let field = match packet[9] {
        6 if total >= header + 20 => Some(header + 16),
        17 if total >= header + 8 && word(packet, header + 6) != 0 => Some(header + 6),
        _ => None,
    };
    if let Some(at) = field.filter(|_| total <= packet.len()) {
        set_word(packet, at, 0);
        let mut summed = packet[12..20].to_vec();
        summed.extend([0, packet[9]]);
        summed.extend(((total - header) as u16).to_be_bytes());
        summed.extend(&packet[header..total]);
        set_word(packet, at, checksum(&summed));
    }
    set_word(packet, 10, 0);
    let sum = checksum(&packet[..header]);
    set_word(packet, 10, sum);
}

/// A copy with some bytes changed and the checksums mended.
pub fn changed(packet: &[u8], change: impl FnOnce(&mut Vec<u8>)) -> Vec<u8> {
    let mut copy = packet.to_vec();
    change(&mut copy);
    mend(&mut copy);
    copy
}

/// Puts `words` words of options into the outer header.
pub fn with_options(packet: &[u8], words: u8) -> Vec<u8> {
    changed(packet, |p| {
        p.splice(20..20, (0..words * 4).map(|i| 0x91 ^ i));
        p[0] += words;
        let total = word(p, 2) + 4 * u16::from(words);
        set_word(p, 2, total);
    })
}

pub fn outer(from: u32, protocol: u8, payload: &[u8]) -> Vec<u8> {
    let mut packet = vec![0x45, 0, 0, 0, 0, 0, 0x40, 0, 64, protocol, 0, 0];
    packet.extend(from.to_be_bytes());
    packet.extend(OWN.to_be_bytes());
    packet.extend(payload);
    let total = packet.len() as u16;
    set_word(&mut packet, 2, total);
    mend(&mut packet);
    packet
}

/// VXLAN with UDP checksum 0.
pub fn vxlan(from: u32, vni: u32, inner: &[u8]) -> Vec<u8> {
    let mut payload = vec![0xCC, 0xB8, 0x12, 0xB5];
    payload.extend((16 + inner.len() as u16).to_be_bytes());
    payload.extend([0, 0, 8, 0, 0, 0]);
    payload.extend((vni << 8).to_be_bytes());
    payload.extend(inner);
    outer(from, 17, &payload)
}

/// VXLAN with a UDP checksum.
pub fn vxlan_summed(from: u32, vni: u32, inner: &[u8]) -> Vec<u8> {
    changed(&vxlan(from, vni, inner), |packet| packet[27] = 1)
}

pub fn nvgre(from: u32, vsid: u32, inner: &[u8]) -> Vec<u8> {
    let mut payload = vec![0x20, 0, 0x65, 0x58];
    payload.extend((vsid << 8).to_be_bytes());
    payload.extend(inner);
    outer(from, 47, &payload)
}

pub fn segment(from: u32, identifier: u32, length: usize, offset: usize, bytes: &[u8]) -> Vec<u8> {
    let mut payload = vec![0xCC, 0xB8];
    payload.extend(PORT.to_be_bytes());
    payload.extend((length as u16).to_be_bytes());
    payload.extend((offset as u16).to_be_bytes());
    payload.extend(identifier.to_be_bytes());
    payload.extend([0x50, 0x10, 0, 0, 0, 0, 0, 0]);
    payload.extend(bytes);
    outer(from, 6, &payload)
}

/// Bytes `from..to` of an STT frame as a segment of the first peer.
pub fn part(identifier: u32, frame: &[u8], from: usize, to: usize) -> Vec<u8> {
    segment(PEER, identifier, frame.len(), from, &frame[from..to])
}

/// An inner frame of `length` bytes, no tag. Its type is that of IPv4, but no IP
/// header follows.
pub fn inner(length: usize) -> Vec<u8> {
    let mut frame: Vec<u8> = (0..length).map(|i| (i * 7 + 3) as u8).collect();
    if length >= 14 {
        set_word(&mut frame, 12, 0x0800);
    }
    frame
}

/// The same with an IPv4 header of this many words behind the Ethernet header, as
/// far as the length reaches.
pub fn over_ipv4(words: u8, protocol: u8, length: usize) -> Vec<u8> {
    let mut frame = inner(length.max(34));
    frame[14] = 0x40 | words;
    set_word(&mut frame, 20, 0);
    frame[23] = protocol;
    frame.truncate(length);
    frame
}

/// The same with an IPv6 header.
pub fn over_ipv6(next_header: u8, length: usize) -> Vec<u8> {
    let mut frame = inner(length.max(54));
    set_word(&mut frame, 12, 0x86DD);
    frame[14] = 0x60;
    frame[20] = next_header;
    frame.truncate(length);
    frame
}

pub fn stt_frame(context: u64, inner: &[u8]) -> Vec<u8> {
    let mut frame = vec![0; 8];
    frame.extend(context.to_be_bytes());
    frame.extend([0, 0]);
    frame.extend(inner);
    frame
}

/// A good STT frame of `length` bytes, header included.
pub fn good(length: usize) -> Vec<u8> {
    stt_frame(CONTEXT, &inner(length - 18))
}

pub const EMPTY: Answer = Answer {
    code: 0,
    offset: 0,
    tenant: None,
    binding: None,
    place: Place {
        in_memory: false,
        start: 0,
        length: 0,
    },
};

/// An endpoint, its memory, and what is expected of every refusal.
pub struct Bed {
    pub endpoint: Endpoint,
    pub memory: Vec<u8>,
}

impl Bed {
    /// Two peers; each has VNI 22 (binding 0, 3), VSID 4,096 (1, 4) and the
    /// Context ID above (2, 5), tenants 101 to 103 and 201 to 203.
    pub fn new() -> Bed {
        let (mut endpoint, code) = Endpoint::start(OWN, PORT.into(), 1500);
        assert_eq!(code, 0);
        for (peer, address) in [PEER, PEER_2].into_iter().enumerate() {
            let number = endpoint.add_peer(address).number;
            assert_eq!(number, Some(peer as u16));
            let (peer, tenant) = (peer as u32, 100 * (peer as u32 + 1));
            endpoint.add_binding(peer, 1, 22, tenant + 1);
            endpoint.add_binding(peer, 2, 4096, tenant + 2);
            endpoint.add_binding(peer, 3, CONTEXT, tenant + 3);
        }
        // First contents of any kind; ones are the worst a map can have.
        let memory = vec![0xFF; ENOUGH];
        Bed { endpoint, memory }
    }

    pub fn receive(&mut self, packet: &[u8]) -> Answer {
        self.endpoint.receive(packet, &mut self.memory)
    }

    /// Refused with `code` and offset 0: the empties, and nothing has changed.
    pub fn refuses(&mut self, code: u8, packet: &[u8]) {
        self.refuses_at(code, 0, packet);
    }

    /// The same with an offset.
    pub fn refuses_at(&mut self, code: u8, offset: usize, packet: &[u8]) {
        let endpoint = self.endpoint.clone();
        let memory = self.memory.clone();
        self.refuses_frame_at(code, offset, packet);
        assert!(self.endpoint == endpoint, "the endpoint has changed");
        assert!(self.memory == memory, "the memory has changed");
    }

    /// Refused with `code` and offset 0 on the last segment: the empties only.
    pub fn refuses_frame(&mut self, code: u8, packet: &[u8]) {
        self.refuses_frame_at(code, 0, packet);
    }

    /// The same with an offset.
    pub fn refuses_frame_at(&mut self, code: u8, offset: usize, packet: &[u8]) {
        let expected = Answer {
            code,
            offset,
            ..EMPTY
        };
        assert_eq!(self.receive(packet), expected);
    }

    pub fn holds(&mut self, packet: &[u8]) {
        assert_eq!(self.receive(packet), Answer { code: 1, ..EMPTY });
    }

    /// Delivered to the tenant by the binding, with these bytes.
    pub fn delivers(&mut self, tenant: u16, binding: u16, frame: &[u8], packet: &[u8]) -> Place {
        let answer = self.receive(packet);
        assert_eq!((answer.code, answer.offset), (0, 0));
        assert_eq!(answer.tenant, Some(tenant));
        assert_eq!(answer.binding, Some(binding));
        assert_eq!(view(packet, &self.memory, answer.place), frame);
        answer.place
    }

    /// The STT frame is delivered to the first peer's tenant 103.
    pub fn completes(&mut self, frame: &[u8], packet: &[u8]) -> Place {
        self.delivers(103, 2, &frame[18..], packet)
    }

    pub fn ticks(&mut self, count: usize) {
        for _ in 0..count {
            assert_eq!(self.endpoint.tick(), 0);
        }
    }
}
