//! Building of packets for the generator: valid ones of each kind, edits of
//! their fields, and the repair of their checksums. It shares no code with the
//! reference; the checksum here goes word by word.

pub const UDP: u8 = 17;
pub const TCP: u8 = 6;
pub const GRE: u8 = 47;

/// The paper's inner frame T.
pub const T: [u8; 14] = [2, 0, 0, 0, 0, 2, 2, 0, 0, 0, 0, 1, 0x88, 0xb5];

/// Source and destination address of an outer packet.
#[derive(Clone, Copy)]
pub struct Path {
    pub from: u32,
    pub to: u32,
}

/// RFC 1071, word by word.
pub fn ones_sum(parts: &[&[u8]]) -> u16 {
    let mut total: u64 = 0;
    for part in parts {
        for pair in part.chunks(2) {
            let low = pair.get(1).copied().unwrap_or(0);
            total += u64::from(pair[0]) << 8 | u64::from(low);
        }
    }
    while total > 0xFFFF {
        total = (total & 0xFFFF) + (total >> 16);
    }
    total as u16
}

pub fn put16(packet: &mut [u8], at: usize, value: u16) {
    packet[at..at + 2].copy_from_slice(&value.to_be_bytes());
}

pub fn get16(packet: &[u8], at: usize) -> u16 {
    u16::from_be_bytes([packet[at], packet[at + 1]])
}

/// An outer packet without options around a payload, header checksum right.
pub fn ipv4(path: Path, protocol: u8, payload: &[u8]) -> Vec<u8> {
    let mut packet = vec![0x45, 0, 0, 0, 0, 0, 0x40, 0, 64, protocol, 0, 0];
    packet.extend(path.from.to_be_bytes());
    packet.extend(path.to.to_be_bytes());
    packet.extend(payload);
    let total = packet.len() as u16;
    put16(&mut packet, 2, total);
    repair(&mut packet);
    packet
}

/// A UDP datagram for VXLAN, checksum field 0.
pub fn udp(port: u16, data: &[u8]) -> Vec<u8> {
    let mut datagram = vec![0xC0, 0x01];
    datagram.extend(port.to_be_bytes());
    datagram.extend((8 + data.len() as u16).to_be_bytes());
    datagram.extend([0, 0]);
    datagram.extend(data);
    datagram
}

pub fn vxlan(path: Path, vni: u32, inner: &[u8]) -> Vec<u8> {
    let mut data = vec![0x08, 0, 0, 0];
    data.extend((vni << 8).to_be_bytes());
    data.extend(inner);
    ipv4(path, UDP, &udp(4789, &data))
}

/// The same with a checksum worked out.
pub fn vxlan_summed(path: Path, vni: u32, inner: &[u8]) -> Vec<u8> {
    let mut packet = vxlan(path, vni, inner);
    sum_udp(&mut packet);
    packet
}

/// Gives a packet without options a UDP checksum.
pub fn sum_udp(packet: &mut [u8]) {
    put16(packet, 26, 1);
    repair(packet);
}

pub fn nvgre(path: Path, vsid: u32, inner: &[u8]) -> Vec<u8> {
    let mut payload = vec![0x20, 0, 0x65, 0x58];
    payload.extend((vsid << 8).to_be_bytes());
    payload.extend(inner);
    ipv4(path, GRE, &payload)
}

/// Puts an IPv4 header of `words` words behind the Ethernet header of a frame of at
/// least 34 bytes: no later fragment, and this protocol. All else stays.
pub fn put_ipv4(frame: &mut [u8], words: u8, protocol: u8) {
    put16(frame, 12, 0x0800);
    frame[14] = 0x40 | words;
    put16(frame, 20, 0x4000);
    frame[23] = protocol;
}

/// Puts an IPv6 header there, of a frame of at least 21 bytes.
pub fn put_ipv6(frame: &mut [u8], next_header: u8) {
    put16(frame, 12, 0x86DD);
    frame[14] = 0x60 | frame[14] & 0x0F;
    frame[20] = next_header;
}

/// An STT frame: 18-byte header and inner frame.
pub fn stt_frame(context: u64, inner: &[u8]) -> Vec<u8> {
    let mut frame = vec![0u8; 8];
    frame.extend(context.to_be_bytes());
    frame.extend([0, 0]);
    frame.extend(inner);
    frame
}

/// What the TCP-shaped header of a segment says.
#[derive(Clone, Copy)]
pub struct Label {
    pub port: u16,
    pub identifier: u32,
    pub length: u16,
    pub offset: u16,
}

impl Label {
    pub fn new(port: u16, identifier: u32, length: usize, offset: usize) -> Label {
        Label {
            port,
            identifier,
            length: length as u16,
            offset: offset as u16,
        }
    }
}

pub fn segment(path: Path, label: Label, bytes: &[u8]) -> Vec<u8> {
    let mut tcp = vec![0xC0, 0x02];
    tcp.extend(label.port.to_be_bytes());
    tcp.extend(label.length.to_be_bytes());
    tcp.extend(label.offset.to_be_bytes());
    tcp.extend(label.identifier.to_be_bytes());
    tcp.extend([0x50, 0x10, 0, 0, 0, 0, 0, 0]);
    tcp.extend(bytes);
    ipv4(path, TCP, &tcp)
}

/// The segments of `frame`, cut before each of the offsets `cuts`.
pub fn cut(path: Path, port: u16, identifier: u32, frame: &[u8], cuts: &[usize]) -> Vec<Vec<u8>> {
    let mut edges = vec![0];
    edges.extend(cuts);
    edges.push(frame.len());
    edges
        .windows(2)
        .map(|edge| {
            let label = Label::new(port, identifier, frame.len(), edge[0]);
            segment(path, label, &frame[edge[0]..edge[1]])
        })
        .collect()
}

/// Length of the IPv4 header by its own field.
pub fn header_length(packet: &[u8]) -> usize {
    usize::from(packet[0] & 0x0F) * 4
}

/// Works out anew the header checksum, a UDP checksum that is not 0, and the
/// TCP checksum, as far as the packet's lengths allow.
pub fn repair(packet: &mut [u8]) {
    if packet.len() < 20 {
        return;
    }
    let header = header_length(packet);
    if header < 20 || header > packet.len() {
        return;
    }
    let total = usize::from(get16(packet, 2));
    if (header..=packet.len()).contains(&total) {
        repair_transport(packet, header, total);
    }
    put16(packet, 10, 0);
    let field = !ones_sum(&[&packet[..header]]);
    put16(packet, 10, field);
}

fn repair_transport(packet: &mut [u8], header: usize, total: usize) {
    let length = total - header;
    let protocol = packet[9];
    let at = match protocol {
        UDP if length >= 8 && get16(packet, header + 6) != 0 => header + 6,
        TCP if length >= 20 => header + 16,
        _ => return,
    };
    put16(packet, at, 0);
    let tail = [0, protocol, (length >> 8) as u8, length as u8];
    let mut field = !ones_sum(&[&packet[12..20], &tail, &packet[header..total]]);
    // RFC 768: a computed checksum of 0 is sent as all ones.
    if protocol == UDP && field == 0 {
        field = 0xFFFF;
    }
    put16(packet, at, field);
}

/// The packet after `change`, its checksums repaired.
pub fn edited(packet: &[u8], change: impl FnOnce(&mut Vec<u8>)) -> Vec<u8> {
    let mut copy = packet.to_vec();
    change(&mut copy);
    repair(&mut copy);
    copy
}

/// The packet with one byte set, its checksums repaired.
pub fn with_byte(packet: &[u8], at: usize, value: u8) -> Vec<u8> {
    edited(packet, |copy| copy[at] = value)
}

/// The packet with one byte set and nothing repaired.
pub fn raw_byte(packet: &[u8], at: usize, value: u8) -> Vec<u8> {
    let mut copy = packet.to_vec();
    copy[at] = value;
    copy
}

/// The packet with a 16-bit field set, its checksums repaired.
pub fn with_word(packet: &[u8], at: usize, value: u16) -> Vec<u8> {
    edited(packet, |copy| put16(copy, at, value))
}

/// The packet with bytes after its total length, which do not count.
pub fn trailed(packet: &[u8], trailing: &[u8]) -> Vec<u8> {
    [packet, trailing].concat()
}

/// The packet cut or grown to `length` bytes, total length included.
pub fn resized(packet: &[u8], length: usize) -> Vec<u8> {
    edited(packet, |copy| {
        copy.resize(length, 0);
        put16(copy, 2, length as u16);
    })
}

/// The packet with IPv4 options put in: `words` times four bytes.
pub fn with_ip_options(packet: &[u8], words: u8) -> Vec<u8> {
    edited(packet, |copy| {
        let options = (0..words * 4).map(|index| index | 0x80);
        copy.splice(20..20, options);
        copy[0] += words;
        let total = get16(copy, 2) + u16::from(words) * 4;
        put16(copy, 2, total);
    })
}

/// An STT packet with TCP options put in: `words` times four bytes.
pub fn with_tcp_options(packet: &[u8], words: u8) -> Vec<u8> {
    edited(packet, |copy| {
        let at = header_length(copy) + 20;
        let options = (0..words * 4).map(|index| index | 0x40);
        copy.splice(at..at, options);
        copy[at - 8] += words << 4;
        let total = get16(copy, 2) + u16::from(words) * 4;
        put16(copy, 2, total);
    })
}
