//! The byte that a packet is dropped for: each refusal that names one, behind an
//! IPv4 header of every length, in the crate's own types and in plain numbers as C
//! has them; and every other answer, which names none.

use niulassenc::{numbers, Dropped, Endpoint, Kind, Offset, Received, Refusal, MEMORY_NEEDED};

const OWN: [u8; 4] = [10, 0, 0, 1];
const PEER: [u8; 4] = [10, 0, 0, 2];

/// The paper's inner frame T.
const T: [u8; 14] = [2, 0, 0, 0, 0, 2, 2, 0, 0, 0, 0, 1, 0x88, 0xb5];

/// The RFC 1071 checksum of some bytes, an even number.
fn checksum(bytes: &[u8]) -> [u8; 2] {
    let words = bytes.chunks(2).map(|word| [word[0], word[1]]);
    let mut sum: u32 = words.map(|word| u32::from(u16::from_be_bytes(word))).sum();
    while sum > 0xFFFF {
        sum = (sum & 0xFFFF) + (sum >> 16);
    }
    (!(sum as u16)).to_be_bytes()
}

/// A packet from the peer to us, with so many words of options.
fn ipv4(protocol: u8, options: usize, payload: &[u8]) -> Vec<u8> {
    let mut packet = vec![0x45, 0, 0, 0, 0, 0, 0x40, 0, 64, protocol, 0, 0];
    packet[0] += options as u8;
    packet.extend(PEER.into_iter().chain(OWN));
    packet.resize(20 + 4 * options, 1); // no operation
    let total = (packet.len() + payload.len()) as u16;
    packet[2..4].copy_from_slice(&total.to_be_bytes());
    let sum = checksum(&packet);
    packet[10..12].copy_from_slice(&sum);
    packet.extend(payload);
    packet
}

/// UDP without a checksum and VXLAN: T on network 22.
fn vxlan() -> Vec<u8> {
    let mut payload = vec![0xcc, 0xb8, 0x12, 0xb5, 0, 30, 0, 0, 8, 0, 0, 0, 0, 0, 22, 0];
    payload.extend(T);
    payload
}

/// GRE: T on network 4096.
fn nvgre() -> Vec<u8> {
    let mut payload = vec![0x20, 0, 0x65, 0x58, 0, 0x10, 0, 0];
    payload.extend(T);
    payload
}

/// An STT frame with an inner frame on Context ID 22, of this version and with these
/// flags.
fn stt_with(version: u8, flags: u8, inner: &[u8]) -> Vec<u8> {
    let mut frame = vec![
        version, flags, 0, 0, 0, 0, 0, 0, 0, 0, 0, 0, 0, 0, 0, 22, 0, 0,
    ];
    frame.extend(inner);
    frame
}

/// One with T, which is neither TCP nor UDP.
fn stt(version: u8, flags: u8) -> Vec<u8> {
    stt_with(version, flags, &T)
}

/// One with TCP over IPv4.
fn stt_tcp(version: u8, flags: u8) -> Vec<u8> {
    let mut inner = [0; 54];
    inner[..12].copy_from_slice(&T[..12]);
    inner[12..15].copy_from_slice(&[0x08, 0x00, 0x45]);
    inner[23] = 6;
    stt_with(version, flags, &inner)
}

/// The segment of a frame that has these of its bytes.
fn segment(frame: &[u8], bytes: std::ops::Range<usize>) -> Vec<u8> {
    let (length, offset) = (frame.len() as u16, bytes.start as u16);
    let mut payload = vec![0xcc, 0xb8, 0x1d, 0x2f];
    payload.extend(length.to_be_bytes().into_iter().chain(offset.to_be_bytes()));
    payload.extend([0, 0, 0, 5, 0x50, 0x10, 0, 0, 0, 0, 0, 0]);
    payload.extend(&frame[bytes]);
    let mut summed = [PEER, OWN, [0, 6, 0, payload.len() as u8]].concat();
    summed.extend(&payload);
    summed.resize(summed.len().next_multiple_of(2), 0);
    payload[16..18].copy_from_slice(&checksum(&summed));
    payload
}

fn endpoint() -> Endpoint {
    let mut endpoint = Endpoint::start(OWN.into(), 7471, 1500).expect("a good start");
    let peer = endpoint.add_peer(PEER.into()).expect("a good peer");
    for (kind, network) in [(Kind::Vxlan, 22), (Kind::Nvgre, 4096), (Kind::Stt, 22)] {
        assert!(endpoint.add_binding(peer, kind, network, 7).is_ok());
    }
    endpoint
}

/// An endpoint and its memory, for both ways of calling.
struct Receiver {
    endpoint: Endpoint,
    memory: Vec<u8>,
}

impl Receiver {
    fn new() -> Receiver {
        Receiver {
            endpoint: endpoint(),
            memory: vec![0; MEMORY_NEEDED],
        }
    }

    /// A receive must give this code and this offset. Both ways must say so.
    fn gives(&mut self, packet: &[u8], code: u8, offset: u8) -> Option<Dropped> {
        let mut other = self.memory.clone();
        let mut copy = self.endpoint.clone();
        let receipt = copy.as_numbers().receive(packet, &mut other);
        let told = (receipt.code, receipt.offset);
        assert_eq!(told, (code, offset), "{packet:02x?}");
        if code != 0 {
            let numbers = (receipt.tenant, receipt.binding, receipt.place);
            assert_eq!(numbers, (numbers::NONE, numbers::NONE, Default::default()));
        }
        let received = self.endpoint.receive(packet, &mut self.memory);
        assert_eq!(Refusal::from_number(code).is_some(), received.is_err());
        let dropped = received.err();
        assert_eq!(self.endpoint, copy);
        assert_eq!(self.memory, other);
        dropped
    }

    /// A receive must be refused for this byte.
    fn drops(&mut self, packet: &[u8], refusal: Refusal, at: Offset) {
        let (Offset::Packet(byte) | Offset::SttFrame(byte)) = at;
        let dropped = Dropped {
            refusal,
            offset: Some(at),
        };
        assert_eq!(self.gives(packet, refusal.number(), byte), Some(dropped));
    }
}

/// Puts bytes into the payload. Behind an IPv4 header of every length, the packet
/// must be refused for this byte of the payload, and nothing must change.
fn breaks(protocol: u8, payload: &[u8], changes: &[(usize, u8)], refusal: Refusal, at: u8) {
    let mut payload = payload.to_vec();
    for &(byte, value) in changes {
        payload[byte] = value;
    }
    let mut receiver = Receiver::new();
    for options in 0..=10 {
        let packet = ipv4(protocol, options, &payload);
        let header = 20 + 4 * options as u8;
        receiver.drops(&packet, refusal, Offset::Packet(header + at));
    }
    assert_eq!(receiver.endpoint, endpoint());
    assert!(receiver.memory.iter().all(|&byte| byte == 0));
}

/// Every value of a byte of the payload: exactly where it is bad, the packet is
/// refused for that byte.
fn sweep(protocol: u8, payload: &[u8], at: u8, refusal: Refusal, bad: fn(u8) -> bool) {
    let mut payload = payload.to_vec();
    let mut receiver = Receiver::new();
    for value in 0..=255 {
        payload[usize::from(at)] = value;
        let packet = ipv4(protocol, 2, &payload);
        if bad(value) {
            receiver.drops(&packet, refusal, Offset::Packet(28 + at));
        } else {
            assert_eq!(receiver.gives(&packet, 0, 0), None);
        }
    }
}

#[test]
fn a_vxlan_flag() {
    use Refusal::BadVxlanFlag;
    sweep(17, &vxlan(), 8, BadVxlanFlag, |value| value & 8 == 0);
    breaks(17, &vxlan(), &[(8, 0xF7)], BadVxlanFlag, 8);
    // A network that is not listed, and a tagged frame: the flag comes first.
    breaks(17, &vxlan(), &[(8, 0), (14, 23)], BadVxlanFlag, 8);
    breaks(
        17,
        &vxlan(),
        &[(8, 0), (28, 0x81), (29, 0)],
        BadVxlanFlag,
        8,
    );
}

#[test]
fn gre_flags() {
    use Refusal::BadGreFlags;
    let bad = |value| !(0x20..=0x23).contains(&value);
    sweep(47, &nvgre(), 0, BadGreFlags, bad);
    sweep(47, &nvgre(), 1, BadGreFlags, |value| value & 7 != 0);
    breaks(47, &nvgre(), &[(0, 0xA0)], BadGreFlags, 0);
    breaks(47, &nvgre(), &[(1, 1)], BadGreFlags, 1);
    // The first of several bytes; flags before the type.
    breaks(47, &nvgre(), &[(0, 0), (1, 7)], BadGreFlags, 0);
    breaks(47, &nvgre(), &[(0, 0), (2, 0)], BadGreFlags, 0);
    breaks(47, &nvgre(), &[(1, 4), (2, 0), (3, 0)], BadGreFlags, 1);
    breaks(47, &nvgre(), &[(1, 2), (5, 0x20)], BadGreFlags, 1);
}

#[test]
fn a_gre_type() {
    use Refusal::BadGreType;
    sweep(47, &nvgre(), 2, BadGreType, |value| value != 0x65);
    sweep(47, &nvgre(), 3, BadGreType, |value| value != 0x58);
    breaks(47, &nvgre(), &[(2, 0x08)], BadGreType, 2);
    breaks(47, &nvgre(), &[(3, 0x59)], BadGreType, 3);
    breaks(47, &nvgre(), &[(2, 0x86), (3, 0xdd)], BadGreType, 2);
    breaks(47, &nvgre(), &[(3, 0), (5, 0x20)], BadGreType, 3);
}

/// Gives a frame cut in two at every place, in both orders, and whole. It must be
/// refused with its last segment, for the same byte whichever segment that is in.
fn breaks_stt(frame: &[u8], refusal: Refusal, at: u8) {
    let mut receiver = Receiver::new();
    for cut in 1..frame.len() {
        let (first, last) = (segment(frame, 0..cut), segment(frame, cut..frame.len()));
        for (early, late) in [(&first, &last), (&last, &first)] {
            receiver.gives(&ipv4(6, 0, early), 1, 0);
            receiver.drops(&ipv4(6, 3, late), refusal, Offset::SttFrame(at));
            assert_eq!(receiver.memory[..frame.len()], *frame); // it was stored
            assert_eq!(receiver.endpoint, endpoint()); // its slot is free
        }
    }
    let whole = segment(frame, 0..frame.len());
    receiver.drops(&ipv4(6, 10, &whole), refusal, Offset::SttFrame(at));
}

#[test]
fn stt_frames() {
    breaks_stt(&stt(1, 0), Refusal::BadSttVersion, 0);
    breaks_stt(&stt_tcp(0x80, 3), Refusal::BadSttVersion, 0);
    breaks_stt(&stt_tcp(0, 3), Refusal::BadSttFlags, 1);
    // A network that is not listed, and a tagged frame: version and flags come first.
    let unlisted = |mut frame: Vec<u8>| {
        frame[15] = 23;
        frame
    };
    let tagged = |mut frame: Vec<u8>| {
        frame[30..32].copy_from_slice(&[0x81, 0]);
        frame
    };
    breaks_stt(&unlisted(tagged(stt(2, 0))), Refusal::BadSttVersion, 0);
    breaks_stt(&unlisted(stt_tcp(0, 7)), Refusal::BadSttFlags, 1);
    // Behind a tag there is neither TCP nor UDP to be found, so the flags are ignored.
    let receiver = &mut Receiver::new();
    receiver.gives(&whole(&tagged(stt_tcp(0, 3))), 13, 0);
    receiver.gives(&whole(&unlisted(tagged(stt_tcp(0, 3)))), 12, 0);
}

/// A frame in one segment.
fn whole(frame: &[u8]) -> Vec<u8> {
    ipv4(6, 1, &segment(frame, 0..frame.len()))
}

/// Every value of version and flags. The flags are about TCP and UDP alone.
#[test]
fn stt_versions_and_flags() {
    let receiver = &mut Receiver::new();
    for value in 0..=255 {
        let version = whole(&stt(value, 0));
        if value == 0 {
            receiver.gives(&version, 0, 0);
        } else {
            receiver.drops(&version, Refusal::BadSttVersion, Offset::SttFrame(0));
        }
        receiver.gives(&whole(&stt(0, value)), 0, 0);
        let flags = whole(&stt_tcp(0, value));
        if value & 3 == 3 {
            receiver.drops(&flags, Refusal::BadSttFlags, Offset::SttFrame(1));
        } else {
            receiver.gives(&flags, 0, 0);
        }
    }
}

/// A receive that gives this code must give offset 0, right behind one that had
/// another, and tell a Rust caller of none.
fn has_none(receiver: &mut Receiver, code: u8, packet: &[u8]) {
    let mut broken = nvgre();
    broken[3] = 0;
    let broken = ipv4(47, 5, &broken);
    receiver.drops(&broken, Refusal::BadGreType, Offset::Packet(43));
    let dropped = receiver.gives(packet, code, 0);
    assert_eq!(dropped.and_then(|dropped| dropped.offset), None);
}

/// A packet with one byte changed, its header checksum right.
fn with(packet: &[u8], at: usize, value: u8) -> Vec<u8> {
    let mut packet = packet.to_vec();
    packet[at] = value;
    packet[10..12].fill(0);
    let sum = checksum(&packet[..20]);
    packet[10..12].copy_from_slice(&sum);
    packet
}

#[test]
fn no_other_answer_has_an_offset() {
    let receiver = &mut Receiver::new();
    let good = ipv4(17, 0, &vxlan());
    let no_flag = with(&good, 28, 0); // which is looked at after all these
    has_none(receiver, 3, &[]);
    has_none(receiver, 3, &with(&no_flag, 0, 0x65));
    let mut damaged = no_flag.clone();
    damaged[10] ^= 1;
    has_none(receiver, 4, &damaged);
    has_none(receiver, 5, &with(&no_flag, 6, 0x20));
    has_none(receiver, 6, &with(&no_flag, 19, 9));
    has_none(receiver, 7, &with(&no_flag, 15, 9));
    has_none(receiver, 8, &with(&no_flag, 9, 1));
    has_none(receiver, 9, &with(&no_flag, 25, 31));
    has_none(receiver, 10, &with(&no_flag, 27, 1));
    has_none(receiver, 12, &with(&good, 34, 23));
    has_none(receiver, 13, &ipv4(47, 0, &nvgre()[..21]));
    has_none(receiver, 0, &good);
    segments_have_none(receiver);
    receiver.memory.pop();
    let dropped = receiver.gives(&no_flag, 2, 0).expect("a refusal");
    assert_eq!(dropped.refusal, Refusal::MemoryTooSmall);
}

fn segments_have_none(receiver: &mut Receiver) {
    let (frame, long) = (stt(1, 3), [stt(0, 0), vec![0]].concat());
    let packet = |frame: &[u8], bytes| ipv4(6, 0, &segment(frame, bytes));
    has_none(receiver, 14, &packet(&frame[..31], 0..31));
    has_none(receiver, 1, &packet(&frame, 2..20));
    has_none(receiver, 15, &packet(&long, 0..2));
    has_none(receiver, 16, &packet(&frame, 0..3));
    for identifier in 6..10 {
        let mut payload = segment(&frame, 0..2);
        payload[11] = identifier;
        payload[17] -= identifier - 5; // the checksum's low byte
        let code = if identifier < 9 { 1 } else { 17 };
        has_none(receiver, code, &ipv4(6, 0, &payload));
    }
    let (mut unlisted, mut tagged) = (stt(0, 0), stt(0, 0));
    unlisted[8] = 1;
    tagged[31] = 0xa8;
    for (code, bad) in [(12, unlisted), (13, tagged), (0, stt(0, 0))] {
        has_none(&mut Receiver::new(), code, &packet(&bad, 0..bad.len()));
    }
}

#[test]
fn in_words() {
    let said = |code, offset| {
        let receipt = numbers::Receipt {
            place: Default::default(),
            tenant: numbers::NONE,
            binding: numbers::NONE,
            code,
            offset,
        };
        let dropped = receipt.read(&[], &[]).expect_err("a refusal");
        let refusal: Refusal = dropped.into();
        assert_eq!(refusal.number(), code);
        dropped.to_string()
    };
    let vxlan = "VXLAN flag missing (25), at byte 28 of the packet";
    assert_eq!(said(25, 28), vxlan);
    let flags = "GRE flags or version wrong (26), at byte 21 of the packet";
    assert_eq!(said(26, 21), flags);
    let gre_type = "GRE protocol type wrong (27), at byte 63 of the packet";
    assert_eq!(said(27, 63), gre_type);
    let version = "STT version wrong (28), at byte 0 of the STT frame";
    assert_eq!(said(28, 0), version);
    let both = "STT checksum flags both set on a TCP or UDP frame (29)";
    assert_eq!(said(29, 1), format!("{both}, at byte 1 of the STT frame"));
    assert_eq!(said(6, 0), "not for our address (6)");
    for code in (2..=24).chain(30..=255) {
        assert!(!said(code, 9).contains("byte"), "{code}");
    }
}

/// Plain use: a caller to whom the reason is enough writes `?`.
#[test]
fn a_refusal_by_question_mark() {
    fn tenant(endpoint: &mut Endpoint, packet: &[u8]) -> Result<Option<u16>, Refusal> {
        let mut memory = vec![0; MEMORY_NEEDED];
        match endpoint.receive(packet, &mut memory)? {
            Received::Delivered(frame) => Ok(Some(frame.tenant)),
            Received::Pending => Ok(None),
        }
    }
    let mut payload = vxlan();
    assert_eq!(tenant(&mut endpoint(), &ipv4(17, 0, &payload)), Ok(Some(7)));
    payload[8] = 0;
    let refused = tenant(&mut endpoint(), &ipv4(17, 0, &payload));
    assert_eq!(refused, Err(Refusal::BadVxlanFlag));
}
