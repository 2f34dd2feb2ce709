//! Directed runs that go through all values of something: each header byte,
//! each length, each frame length and offset of a segment, each place in full
//! listings.

use vectors::directed::{ENOUGH, FROM_A, NVGRE, OWN, PORT, STT, VXLAN};
use vectors::packet::{self, Label, Path};
use vectors::prng::Prng;
use vectors::record::Record;

/// A sweep: a name and the run.
pub struct Sweep {
    pub name: &'static str,
    pub run: Vec<Record>,
}

/// The network id that every kind has in the sweeps' set-up.
const ID: u64 = 0x00C0_FFEE;

/// Bytes of the longest header: IPv4, the TCP-shaped one, the STT frame's, and
/// the inner frame's up to its type.
const HEADERS: usize = 20 + 20 + 18 + 14;

/// Where the STT frame of a packet without options begins.
const STT_FRAME: usize = 20 + 20;

pub fn all(seed: u64) -> Vec<Sweep> {
    let prng = &mut Prng::new(seed);
    let sweeps = [
        ("every value of every header byte", header_bytes(prng)),
        ("every value behind both flags", behind_both_flags(prng)),
        ("every length", lengths(prng)),
        ("every frame length of a segment", frame_lengths(prng)),
        ("every offset of a segment", offsets(prng)),
        ("every cut of a frame", cuts(prng)),
        ("full listings", full_listings(prng)),
        ("starts and bindings at their bounds", bounds()),
        ("numbers beyond 16 bits", wide(prng)),
        ("places at their bounds", places(prng)),
        ("noise", noise(prng)),
        ("every length of a wrap", wraps(prng)),
    ];
    sweeps.map(|(name, run)| Sweep { name, run }).into()
}

fn receive(packet: Vec<u8>) -> Record {
    Record::Receive { packet }
}

fn lend(prng: &mut Prng) -> Record {
    Record::Lend {
        length: ENOUGH as u32,
        seed: prng.draw() as u32,
    }
}

/// One peer with one network of each kind, and memory of any contents.
fn set_up(prng: &mut Prng) -> Vec<Record> {
    set_up_at(prng, 1500)
}

fn set_up_at(prng: &mut Prng, mtu: u32) -> Vec<Record> {
    let mut run = vec![
        Record::Start {
            own: OWN,
            port: PORT.into(),
            mtu,
        },
        Record::Peer {
            address: FROM_A.from,
        },
    ];
    run.extend([VXLAN, NVGRE, STT].map(|kind| Record::Binding {
        peer: 0,
        kind: kind.into(),
        id: ID,
        tenant: 100 + u32::from(kind),
    }));
    run.push(lend(prng));
    run
}

/// A good packet of each kind around `inner`.
fn packets(inner: &[u8]) -> [Vec<u8>; 4] {
    let frame = packet::stt_frame(ID, inner);
    let label = Label::new(PORT, 1, frame.len(), 0);
    [
        packet::vxlan(FROM_A, ID as u32, inner),
        packet::vxlan_summed(FROM_A, ID as u32, inner),
        packet::nvgre(FROM_A, ID as u32, inner),
        packet::segment(FROM_A, label, &frame),
    ]
}

/// Bytes up to the end of an IPv6 header, which reach behind all that an IPv4 header
/// says of itself.
const TO_TRANSPORT: usize = 14 + 40;

/// An inner frame whose type is no tag. Half of them have an IP header, as far as it fits.
fn inner(prng: &mut Prng, length: usize) -> Vec<u8> {
    let mut frame = prng.bytes(length.max(TO_TRANSPORT));
    let transport = prng.pick(&[packet::TCP, packet::UDP]);
    match prng.below(4) {
        0 => packet::put_ipv4(&mut frame, prng.between(5, 15) as u8, transport),
        1 => packet::put_ipv6(&mut frame, transport),
        _ => frame[12] = 0x08,
    }
    frame.truncate(length);
    frame
}

/// Also the outer values of every 16-bit word; with the checksums repaired and
/// without. A pending frame is given up before its slot is needed.
fn header_bytes(prng: &mut Prng) -> Vec<Record> {
    let mut run = set_up(prng);
    for packet in packets(&inner(prng, 21)) {
        for at in 0..packet.len().min(HEADERS) {
            for value in 0..=255 {
                run.push(receive(packet::raw_byte(&packet, at, value)));
                run.push(receive(packet::with_byte(&packet, at, value)));
            }
            run.extend([Record::Tick, Record::Tick]);
        }
        for at in (0..HEADERS.min(packet.len() - 1)).step_by(2) {
            for value in [0, 1, 0x7FFF, 0x8000, 0xFFFE, 0xFFFF] {
                run.push(receive(packet::with_word(&packet, at, value)));
                let mut raw = packet.clone();
                packet::put16(&mut raw, at, value);
                run.push(receive(raw));
            }
            run.extend([Record::Tick, Record::Tick]);
        }
    }
    run
}

/// Every value of every byte of STT frames with both flags that have a transport header,
/// and of one that has none. The IP headers just end with their frames.
fn behind_both_flags(prng: &mut Prng) -> Vec<Record> {
    let mut run = set_up(prng);
    let mut frames = [
        prng.bytes(TO_TRANSPORT),
        prng.bytes(TO_TRANSPORT),
        prng.bytes(TO_TRANSPORT),
    ];
    packet::put_ipv4(&mut frames[0], 10, packet::TCP);
    packet::put_ipv6(&mut frames[1], packet::UDP);
    packet::put16(&mut frames[2], 12, 0x0806);
    for inner in frames {
        let [.., packet] = packets(&inner);
        let packet = packet::with_byte(&packet, STT_FRAME + 1, 0x03);
        for at in STT_FRAME..packet.len() {
            run.extend((0..=255).map(|value| receive(packet::with_byte(&packet, at, value))));
        }
        // One byte less than an IP header has.
        run.push(receive(packet::edited(&packet, |copy| {
            copy.pop();
            packet::put16(copy, 2, packet.len() as u16 - 1);
            packet::put16(copy, 24, 18 + TO_TRANSPORT as u16 - 1);
        })));
    }
    run
}

/// Every length of an inner frame up to one above the longest, every number of
/// bytes given of a packet, and every total length that it may state.
fn lengths(prng: &mut Prng) -> Vec<Record> {
    let mut run = set_up(prng);
    for length in 0..=1516 {
        run.extend(packets(&inner(prng, length)).map(receive));
    }
    for packet in packets(&inner(prng, 40)) {
        for length in 0..=packet.len() {
            run.push(receive(packet[..length].to_vec()));
            run.push(receive(packet::with_word(&packet, 2, length as u16)));
            run.push(receive(packet::resized(&packet, length.max(20))));
            run.push(Record::Tick);
        }
        for words in 1..=10 {
            run.push(receive(packet::with_ip_options(&packet, words)));
        }
    }
    run
}

fn frame_lengths(prng: &mut Prng) -> Vec<Record> {
    let mut run = set_up(prng);
    let bytes = prng.bytes(40);
    for length in 0..=u16::MAX {
        let label = Label {
            port: PORT,
            identifier: u32::from(length),
            length,
            offset: prng.pick(&[0, 1, 7, 8, 600]),
        };
        let count = prng.pick(&[1, 2, 31, 32, 40]);
        run.push(receive(packet::segment(FROM_A, label, &bytes[..count])));
        // Four slots and five frames, then the slots are free again.
        if length % 5 == 4 {
            run.extend([Record::Tick, Record::Tick, Record::Tick, Record::Tick]);
        }
    }
    run
}

fn offsets(prng: &mut Prng) -> Vec<Record> {
    let mut run = set_up(prng);
    let bytes = prng.bytes(40);
    for offset in 0..=u16::MAX {
        let label = Label {
            port: PORT,
            identifier: u32::from(offset / 64),
            length: prng.pick(&[1532, 1532, 1532, 1000, 32]),
            offset,
        };
        let count = prng.pick(&[1, 1, 1, 3, 8, 40]);
        run.push(receive(packet::segment(FROM_A, label, &bytes[..count])));
        if offset % 64 == 63 {
            run.extend([Record::Tick, Record::Tick]);
        }
    }
    run
}

/// Frames cut in two at each byte, both orders, then in one-byte segments.
fn cuts(prng: &mut Prng) -> Vec<Record> {
    let mut run = set_up(prng);
    let mut identifier = 0;
    for length in [14, 15, 47, 600, 1514] {
        let frame = packet::stt_frame(ID, &inner(prng, length));
        for cut in 1..frame.len() {
            identifier += 1;
            let mut parts = packet::cut(FROM_A, PORT, identifier, &frame, &[cut]);
            if prng.percent(50) {
                parts.reverse();
            }
            run.extend(parts.into_iter().map(receive));
        }
        identifier += 1;
        let every: Vec<usize> = (1..frame.len()).collect();
        let mut parts = packet::cut(FROM_A, PORT, identifier, &frame, &every);
        prng.shuffle(&mut parts);
        // One comes twice, and once more when the frame is finished.
        parts.insert(prng.between(1, parts.len()), parts[0].clone());
        parts.push(parts[0].clone());
        run.extend(parts.into_iter().map(receive));
        run.extend([Record::Tick, Record::Tick, Record::Tick, Record::Tick]);
    }
    run
}

/// The path from a peer of the full listings.
fn from_peer(number: u32) -> Path {
    Path {
        from: OWN + 1 + number,
        to: OWN,
    }
}

/// Peer, kind and id of the full listings' bindings.
fn networks() -> impl Iterator<Item = (u32, u32, u64)> {
    (0..66u32).map(|n| (n % 8, n / 8 % 3 + 1, 4096 + u64::from(n) / 5))
}

/// Eight peers and 64 bindings, then some that no longer fit.
fn full_set_up(prng: &mut Prng) -> Vec<Record> {
    let mut run = vec![Record::Start {
        own: OWN,
        port: PORT.into(),
        mtu: 1600,
    }];
    run.extend((0..10).map(|peer| Record::Peer {
        address: from_peer(peer % 9).from,
    }));
    run.extend(networks().map(|(peer, kind, id)| Record::Binding {
        peer,
        kind,
        id,
        tenant: prng.draw() as u32 & 0xFFFF,
    }));
    run.push(lend(prng));
    run
}

/// Every binding is found, and every slot of every peer is used.
fn full_listings(prng: &mut Prng) -> Vec<Record> {
    let mut run = full_set_up(prng);
    let mut identifier = 0;
    for _ in 0..20 {
        for (peer, _, id) in networks() {
            let (path, id) = (from_peer(peer), id + prng.below(2) as u64);
            let length = prng.between(14, 90);
            let frame = inner(prng, length);
            identifier += 1;
            let stt = packet::stt_frame(id, &frame);
            let parts = packet::cut(path, PORT, identifier, &stt, &[20]);
            run.push(receive(packet::vxlan(path, id as u32, &frame)));
            run.push(receive(packet::nvgre(path, id as u32, &frame)));
            run.extend(parts.into_iter().map(receive));
        }
        // Five frames for four slots, of every peer.
        for number in 0..40 {
            let stt = packet::stt_frame(4096, &inner(prng, 60));
            identifier += 1;
            let mut parts = packet::cut(from_peer(number % 8), PORT, identifier, &stt, &[20]);
            run.push(receive(parts.remove(prng.below(2))));
        }
        run.extend([Record::Tick, Record::Tick, Record::Tick, Record::Tick]);
    }
    run
}

fn bounds() -> Vec<Record> {
    let mut run = Vec::new();
    for first in 0..=255u32 {
        for (port, mtu) in [(1, 576), (65_535, 1600), (0, 1500), (1, 575), (1, 1601)] {
            let own = first << 24 | 1;
            run.push(Record::Start { own, port, mtu });
            run.push(Record::Peer { address: own + 1 });
            run.push(Record::Peer { address: own });
        }
    }
    run.push(Record::Start {
        own: OWN,
        port: 1,
        mtu: 576,
    });
    run.extend((0..=255u32).map(|first| Record::Peer {
        address: first << 24,
    }));
    let ids = [0, 1, 4095, 4096, 0xFF_FFFE, 0xFF_FFFF, 0x100_0000, u64::MAX];
    for id in ids {
        for kind in 0..=255 {
            for peer in [0, 7, 8, 65_535] {
                run.push(Record::Binding {
                    peer,
                    kind,
                    id,
                    tenant: kind,
                });
            }
        }
    }
    run
}

/// What is added to a number in range: its low bits stay as they were.
const FAR: [u32; 6] = [256, 65_536, 1 << 17, 1 << 24, 1 << 31, u32::MAX - 65_535];

/// Numbers whose low bits would be in range: with each of a call's numbers in
/// turn, and with all.
fn wide(prng: &mut Prng) -> Vec<Record> {
    let mut run: Vec<Record> = FAR.into_iter().flat_map(wide_starts).collect();
    run.extend(set_up(prng));
    for more in FAR {
        run.extend(wide_bindings(more));
        run.extend((0..3).map(|binding| Record::Wrap {
            binding: binding + more,
            segment: 0,
            identifier: 1,
            output_length: 200,
            frame: inner(prng, 60),
        }));
    }
    run
}

fn wide_starts(more: u32) -> Vec<Record> {
    let start = |port, mtu| Record::Start {
        own: OWN,
        port,
        mtu,
    };
    let mut run = Vec::new();
    for (port, mtu) in [(more, 0), (0, more), (more, more)] {
        run.push(start(u32::from(PORT) + port, 1500 + mtu));
        run.push(Record::Peer {
            address: FROM_A.from,
        });
    }
    run.push(start(more + 1, 66_000));
    run
}

fn wide_bindings(more: u32) -> Vec<Record> {
    let mut run = Vec::new();
    for which in 1..8u32 {
        let by = |bit: u32| if which & bit == 0 { 0 } else { more };
        for (kind, tenant) in [(1, 7), (2, 0), (3, 65_535)] {
            run.push(Record::Binding {
                peer: by(1),
                kind: kind + by(2),
                id: ID + 1,
                tenant: by(4).wrapping_add(tenant),
            });
        }
    }
    run
}

/// Places that just fit, just do not, and whose numbers are near the largest:
/// of packets of several lengths, and of a long and of a short memory.
fn places(prng: &mut Prng) -> Vec<Record> {
    let mut run = set_up(prng);
    for memory in [0, 1, 1728, ENOUGH] {
        run.push(Record::Lend {
            length: memory as u32,
            seed: prng.draw() as u32,
        });
        for packet in [0, 1, 20, 50, 1500] {
            run.push(receive(vec![0; packet]));
            let ends = [0, 1, packet, memory, 1 << 32, usize::MAX];
            let near = |end: usize| (0..5usize).map(move |i| end.wrapping_add(i).wrapping_sub(2));
            let numbers: Vec<u64> = ends
                .into_iter()
                .flat_map(near)
                .map(|number| number as u64)
                .collect();
            for &start in &numbers {
                for &length in &numbers {
                    for in_memory in [false, true] {
                        run.push(Record::View {
                            in_memory,
                            start,
                            length,
                        });
                    }
                }
            }
        }
    }
    run
}

/// Bytes of no meaning, some behind a good IPv4 header.
fn noise(prng: &mut Prng) -> Vec<Record> {
    let mut run = set_up(prng);
    for _ in 0..20_000 {
        let length = prng.below(120);
        let bytes = prng.bytes(length);
        let protocol = prng.pick(&[packet::UDP, packet::TCP, packet::GRE]);
        run.push(receive(packet::ipv4(FROM_A, protocol, &bytes)));
        run.push(receive(bytes));
        run.push(Record::Tick);
    }
    run
}

/// Every length of a frame on every kind, at several MTUs: each segment and one
/// more, into an output that just has room, that lacks one byte, and that has
/// room to spare.
fn wraps(prng: &mut Prng) -> Vec<Record> {
    let mut run = Vec::new();
    for mtu in [576, 577, 1000, 1500, 1600] {
        run.extend(set_up(prng));
        run.push(Record::Start {
            own: OWN,
            port: PORT.into(),
            mtu,
        });
        let listing: Vec<Record> = run[1..5].to_vec();
        run.extend(listing);
        for length in 0..=1516 {
            let frame = inner(prng, length);
            let room = mtu as usize - 40;
            let segments = (18 + length).div_ceil(room);
            for (binding, segment) in (0..=segments as u32).map(|segment| (2, segment)).chain([
                (0, 0),
                (0, 1),
                (1, 0),
                (1, 1),
                (3, 0),
            ]) {
                let sent = (18 + length).saturating_sub(segment as usize * room);
                let packet = match binding {
                    0 => 36 + length,
                    1 => 28 + length,
                    _ => 40 + sent.min(room),
                };
                run.push(Record::Wrap {
                    binding,
                    segment,
                    identifier: prng.draw() as u32,
                    output_length: prng.pick(&[packet, packet - 1, packet + 9]) as u16,
                    frame: frame.clone(),
                });
            }
        }
    }
    run
}
