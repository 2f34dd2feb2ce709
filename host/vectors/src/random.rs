//! The random part: random set-ups, packets of each kind, STT frames cut and
//! mixed, ticks, views, wraps, saves, loads, and damaged packets and images. Most
//! of the damaged packets get their checksums repaired, so that the later checks
//! are reached.

use crate::image::{Image, FIXED};
use crate::packet::{self, get16, put16, Label, Path, T};
use crate::prng::Prng;
use crate::recorder::Recorder;

/// How many steps one set-up lasts.
const SCENE_STEPS: usize = 250;

/// Chance, in percent, that a step lends another memory while frames may be
/// pending. Demand 1 asks for one answer with memory of any contents; the
/// map in the memory then says what was received.
const SWAP_MEMORY_PERCENT: usize = 1;

const LONGEST_PACKET: usize = 1600;

/// The network ids that scenes draw from, by kind 1, 2, 3. Few, so that
/// repeats and near misses are common.
const IDS: [&[u64]; 3] = [
    &[0, 1, 22, 4096, 0xFF_FFFF],
    &[4096, 4097, 0x01_0000, 0xFF_FFFE],
    &[0, 1, 1 << 32, 0x0123_4567_89AB_CDEF, u64::MAX],
];

/// The tenants and the source addresses that many frames have, so that a detector
/// sees some again, and from other peers.
const TENANTS: [u16; 3] = [0, 7, 0xFFFF];
const SOURCES: [u8; 4] = [1, 2, 3, 0xFF];

/// What the generator knows of the endpoint it talks to.
struct Scene {
    own: u32,
    port: u16,
    peers: Vec<u32>,
    bindings: Vec<(usize, u8, u64)>,
    waiting: Vec<Vec<u8>>,
    sent: Vec<Vec<u8>>,
    next_identifier: u32,
    /// Whether a packet came since the start or the last load, so that there is one
    /// to view.
    received: bool,
    /// The settings image of the set-up, before anything was added to it.
    first_image: Vec<u8>,
}

/// Makes `count` steps, the set-ups not counted.
pub fn steps(recorder: &mut Recorder, prng: &mut Prng, count: usize) {
    recorder.case = "random";
    let mut scene = set_up(recorder, prng);
    for number in 0..count {
        if number > 0 && number % SCENE_STEPS == 0 {
            scene = set_up(recorder, prng);
        }
        scene.step(recorder, prng);
    }
}

fn set_up(recorder: &mut Recorder, prng: &mut Prng) -> Scene {
    let mut scene = Scene {
        own: 0x0A00_0001 + prng.below(3) as u32,
        port: prng.pick(&[7471, 4789, 1, 65_535]),
        peers: Vec::new(),
        bindings: Vec::new(),
        waiting: Vec::new(),
        sent: Vec::new(),
        next_identifier: prng.draw() as u32,
        received: false,
        first_image: Vec::new(),
    };
    let mtu = prng.pick(&[576, 600, 1000, 1500, 1600]);
    recorder.try_start(scene.own, scene.port, mtu);
    for _ in 0..prng.between(1, 9) {
        scene.add_peer(recorder, prng);
    }
    for _ in 0..prng.between(6, 30) {
        scene.add_binding(recorder, prng);
    }
    lend(recorder, prng);
    scene.first_image = image(recorder);
    scene
}

/// The settings image of the present endpoint.
fn image(recorder: &Recorder) -> Vec<u8> {
    Image::of(&recorder.driver.endpoint).bytes()
}

fn lend(recorder: &mut Recorder, prng: &mut Prng) {
    let length = prng.pick(&[55_296, 55_296, 55_297, 60_000]);
    recorder.lend(length, prng.draw() as u32);
}

/// An inner frame, short mostly; most of them carry IP, or miss it by a little.
fn inner(prng: &mut Prng) -> Vec<u8> {
    let mut frame = if prng.percent(60) {
        over_ip(prng)
    } else {
        of_any_kind(prng)
    };
    if frame.len() >= 14 && prng.percent(70) {
        frame[6..12].copy_from_slice(&[2, 0, 0, 0, 0, prng.pick(&SOURCES)]);
    }
    frame
}

/// A frame of drawn bytes, now and then one that breaks its rule.
fn of_any_kind(prng: &mut Prng) -> Vec<u8> {
    let length = match prng.below(40) {
        0 | 1 => prng.between(0, 13),
        2 => prng.pick(&[1514, 1515, 500, 1464, 1465]),
        _ => prng.between(14, 36),
    };
    let mut frame = prng.bytes(length);
    if length >= 14 {
        let tag = prng.pick(&[0x8100, 0x88A8]);
        let kind = prng.pick(&[0x0800, 0x86DD, 0x0806, 46]);
        put16(&mut frame, 12, if prng.percent(8) { tag } else { kind });
    }
    frame
}

/// A frame with an IP header, mostly in front of TCP or UDP, that ends at the header
/// or a little behind; one of three has one field that is off by a little.
fn over_ip(prng: &mut Prng) -> Vec<u8> {
    let words = if prng.percent(80) {
        5
    } else {
        prng.between(6, 15)
    };
    let is_ipv4 = prng.percent(55);
    let end = 14 + if is_ipv4 { 4 * words } else { 40 };
    let length = match prng.below(100) {
        0 => prng.pick(&[1514, 600]),
        _ => end + prng.below(4),
    };
    let mut frame = prng.bytes(length);
    let other = prng.pick(&[0, 1, 41, 44, 47, 58]);
    let protocol = prng.pick(&[6, 17, 6, 17, 6, 17, 6, 17, other]);
    if is_ipv4 {
        packet::put_ipv4(&mut frame, words as u8, protocol);
    } else {
        packet::put_ipv6(&mut frame, protocol);
    }
    if prng.percent(33) {
        miss_ip(prng, &mut frame, end);
    }
    frame
}

/// Changes one of the fields that the look into the frame asks for: type, version,
/// header length, fragment, protocol, or the frame's end; or puts a tag before the type.
fn miss_ip(prng: &mut Prng, frame: &mut Vec<u8>, end: usize) {
    let up = prng.percent(50);
    let near = |byte: u8, step: u8| {
        if up {
            byte.wrapping_add(step)
        } else {
            byte.wrapping_sub(step)
        }
    };
    match prng.below(8) {
        0 => frame[13] = near(frame[13], 1),
        1 => frame[14] = near(frame[14], 0x10),
        2 => frame[14] = near(frame[14], 1),
        3 => put16(frame, 20, prng.pick(&[1, 0x2000, 0x2001, 0x1000, 0x8000])),
        4 => {
            let at = if frame[12] == 0x08 { 23 } else { 20 };
            frame[at] = near(frame[at], 1);
        }
        5 => {
            // The other version's type, before this one's header.
            let kind = if frame[12] == 0x08 { 0x86DD } else { 0x0800 };
            put16(frame, 12, kind);
        }
        6 => {
            let tag = prng.pick(&[[0x81, 0x00], [0x88, 0xA8]]);
            frame.splice(12..12, [tag[0], tag[1], 0, 9]);
        }
        _ => frame.truncate(end - 1),
    }
}

impl Scene {
    fn step(&mut self, recorder: &mut Recorder, prng: &mut Prng) {
        match prng.below(100) {
            0..=7 => recorder.tick(),
            8..=11 if self.received => view(recorder, prng),
            12..=26 => self.wrap(recorder, prng),
            27 => self.add_peer(recorder, prng),
            28 => self.add_binding(recorder, prng),
            29 => self.memory_too_short(recorder, prng),
            n if n < 30 + SWAP_MEMORY_PERCENT => lend(recorder, prng),
            98 => save(recorder, prng),
            99 => self.load(recorder, prng),
            _ => self.receive(recorder, prng),
        }
    }

    fn add_peer(&mut self, recorder: &mut Recorder, prng: &mut Prng) {
        let address = match prng.below(12) {
            0 => self.own,
            1 => prng.draw() as u32,
            2 => 0xE000_0000 + prng.below(5) as u32,
            _ => 0x0A00_0000 + prng.between(2, 14) as u32,
        };
        if recorder.try_peer(address) == Some(0) {
            self.peers.push(address);
        }
    }

    fn add_binding(&mut self, recorder: &mut Recorder, prng: &mut Prng) {
        let peer = prng.below(self.peers.len() + 1);
        let kind = if prng.percent(4) {
            prng.byte()
        } else {
            prng.between(1, 3) as u8
        };
        let ids = IDS[usize::from(kind).clamp(1, 3) - 1];
        let id = match prng.below(12) {
            0 => prng.draw(),
            1 => prng.pick(IDS[0]),
            _ => prng.pick(ids),
        };
        let tenant = if prng.percent(60) {
            prng.pick(&TENANTS)
        } else {
            prng.draw() as u16
        };
        if recorder.try_binding(peer as u16, kind, id, tenant) == Some(0) {
            self.bindings.push((peer, kind, id));
        }
    }

    /// One packet with too little memory, then enough memory again, of other
    /// contents.
    fn memory_too_short(&mut self, recorder: &mut Recorder, prng: &mut Prng) {
        let length = prng.pick(&[0, 1, 1728, 55_295]);
        recorder.lend(length, prng.draw() as u32);
        let packet = self.datagram(prng);
        recorder.try_receive(&packet);
        lend(recorder, prng);
    }

    fn wrap(&mut self, recorder: &mut Recorder, prng: &mut Prng) {
        let binding = self.binding_to_wrap(prng) as u16;
        let frame = inner(prng);
        let segment = match prng.below(8) {
            0 => prng.between(1, 3) as u32,
            1 => prng.draw() as u32,
            _ => 0,
        };
        let output = match prng.below(4) {
            0 => frame.len() + prng.between(20, 60),
            _ => prng.between(frame.len() + 58, 1600),
        };
        recorder.try_wrap(binding, segment, prng.draw() as u32, output, &frame);
    }

    /// One of STT, mostly: its header has hints. Or any, or one that is not there.
    fn binding_to_wrap(&self, prng: &mut Prng) -> usize {
        let bindings = 0..self.bindings.len();
        let stt: Vec<_> = bindings.filter(|&n| self.bindings[n].1 == 3).collect();
        if stt.is_empty() || prng.percent(25) {
            return prng.below(self.bindings.len() + 1);
        }
        prng.pick(&stt)
    }

    /// An image that is good, mostly, or has one fault. Where it is taken, the
    /// frames that wait are sent to the endpoint that it gives.
    fn load(&mut self, recorder: &mut Recorder, prng: &mut Prng) {
        let present = image(recorder);
        let bytes = match prng.below(10) {
            0..=2 => saved(recorder),
            3 => self.first_image.clone(),
            4..=6 => changed(prng, present),
            7 => present[..prng.below(present.len())].to_vec(),
            8 => {
                let count = prng.between(1, 12);
                [present, prng.bytes(count)].concat()
            }
            _ => {
                let fault = changed(prng, present);
                changed(prng, fault)
            }
        };
        if recorder.try_load(&bytes) == Some(0) {
            self.read_listing(recorder);
            self.received = false;
        }
    }

    /// What the endpoint has after a load.
    fn read_listing(&mut self, recorder: &Recorder) {
        let image = Image::of(&recorder.driver.endpoint);
        let bindings = image.bindings.iter();
        (self.own, self.port) = (image.own, image.port);
        self.bindings = bindings.map(|b| (b.peer.into(), b.kind, b.id)).collect();
        self.peers = image.peers;
    }

    fn receive(&mut self, recorder: &mut Recorder, prng: &mut Prng) {
        self.received = true;
        let packet = match prng.below(100) {
            0..=17 => self.datagram(prng),
            18..=23 if !self.sent.is_empty() => self.sent[prng.below(self.sent.len())].clone(),
            24..=27 => {
                let (path, _) = self.network(prng, 3);
                stray_segment(prng, path, self.port)
            }
            _ => self.segment(prng),
        };
        if prng.percent(30) {
            let damaged = damaged(prng, &packet);
            recorder.try_receive(&damaged);
            if prng.percent(30) {
                return;
            }
        }
        recorder.try_receive(&packet);
        self.sent.push(packet);
        if self.sent.len() > 20 {
            self.sent.remove(0);
        }
    }

    /// A peer and an id of the kind: mostly a listed pair.
    fn network(&self, prng: &mut Prng, kind: u8) -> (Path, u64) {
        let listed: Vec<_> = self.bindings.iter().filter(|b| b.1 == kind).collect();
        let (from, id) = if listed.is_empty() || prng.percent(8) {
            let from = match self.peers.len() {
                0 => 0x0A00_0002,
                _ if prng.percent(10) => 0x0A00_0000 + prng.between(2, 14) as u32,
                count => self.peers[prng.below(count)],
            };
            (from, prng.pick(IDS[usize::from(kind) - 1]))
        } else {
            let binding = listed[prng.below(listed.len())];
            (self.peers[binding.0], binding.2)
        };
        (Path { from, to: self.own }, id)
    }

    fn datagram(&self, prng: &mut Prng) -> Vec<u8> {
        let frame = inner(prng);
        if prng.percent(45) {
            let (path, id) = self.network(prng, 2);
            return packet::nvgre(path, id as u32, &frame);
        }
        let (path, id) = self.network(prng, 1);
        if prng.percent(50) {
            packet::vxlan(path, id as u32, &frame)
        } else {
            packet::vxlan_summed(path, id as u32, &frame)
        }
    }

    /// One of the segments that wait to be sent, in no order.
    fn segment(&mut self, prng: &mut Prng) -> Vec<u8> {
        while self.waiting.len() < 5 {
            self.cut_frame(prng);
        }
        let chosen = prng.below(self.waiting.len().min(7));
        self.waiting.remove(chosen)
    }

    fn cut_frame(&mut self, prng: &mut Prng) {
        let (path, id) = self.network(prng, 3);
        let frame = self.stt_frame(prng, id);
        let identifier = if prng.percent(15) {
            prng.below(4) as u32
        } else {
            self.next_identifier = self.next_identifier.wrapping_add(1);
            self.next_identifier
        };
        let mut cuts: Vec<usize> = (0..prng.below(3))
            .map(|_| prng.between(1, frame.len() - 1))
            .collect();
        cuts.sort_unstable();
        cuts.dedup();
        let parts = packet::cut(path, self.port, identifier, &frame, &cuts);
        self.waiting.extend(parts);
    }

    fn stt_frame(&self, prng: &mut Prng, id: u64) -> Vec<u8> {
        let mut frame = packet::stt_frame(id, &inner(prng));
        if frame.len() < 32 || frame.len() > 1532 {
            frame = packet::stt_frame(id, &T);
        }
        // Hints of all sorts: only the two flags together count, with TCP or UDP.
        frame[1] = prng.byte();
        frame[2] = prng.byte();
        frame[4..8].copy_from_slice(&prng.bytes(4));
        if prng.percent(20) {
            frame[1] |= 0x03;
        }
        // Now and then a field that is not ignored.
        if prng.percent(6) {
            let at = prng.below(16);
            frame[at] = prng.byte();
        }
        if prng.percent(3) {
            frame[0] = prng.pick(&[1, 0x80]);
        }
        frame
    }
}

/// Into an output that has room, just has room, or has not.
fn save(recorder: &mut Recorder, prng: &mut Prng) {
    let length = image(recorder).len();
    let output = match prng.below(8) {
        0 => prng.below(length),
        1 => length - 1,
        2 => length,
        3 => length + 1,
        _ => prng.between(length, 1000),
    };
    recorder.try_save(output);
}

/// What a save of the present endpoint writes.
fn saved(recorder: &mut Recorder) -> Vec<u8> {
    recorder.try_save(1000);
    recorder.driver.written().to_vec()
}

/// The image with one byte changed, often one of those that every image has.
fn changed(prng: &mut Prng, mut image: Vec<u8>) -> Vec<u8> {
    let reach = if prng.percent(40) { FIXED } else { image.len() };
    let byte = &mut image[prng.below(reach)];
    *byte = match prng.below(4) {
        0 => byte.wrapping_add(1),
        1 => byte.wrapping_sub(1),
        2 => *byte ^ 1 << prng.below(8),
        _ => prng.byte(),
    };
    image
}

fn view(recorder: &mut Recorder, prng: &mut Prng) {
    let in_memory = prng.percent(50);
    let driver = &recorder.driver;
    let length = if in_memory {
        driver.memory.len()
    } else {
        driver.last_packet.len()
    };
    let start = prng.below(length + 2) as u64;
    let count = match prng.below(6) {
        0 => prng.draw(),
        1 => (length as u64).wrapping_sub(start),
        2 => (length as u64).wrapping_sub(start).wrapping_add(1),
        _ => prng.below(200) as u64,
    };
    recorder.view(in_memory, start, count);
}

/// The packet with one fault, or with one freedom that it may take.
fn damaged(prng: &mut Prng, packet: &[u8]) -> Vec<u8> {
    let mut copy = packet.to_vec();
    match prng.below(100) {
        0..=24 => return differently_shaped(prng, packet),
        25..=49 if packet[9] != packet::TCP => return wrong_tunnel_header(prng, packet),
        _ => change_field(prng, &mut copy),
    }
    if prng.percent(85) {
        packet::repair(&mut copy);
    }
    copy
}

/// A VXLAN or NVGRE packet, with options now and then, that lacks its flag, or has
/// any of the four bytes wrong that a GRE header begins with. What an STT frame has
/// wrong comes with the frame.
fn wrong_tunnel_header(prng: &mut Prng, packet: &[u8]) -> Vec<u8> {
    let room = LONGEST_PACKET.saturating_sub(packet.len());
    let words = if room < 40 { 0 } else { prng.below(11) as u8 };
    let optioned = packet::with_ip_options(packet, words);
    let header = packet::header_length(&optioned);
    packet::edited(&optioned, |copy| {
        if packet[9] == packet::UDP {
            copy[header + 8] = prng.byte() & 0xF7;
            return;
        }
        // From any of them on, so that each is wrong alone now and then.
        for at in prng.below(4)..4 {
            if prng.percent(60) {
                copy[header + at] = prng.byte();
            }
        }
    })
}

/// Options, trailing bytes, truncations, another total length.
fn differently_shaped(prng: &mut Prng, packet: &[u8]) -> Vec<u8> {
    let room = LONGEST_PACKET.saturating_sub(packet.len());
    match prng.below(5) {
        0 if room >= 40 => packet::with_ip_options(packet, prng.between(1, 10) as u8),
        1 if room >= 40 && packet[9] == packet::TCP => {
            packet::with_tcp_options(packet, prng.between(1, 10) as u8)
        }
        2 if room >= 20 => {
            let count = prng.between(1, 20);
            packet::trailed(packet, &prng.bytes(count))
        }
        3 => packet[..prng.below(packet.len())].to_vec(),
        _ => {
            let length = prng.between(20, packet.len());
            packet::resized(packet, length)
        }
    }
}

/// Changes one field of a packet without options.
fn change_field(prng: &mut Prng, packet: &mut [u8]) {
    let words: [usize; 12] = [2, 4, 6, 10, 14, 18, 22, 24, 26, 28, 30, 36];
    let last = packet.len() - 1;
    match prng.below(8) {
        0..=2 => {
            let at = prng.pick(&words).min(last - 1);
            let near = prng.pick(&[1u16, 0xFFFF, 2, 0x0100]);
            let value = get16(packet, at).wrapping_add(near);
            put16(packet, at, value);
        }
        3 => {
            let at = prng.pick(&words).min(last - 1);
            let value = prng.pick(&[0, 0xFFFF, 0x2000, 0x8100, 0x0020]);
            put16(packet, at, value);
        }
        4 => packet[9] = prng.pick(&[0, 1, 6, 17, 47, 255]),
        5 => {
            let at = prng.pick(&[0usize, 20, 21, 28, 32, 33]).min(last);
            packet[at] ^= 1 << prng.below(8);
        }
        6 => {
            let at = prng.below(packet.len().min(60));
            packet[at] ^= 1 << prng.below(8);
        }
        _ => {
            let at = prng.below(packet.len());
            packet[at] = prng.byte();
        }
    }
}

/// A segment of no frame: any label, few bytes.
fn stray_segment(prng: &mut Prng, path: Path, port: u16) -> Vec<u8> {
    let label = Label {
        port,
        identifier: prng.below(4) as u32,
        length: prng.pick(&[31, 32, 33, 40, 1532, 1533]),
        offset: prng.pick(&[0, 1, 8, 31, 32, 1531, 65_535]),
    };
    let count = prng.between(0, 3);
    packet::segment(path, label, &prng.bytes(count))
}
