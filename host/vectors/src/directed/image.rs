//! The settings image: saves (18, 21) and loads (24).

use super::*;
use crate::image::{Bound, Image, BINDING, FIXED, PEER, PEER_COUNT};
use crate::packet::{vxlan, T};
use niulassenc_reference::Observed::{Duplicate, Known, New};

pub const CASES: &[(&str, Case)] = &[
    ("save and load of an image by hand", by_hand),
    ("images of many shapes", shapes),
    ("settings of an image at their bounds", settings),
    ("saves of a refused start", refused_start),
    ("letters and versions", letters_and_versions),
    ("peers of an image", peers),
    ("bindings of an image", bindings),
    ("repeats in an image", repeats),
    ("counts of an image", counts),
    ("images cut short, and with bytes behind", lengths),
    ("one byte of an image", one_byte),
    ("saves with frames pending", saved_while_pending),
    ("a load in a run", loaded_while_pending),
    ("refused loads in a run", refused_while_pending),
    ("a load empties the detector", detectors),
    ("what was loaded is added to", added_to),
];

const fn bound(peer: u8, kind: u8, id: u64, tenant: u16) -> Bound {
    Bound {
        peer,
        kind,
        id,
        tenant,
    }
}

/// What `set_up` lists.
fn image() -> Image {
    let networks = |peer: u8| {
        let tenant = 100 * (u16::from(peer) + 1);
        [
            bound(peer, VXLAN, 22, tenant + 1),
            bound(peer, NVGRE, 4096, tenant + 2),
            bound(peer, STT, CONTEXT, tenant + 3),
        ]
    };
    Image {
        own: OWN,
        port: PORT,
        mtu: 1500,
        peers: vec![PEER_A, PEER_B],
        bindings: [networks(0), networks(1)].concat(),
    }
}

/// So many peers, and so many bindings of all kinds, by turns of the peers.
fn sized(peers: usize, bindings: usize) -> Image {
    let binding = |number: usize| {
        let peer = number % peers.max(1);
        let kind = number / peers.max(1) % 3 + 1;
        bound(peer as u8, kind as u8, 4096 + number as u64, number as u16)
    };
    Image {
        peers: (0..peers).map(|number| PEER_A + number as u32).collect(),
        bindings: (0..bindings).map(binding).collect(),
        ..image()
    }
}

/// One peer with one binding.
fn shortest() -> Image {
    sized(1, 1)
}

fn by_hand(r: &mut Recorder, _: &mut Prng) {
    r.start(0, OWN, PORT, 1500);
    let empty = b"TWN\x00\x01\x0a\x00\x00\x01\x1d\x2f\x05\xdc\x00\x00";
    r.save(0, empty.len());
    assert_eq!(r.driver.written(), empty);
    r.load(0, empty);
    r.peer(0, PEER_A);
    r.binding(0, 0, STT, CONTEXT, 0xFEDC);
    let one = b"TWN\x00\x01\x0a\x00\x00\x01\x1d\x2f\x05\xdc\x01\x0a\x00\x00\x02\
        \x01\x00\x03\x01\x23\x45\x67\x89\xab\xcd\xef\xfe\xdc";
    r.save(0, one.len());
    assert_eq!(r.driver.written(), one);
    r.load(0, one);
    r.load(24, &[]);
    r.save(0, 2000);
}

/// Each is saved into outputs that just have room, lack one byte, have some to
/// spare, and have none.
fn shapes(r: &mut Recorder, _: &mut Prng) {
    r.start(0, OWN, PORT, 1500);
    for (peers, bindings) in [(0, 0), (1, 0), (1, 1), (2, 6), (8, 0), (3, 25), (1, 64)] {
        shape(r, peers, bindings);
    }
    shape(r, 8, 64);
}

fn shape(r: &mut Recorder, peers: usize, bindings: usize) {
    let bytes = sized(peers, bindings).bytes();
    let length = FIXED + PEER * peers + BINDING * bindings;
    assert_eq!(bytes.len(), length);
    r.load(0, &bytes);
    for (code, output) in [
        (21, 0),
        (21, 1),
        (21, length - 1),
        (0, length),
        (0, length + 1),
        (0, 2000),
    ] {
        r.save(code, output);
    }
    assert_eq!(r.driver.written(), bytes);
}

fn settings(r: &mut Recorder, _: &mut Prng) {
    r.start(0, OWN, PORT, 1500);
    let with = |change: fn(&mut Image, u32), value| shortest().with(|image| change(image, value));
    let own = |image: &mut Image, value| image.own = value;
    let port = |image: &mut Image, value: u32| image.port = value as u16;
    let mtu = |image: &mut Image, value: u32| image.mtu = value as u16;
    for address in [0x0100_0000, 0x7F00_0001, 0xDFFF_FFFF] {
        r.load(0, &with(own, address));
        r.save(0, 40);
    }
    for address in [0, 0x00FF_FFFF, 0xE000_0000, 0xFFFF_FFFF, PEER_A] {
        r.load(24, &with(own, address));
    }
    for (code, value) in [(24, 0), (0, 1), (0, 0x0100), (0, 65_535)] {
        r.load(code, &with(port, value));
    }
    for value in [576, 577, 1600] {
        r.load(0, &with(mtu, value));
    }
    for value in [0, 575, 1601, 576 + 0x8000, 65_535] {
        r.load(24, &with(mtu, value));
    }
    // What a refused start has is no image of an endpoint.
    r.load(24, &[b"TWN\x00\x01".as_slice(), &[0; 10]].concat());
    r.save(0, 40);
}

/// 18 comes before 21, and a refused load leaves the refused start.
fn refused_start(r: &mut Recorder, _: &mut Prng) {
    for (own, port, mtu) in [(OWN, PORT, 575), (OWN, 0, 1500), (0, PORT, 1500)] {
        r.start(18, own, port, mtu);
        for output in [0, 14, 15, 2000] {
            r.save(18, output);
        }
    }
    r.load(24, &image().bytes()[1..]);
    r.save(18, 0);
    r.save(18, 2000);
    r.peer(18, PEER_A);
    r.load(0, &shortest().bytes());
    r.save(21, 0);
    r.save(0, 2000);
    r.peer(0, PEER_B);
}

fn letters_and_versions(r: &mut Recorder, _: &mut Prng) {
    r.start(0, OWN, PORT, 1500);
    let good = shortest().bytes();
    for letters in [b"twn", b"TWM", b"SWN", b"TVN", b"NWT", b"TRP", b"\0\0\0"] {
        r.load(24, &[letters, &good[3..]].concat());
    }
    for version in [0, 2, 3, 256, 257, 0xFFFF_u16] {
        let bytes = version.to_be_bytes();
        r.load(24, &[&good[..3], &bytes, &good[5..]].concat());
    }
    r.load(0, &good);
}

fn peers(r: &mut Recorder, _: &mut Prng) {
    r.start(0, OWN, PORT, 1500);
    let two = sized(2, 2);
    for number in 0..2 {
        let mut peer =
            |code, address| r.load(code, &two.with(|image| image.peers[number] = address));
        for good in [0x0100_0000, 0xDFFF_FFFF] {
            peer(0, good);
        }
        for wrong in [0, 0x00FF_FFFF, 0xE000_0000, 0xFFFF_FFFF, OWN] {
            peer(24, wrong);
        }
    }
    for number in [0, 6, 7] {
        let full = sized(8, 8);
        r.load(24, &full.with(|image| image.peers[number] = OWN));
        r.load(24, &full.with(|image| image.peers[number] = 0));
    }
    r.save(0, 60);
}

fn bindings(r: &mut Recorder, _: &mut Prng) {
    r.start(0, OWN, PORT, 1500);
    let two = sized(2, 2);
    let mut binding = |code, peer, kind, id| {
        let last = bound(peer, kind, id, 0xFF00);
        r.load(code, &two.with(|image| image.bindings[1] = last));
    };
    for peer in [2, 3, 8, 255] {
        binding(24, peer, VXLAN, 22);
    }
    for kind in [0, 4, 128, 129, 130, 131, 255] {
        binding(24, 1, kind, 4096);
    }
    let ids = [0, 1, 4095, 4096, 0xFF_FFFE, 0xFF_FFFF, 0x100_0000];
    let others = [1 << 32 | 4096, 1 << 63 | 4096, u64::MAX];
    for id in ids.into_iter().chain(others) {
        binding(if id <= 0xFF_FFFF { 0 } else { 24 }, 1, VXLAN, id);
        let reserved = !(4096..=0xFF_FFFE).contains(&id);
        binding(if reserved { 24 } else { 0 }, 0, NVGRE, id);
        binding(0, 1, STT, id);
    }
    // The peer's number equals the count.
    for peers in [1, 7, 8] {
        let listed = sized(peers, 1);
        let last = |peer: usize| listed.with(|image| image.bindings[0].peer = peer as u8);
        r.load(24, &last(peers));
        r.load(0, &last(peers - 1));
    }
    r.load(24, &sized(0, 1).bytes());
    r.save(0, 60);
}

/// Peers by address, bindings by peer, kind and id: the tenant does not count.
fn repeats(r: &mut Recorder, _: &mut Prng) {
    r.start(0, OWN, PORT, 1500);
    let eight = sized(8, 0);
    for (from, to) in [(0, 1), (0, 7), (7, 0), (6, 7), (3, 4)] {
        r.load(24, &eight.with(|image| image.peers[to] = image.peers[from]));
    }
    let two =
        |second| sized(2, 2).with(|image| image.bindings = vec![bound(0, VXLAN, 5000, 7), second]);
    r.load(24, &two(bound(0, VXLAN, 5000, 7)));
    r.load(24, &two(bound(0, VXLAN, 5000, 8)));
    r.load(0, &two(bound(1, VXLAN, 5000, 7)));
    r.load(0, &two(bound(0, NVGRE, 5000, 7)));
    r.load(0, &two(bound(0, STT, 5000, 7)));
    r.load(0, &two(bound(0, VXLAN, 5001, 7)));
    for from in [0, 62] {
        let repeat = |image: &mut Image| image.bindings[63] = image.bindings[from];
        r.load(24, &sized(8, 64).with(repeat));
    }
    r.save(0, 60);
}

fn counts(r: &mut Recorder, _: &mut Prng) {
    r.start(0, OWN, PORT, 1500);
    r.load(24, &sized(9, 0).bytes());
    r.load(24, &sized(9, 1).bytes());
    r.load(24, &sized(1, 65).bytes());
    // The bytes of one more, or of one less, than the count says.
    let good = sized(3, 3).bytes();
    for at in [PEER_COUNT, PEER_COUNT + 1 + 3 * PEER] {
        assert_eq!(good[at], 3);
        for count in [0, 1, 2, 4, 8, 9, 64, 65, 128, 255] {
            let mut bytes = good.clone();
            bytes[at] = count;
            r.load(24, &bytes);
        }
    }
    r.load(0, &good);
}

fn lengths(r: &mut Recorder, _: &mut Prng) {
    r.start(0, OWN, PORT, 1500);
    let good = sized(2, 2).bytes();
    for length in 0..good.len() {
        r.load(24, &good[..length]);
    }
    for more in [&[0][..], &[1], &[0xFF], &[0; PEER], &[0; BINDING]] {
        r.load(24, &[&good, more].concat());
    }
    let full = sized(8, 64).bytes();
    r.load(24, &full[..full.len() - 1]);
    r.load(24, &[&full[..], &[0]].concat());
    r.load(0, &good);
}

/// Another value at each place. Where the image is still good, it is saved to
/// the same bytes.
fn one_byte(r: &mut Recorder, prng: &mut Prng) {
    r.start(0, OWN, PORT, 1500);
    let good = sized(2, 3).bytes();
    for at in 0..good.len() {
        let mut bytes = good.clone();
        bytes[at] ^= 1 << prng.below(8);
        if r.try_load(&bytes) == Some(0) {
            r.save(0, bytes.len() + 1);
            assert_eq!(r.driver.written(), bytes);
        }
    }
}

/// Two frames of peer A and one of peer B, the first segment of each.
fn begin_frames(r: &mut Recorder, frame: &[u8]) {
    r.receive(1, &part(1, frame, 0, 30));
    r.tick();
    r.receive(1, &part(2, frame, 30, frame.len()));
    let label = Label::new(PORT, 1, frame.len(), 0);
    r.receive(1, &packet::segment(FROM_B, label, &frame[..30]));
}

/// The image is that of the set-up, and the frames stay pending.
fn saved_while_pending(r: &mut Recorder, prng: &mut Prng) {
    set_up(r, prng.draw() as u32);
    let (frame, image) = (good_frame(prng, 90), image().bytes());
    r.save(0, image.len());
    assert_eq!(r.driver.written(), image);
    begin_frames(r, &frame);
    r.save(0, image.len());
    assert_eq!(r.driver.written(), image);
    r.save(21, image.len() - 1);
    r.receive(16, &part(1, &frame, 0, 30));
    r.receive(0, &part(2, &frame, 0, 30));
    r.receive(0, &part(1, &frame, 30, frame.len()));
}

/// The slots are free: what comes next begins a frame, in the memory that was
/// lent before.
fn loaded_while_pending(r: &mut Recorder, prng: &mut Prng) {
    set_up(r, prng.draw() as u32);
    let frame = good_frame(prng, 90);
    begin_frames(r, &frame);
    r.load(0, &image().bytes());
    r.receive(1, &part(1, &frame, 30, frame.len()));
    r.receive(0, &part(1, &frame, 0, 30));
    r.receive(1, &part(2, &frame, 30, frame.len()));
    // Four ticks from the load on, and not three.
    r.ticks(3);
    r.receive(0, &part(2, &frame, 0, 30));
    for identifier in 3..7 {
        r.receive(1, &part(identifier, &frame, 0, 30));
    }
    r.receive(17, &part(7, &frame, 0, 30));
    // Another listing: peer B alone, as number 0, and only its STT network.
    let other = Image {
        peers: vec![PEER_B],
        bindings: vec![bound(0, STT, CONTEXT, 9)],
        ..image()
    };
    r.load(0, &other.bytes());
    r.receive(7, &part(3, &frame, 30, frame.len()));
    r.receive(12, &vxlan(FROM_B, 22, &T));
    let parts = packet::cut(FROM_B, PORT, 3, &frame, &[30]);
    r.receive(1, &parts[1]);
    r.receive(0, &parts[0]);
}

/// Whatever was pending is pending still.
fn refused_while_pending(r: &mut Recorder, prng: &mut Prng) {
    set_up(r, prng.draw() as u32);
    let frame = good_frame(prng, 90);
    begin_frames(r, &frame);
    let good = image().bytes();
    let other = sized(1, 0).bytes();
    r.load(24, &[]);
    r.load(24, &good[..good.len() - 1]);
    r.load(24, &[&other[..], &[0]].concat());
    r.load(24, &image().with(|image| image.peers[1] = OWN));
    r.load(24, &image().with(|image| image.bindings[5].kind = 4));
    r.save(0, good.len());
    assert_eq!(r.driver.written(), good);
    r.receive(15, &loose(1, 91, 30, &[0; 5]));
    r.receive(0, &part(1, &frame, 30, frame.len()));
    r.receive(0, &part(2, &frame, 0, 30));
    r.receive(0, &vxlan(FROM_B, 22, &T));
}

/// A load is a start for the detector too; one that is refused is none.
fn detectors(r: &mut Recorder, prng: &mut Prng) {
    set_up(r, prng.draw() as u32);
    r.observe(New, 7, 2, 1);
    r.load(24, &[]);
    r.observe(Known, 7, 2, 1);
    r.save(0, 2000);
    r.observe(Duplicate { first: 2 }, 7, 3, 1);
    r.load(0, &image().bytes());
    r.observe(New, 7, 3, 1);
}

fn added_to(r: &mut Recorder, prng: &mut Prng) {
    set_up(r, prng.draw() as u32);
    r.load(0, &sized(7, 63).bytes());
    r.peer(19, PEER_A);
    r.peer(0, PEER_A + 7);
    r.peer(20, PEER_A + 8);
    r.binding(19, 0, VXLAN, 4096, 5);
    r.binding(0, 7, VXLAN, 4096, 5);
    r.binding(20, 7, NVGRE, 4096, 5);
    r.save(21, 814);
    r.save(0, 815);
    r.save(0, 816);
    r.wrap(0, 63, 0, 100, &T);
    r.wrap(0, 0, 0, 100, &T);
    r.receive(0, &vxlan(FROM_A, 4096, &T));
}
