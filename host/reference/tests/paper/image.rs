//! The settings image: document 02, request 3.

use crate::build::*;
use niulassenc_reference::{Endpoint, Refusal, MAX_IMAGE};

/// What an image says, in numbers that may be out of their ranges.
#[derive(Clone)]
struct Image {
    own: u32,
    port: u16,
    mtu: u16,
    peers: Vec<u32>,
    /// Peer, kind, id, tenant.
    bindings: Vec<(u8, u8, u64, u16)>,
}

impl Image {
    /// Settings alone.
    fn bare() -> Image {
        Image {
            own: OWN,
            port: PORT,
            mtu: 1500,
            peers: Vec::new(),
            bindings: Vec::new(),
        }
    }

    /// Two peers, the second with a network of each kind.
    fn small() -> Image {
        Image {
            peers: vec![PEER, PEER_2],
            bindings: vec![(1, 1, 22, 101), (1, 2, 4096, 102), (1, 3, CONTEXT, 103)],
            ..Image::bare()
        }
    }

    /// So many peers, and so many bindings, by turns of each peer, of every kind.
    fn sized(peers: usize, bindings: usize) -> Image {
        let binding = |number: usize| {
            let peer = (number % peers) as u8;
            let kind = (number / peers % 3 + 1) as u8;
            (peer, kind, 5000 + number as u64, 7 * number as u16)
        };
        Image {
            peers: (0..peers).map(|number| PEER + number as u32).collect(),
            bindings: (0..bindings).map(binding).collect(),
            ..Image::bare()
        }
    }

    fn bytes(&self) -> Vec<u8> {
        let mut bytes = b"TWN\x00\x01".to_vec();
        bytes.extend(self.own.to_be_bytes());
        bytes.extend(self.port.to_be_bytes());
        bytes.extend(self.mtu.to_be_bytes());
        bytes.push(self.peers.len() as u8);
        for peer in &self.peers {
            bytes.extend(peer.to_be_bytes());
        }
        bytes.push(self.bindings.len() as u8);
        for (peer, kind, id, tenant) in &self.bindings {
            bytes.extend([*peer, *kind]);
            bytes.extend(id.to_be_bytes());
            bytes.extend(tenant.to_be_bytes());
        }
        bytes
    }

    /// The endpoint that the calls give: the start, then the adding of each peer
    /// and of each binding.
    fn endpoint(&self) -> Endpoint {
        let (mut endpoint, code) = Endpoint::start(self.own, self.port.into(), self.mtu.into());
        assert_eq!(code, 0);
        for peer in &self.peers {
            assert_eq!(endpoint.add_peer(*peer).code, 0);
        }
        for &(peer, kind, id, tenant) in &self.bindings {
            let added = endpoint.add_binding(peer.into(), kind.into(), id, tenant.into());
            assert_eq!(added.code, 0);
        }
        endpoint
    }

    /// A good one: the endpoint saves to the bytes, the bytes load to it.
    fn is_good(&self) {
        let (endpoint, bytes) = (self.endpoint(), self.bytes());
        assert_eq!(saved(&endpoint), bytes);
        assert_eq!(Endpoint::load(&bytes), Ok(endpoint));
    }

    fn is_bad(&self) {
        bad(&self.bytes());
    }

    /// A good image with one thing changed.
    fn changed(&self, change: impl FnOnce(&mut Image)) -> Image {
        let mut copy = self.clone();
        change(&mut copy);
        copy
    }
}

fn bad(bytes: &[u8]) {
    assert_eq!(Endpoint::load(bytes), Err(Refusal::BadImage), "{bytes:x?}");
}

/// A save that is done, into an output with a byte to spare.
fn saved(endpoint: &Endpoint) -> Vec<u8> {
    let mut output = [0xAA; MAX_IMAGE + 1];
    let length = endpoint.save(&mut output).expect("a save");
    assert!(output[length..].iter().all(|&byte| byte == 0xAA));
    output[..length].to_vec()
}

/// The bench sheet's addresses, two networks of one peer: by hand.
#[test]
fn bytes_by_hand() {
    let (mut endpoint, _) = Endpoint::start(0x0A00_0001, 7471, 1500);
    endpoint.add_peer(0x0A00_0002);
    endpoint.add_peer(0xC0A8_0103);
    endpoint.add_binding(1, 1, 22, 258);
    endpoint.add_binding(0, 3, 0x0123_4567_89AB_CDEF, 65_535);
    let bytes = hex("54 57 4e  00 01  0a 00 00 01  1d 2f  05 dc
         02  0a 00 00 02  c0 a8 01 03
         02  01 01 00 00 00 00 00 00 00 16 01 02
             00 03 01 23 45 67 89 ab cd ef ff ff");
    assert_eq!(saved(&endpoint), bytes);
    assert_eq!(Endpoint::load(&bytes), Ok(endpoint));
}

#[test]
fn settings_alone() {
    let (endpoint, _) = Endpoint::start(OWN, 1, 576);
    let bytes = hex("54 57 4e  00 01  0a 00 00 01  00 01  02 40  00  00");
    assert_eq!(saved(&endpoint), bytes);
    assert_eq!(Endpoint::load(&bytes), Ok(endpoint));
}

#[test]
fn refusals_have_the_papers_numbers() {
    assert_eq!(Refusal::BadImage.code(), 24);
    assert_eq!(Refusal::OutOfRange.code(), 18);
    assert_eq!(Refusal::OutputTooShort.code(), 21);
}

/// Every size there is: without a peer there is no binding.
#[test]
fn every_size() {
    assert_eq!(MAX_IMAGE, 815);
    Image::bare().is_good();
    assert_eq!(Image::bare().bytes().len(), 15);
    for peers in 1..=8 {
        for bindings in 0..=64 {
            let image = Image::sized(peers, bindings);
            assert_eq!(image.bytes().len(), 15 + 4 * peers + 12 * bindings);
            image.is_good();
        }
    }
    assert_eq!(Image::sized(8, 64).bytes().len(), 815);
}

#[test]
fn one_more_than_there_may_be() {
    Image::sized(8, 0).is_good();
    Image::sized(9, 0).is_bad();
    Image::sized(9, 64).is_bad();
    Image::sized(255, 0).is_bad();
    Image::sized(1, 64).is_good();
    Image::sized(1, 65).is_bad();
    Image::sized(8, 65).is_bad();
    Image::sized(8, 255).is_bad();
}

/// A binding names a peer, so there is none without.
#[test]
fn no_binding_without_a_peer() {
    let image = Image::bare().changed(|image| image.bindings.push((0, 1, 22, 1)));
    image.is_bad();
    image.changed(|image| image.peers.push(PEER)).is_good();
}

#[test]
fn letters() {
    let good = Image::small().bytes();
    for at in 0..3 {
        for value in (0..=255).filter(|&value| value != good[at]) {
            let mut bytes = good.clone();
            bytes[at] = value;
            bad(&bytes);
        }
    }
    for letters in [b"twn", b"NWT", b"TRP", b"WNT"] {
        bad(&[letters, &good[3..]].concat());
    }
}

#[test]
fn versions() {
    let good = Image::small().bytes();
    assert_eq!(good[3..5], [0, 1]);
    for version in [0, 2, 3, 256, 257, 0x8001, 0xFFFF_u16] {
        let mut bytes = good.clone();
        bytes[3..5].copy_from_slice(&version.to_be_bytes());
        bad(&bytes);
    }
}

#[test]
fn settings_have_ranges() {
    let own = |own| Image::bare().changed(|image| image.own = own);
    for address in [0x0100_0000, 0x7F00_0001, 0xDFFF_FFFF] {
        own(address).is_good();
    }
    for address in [0, 1, 0x00FF_FFFF, 0xE000_0000, 0xFFFF_FFFF] {
        own(address).is_bad();
    }
    let port = |port| Image::bare().changed(|image| image.port = port);
    port(0).is_bad();
    port(1).is_good();
    port(65_535).is_good();
    let mtu = |mtu| Image::bare().changed(|image| image.mtu = mtu);
    for good in [576, 577, 1500, 1600] {
        mtu(good).is_good();
    }
    for wrong in [0, 575, 1601, 65_535] {
        mtu(wrong).is_bad();
    }
    // A refused start is no listing that can be saved.
    Image::bare()
        .changed(|image| (image.own, image.port, image.mtu) = (0, 0, 0))
        .is_bad();
}

#[test]
fn peers_have_ranges() {
    for number in 0..2 {
        let peer = |address| Image::small().changed(|image| image.peers[number] = address);
        for good in [0x0100_0000, 0xDFFF_FFFF, 0x0B00_0001] {
            peer(good).is_good();
        }
        for wrong in [0, 0x00FF_FFFF, 0xE000_0000, 0xFFFF_FFFF] {
            peer(wrong).is_bad();
        }
        // Our own address, and the other peer's.
        peer(OWN).is_bad();
        peer([PEER_2, PEER][number]).is_bad();
    }
}

/// The first and the last, and two side by side; without bindings too, so that no
/// binding names a peer that a reader has skipped.
#[test]
fn repeated_peers() {
    for full in [Image::sized(8, 64), Image::sized(8, 0)] {
        for (from, to) in [(0, 7), (7, 0), (3, 4), (0, 1), (6, 7)] {
            full.changed(|image| image.peers[to] = image.peers[from])
                .is_bad();
        }
        for number in 0..8 {
            full.changed(|image| image.peers[number] = OWN).is_bad();
            full.changed(|image| image.peers[number] = 0).is_bad();
        }
    }
}

#[test]
fn bindings_have_ranges() {
    let good = [
        (0, 1, 0),
        (0, 1, 16_777_215),
        (1, 1, 5),
        (0, 2, 4096),
        (1, 2, 16_777_214),
        (0, 3, 0),
        (0, 3, 1 << 32),
        (1, 3, u64::MAX),
    ];
    let wrong = [
        (2, 1, 5),
        (3, 1, 5),
        (8, 1, 5),
        (255, 1, 5),
        (0, 0, 4096),
        (0, 4, 4096),
        (0, 128, 4096),
        (0, 129, 4096),
        (0, 255, 4096),
        (0, 1, 16_777_216),
        (0, 1, (1 << 32) + 5),
        (0, 1, 1 << 63),
        (0, 2, 0),
        (0, 2, 4095),
        (0, 2, 16_777_215),
        (0, 2, (1 << 32) + 4096),
    ];
    for tenant in [0, 1, 0x0100, 65_535] {
        let binding = |(peer, kind, id): (u8, u8, u64)| {
            Image::small().changed(|image| image.bindings[0] = (peer, kind, id, tenant))
        };
        good.into_iter().for_each(|b| binding(b).is_good());
        wrong.into_iter().for_each(|b| binding(b).is_bad());
    }
}

/// The peer's number is below the count, whatever the count is.
#[test]
fn a_bindings_peer_is_listed() {
    for peers in 1..=8 {
        let image = Image::sized(peers, 3 * peers);
        for number in 0..3 * peers {
            let peer = |peer: usize| image.changed(|image| image.bindings[number].0 = peer as u8);
            peer(peers - 1).is_good();
            peer(peers).is_bad();
            peer(255).is_bad();
        }
    }
}

/// Peer, kind and id count, the tenant does not.
#[test]
fn repeated_bindings() {
    let image = |second| {
        let bindings = vec![(0, 1, 5000, 7), (1, 1, 6000, 7), second];
        Image::small().changed(|image| image.bindings = bindings)
    };
    image((0, 1, 5000, 7)).is_bad();
    image((0, 1, 5000, 8)).is_bad();
    image((1, 1, 6000, 8)).is_bad();
    image((1, 1, 5000, 7)).is_good();
    image((0, 2, 5000, 7)).is_good();
    image((0, 1, 5001, 7)).is_good();
    let full = Image::sized(8, 64);
    for (from, to) in [(0, 63), (63, 0), (31, 32), (0, 1), (62, 63)] {
        full.changed(|image| image.bindings[to] = image.bindings[from])
            .is_bad();
    }
}

/// Peers before bindings: a binding may name any peer of the image.
#[test]
fn order_is_kept() {
    let image = Image::small();
    image.changed(|image| image.peers.reverse()).is_good();
    image.changed(|image| image.bindings.reverse()).is_good();
    let reversed = image.changed(|image| image.bindings.reverse());
    assert_ne!(
        Endpoint::load(&reversed.bytes()),
        Endpoint::load(&image.bytes())
    );
}

#[test]
fn nothing_may_follow() {
    for image in [Image::bare(), Image::small(), Image::sized(8, 64)] {
        let good = image.bytes();
        for more in [&[0][..], &[1], &[0xAA], &[0; 4], &[0; 12], &good] {
            bad(&[&good[..], more].concat());
        }
    }
}

#[test]
fn every_truncation() {
    for image in [Image::bare(), Image::small(), Image::sized(8, 64)] {
        let good = image.bytes();
        for length in 0..good.len() {
            bad(&good[..length]);
        }
    }
}

/// A count that is one off takes other bytes for what follows.
#[test]
fn counts_are_held_to_the_bytes() {
    let good = Image::sized(3, 5).bytes();
    for (at, count) in [(13, 3), (14 + 12, 5)] {
        assert_eq!(good[at], count);
        for value in (0..=255).filter(|&value| value != count) {
            let mut bytes = good.clone();
            bytes[at] = value;
            bad(&bytes);
        }
    }
}

/// Loading accepts exactly what a save gives: what it accepts, saves to the same
/// bytes.
#[test]
fn every_byte_changed() {
    let image = Image::small();
    let good = image.bytes();
    let mut accepted = 0;
    for at in 0..good.len() {
        for value in (0..=255).filter(|&value| value != good[at]) {
            let mut bytes = good.clone();
            bytes[at] = value;
            let Ok(endpoint) = Endpoint::load(&bytes) else {
                continue;
            };
            assert_eq!(saved(&endpoint), bytes, "byte {at}: {value}");
            accepted += 1;
        }
    }
    // Every tenant, and every other Context ID: 14 bytes of 255 other values.
    assert!(accepted > 14 * 255, "{accepted}");
}

#[test]
fn an_output_is_long_enough_or_not() {
    for image in [Image::bare(), Image::small(), Image::sized(8, 64)] {
        let (endpoint, bytes) = (image.endpoint(), image.bytes());
        for length in 0..bytes.len() {
            let mut output = vec![0xAA; length];
            let answer = endpoint.save(&mut output);
            assert_eq!(answer, Err(Refusal::OutputTooShort), "{length}");
            assert!(output.iter().all(|&byte| byte == 0xAA), "{length}");
        }
        for more in [0, 1, 2, 100, 2000] {
            let mut output = vec![0xAA; bytes.len() + more];
            assert_eq!(endpoint.save(&mut output), Ok(bytes.len()));
            assert_eq!(output[..bytes.len()], bytes);
            assert_eq!(output[bytes.len()..], vec![0xAA; more]);
        }
    }
}

/// 18 comes before 21.
#[test]
fn a_refused_start_is_not_saved() {
    for (own, port, mtu) in [(OWN, 7471, 575), (OWN, 0, 1500), (0, 7471, 1500)] {
        let (mut endpoint, code) = Endpoint::start(own, port, mtu);
        assert_eq!(code, 18);
        endpoint.add_peer(PEER);
        for length in [0, 1, 14, 15, 815, 2000] {
            let mut output = vec![0xAA; length];
            assert_eq!(endpoint.save(&mut output), Err(Refusal::OutOfRange));
            assert!(output.iter().all(|&byte| byte == 0xAA), "{length}");
        }
    }
}

/// A refused adding call leaves no trace in the image.
#[test]
fn refused_calls_are_not_saved() {
    let mut bed = Bed::new();
    let before = saved(&bed.endpoint);
    for address in [OWN, PEER, 0] {
        assert_ne!(bed.endpoint.add_peer(address).code, 0);
    }
    assert_ne!(bed.endpoint.add_binding(0, 1, 22, 7).code, 0);
    assert_ne!(bed.endpoint.add_binding(2, 1, 22, 7).code, 0);
    assert_eq!(saved(&bed.endpoint), before);
}

/// Frames that are pending show neither in the image nor in what it loads to.
#[test]
fn pending_frames_are_no_part() {
    let mut bed = Bed::new();
    let before = saved(&bed.endpoint);
    let fresh = bed.endpoint.clone();
    let frame = good(100);
    for identifier in 0..4 {
        bed.holds(&part(identifier, &frame, 0, 50));
    }
    bed.ticks(2);
    let pending = bed.endpoint.clone();
    assert!(pending != fresh);
    assert_eq!(saved(&bed.endpoint), before);
    // The save only read it.
    assert!(bed.endpoint == pending);
    assert_eq!(Endpoint::load(&before), Ok(fresh));
}

/// A load gives free slots: what was pending begins anew, and all four slots of
/// the peer may be taken.
#[test]
fn a_load_starts_a_new_run() {
    let mut bed = Bed::new();
    let frame = good(100);
    for identifier in 0..4 {
        bed.holds(&part(identifier, &frame, 0, 50));
    }
    bed.refuses(17, &part(4, &frame, 0, 50));
    bed.endpoint = Endpoint::load(&saved(&bed.endpoint)).expect("an image");
    assert!(bed
        .endpoint
        .pending()
        .as_flattened()
        .iter()
        .all(|slot| slot.is_none()));
    bed.holds(&part(0, &frame, 50, 100));
    bed.completes(&frame, &part(0, &frame, 0, 50));
    for identifier in 4..8 {
        bed.holds(&part(identifier, &frame, 0, 50));
    }
    bed.refuses(17, &part(8, &frame, 0, 50));
}

/// What was loaded goes on as what was saved: it takes more peers and bindings,
/// receives and writes.
#[test]
fn a_loaded_endpoint_is_one() {
    let mut bed = Bed::new();
    bed.endpoint = Endpoint::load(&saved(&bed.endpoint)).expect("an image");
    bed.delivers(101, 0, &T, &vxlan(PEER, 22, &T));
    bed.delivers(202, 4, &T, &nvgre(PEER_2, 4096, &T));
    assert_eq!(bed.endpoint.add_peer(PEER).code, 19);
    assert_eq!(bed.endpoint.add_peer(PEER + 7).number, Some(2));
    assert_eq!(bed.endpoint.add_binding(2, 1, 22, 301).number, Some(6));
    let mut output = [0; 100];
    assert_eq!(bed.endpoint.wrap(0, &T, 0, 0, &mut output).length, 50);
    let again = Endpoint::load(&saved(&bed.endpoint));
    assert_eq!(again, Ok(bed.endpoint));
}
