//! Saves into outputs of every length, of endpoints that no load made too.

use crate::drawn::{any, near};
use crate::sides::{expect, Sides};
use niulassenc::{numbers, IMAGE_BYTES, MEMORY_NEEDED};
use vectors::driver::memory_contents;
use vectors::image::Image;
use vectors::packet::{self, Label, Path};
use vectors::prng::Prng;

/// The endpoints that a start and the adding calls make of an image's numbers.
fn made(image: &Image) -> Sides {
    let mut sides = Sides::start(image.own, image.port.into(), image.mtu.into());
    for &peer in &image.peers {
        assert_eq!(sides.library.add_peer(peer).code, 0);
        assert_eq!(sides.reference.add_peer(peer).code, 0);
    }
    for bound in &image.bindings {
        let (peer, kind, tenant) = (bound.peer.into(), bound.kind.into(), bound.tenant.into());
        let added = sides.library.add_binding(peer, kind, bound.id, tenant);
        let expected = sides.reference.add_binding(peer, kind, bound.id, tenant);
        assert_eq!((added.code, expected.code), (0, 0));
    }
    sides
}

/// Saves into an output of each of these lengths: refused with 21 below the image's
/// length, else written.
fn saves(sides: &Sides, image: &[u8], lengths: impl Iterator<Item = usize>) {
    for length in lengths {
        let saved = expect(length, image, sides.save(length));
        let written = if length < image.len() {
            Err(21)
        } else {
            Ok(image.to_vec())
        };
        assert!(saved == written, "an output of {length}: {saved:02x?}");
    }
}

/// Lengths at which something could change.
fn around(length: usize) -> impl Iterator<Item = usize> {
    let near = length.saturating_sub(3)..length + 4;
    near.chain([
        0,
        1,
        14,
        15,
        16,
        814,
        815,
        816,
        2000,
        65_536,
        65_536 + length,
    ])
}

#[test]
fn every_size_into_lengths_around() {
    let prng = &mut Prng::new(11);
    for peers in 0..=8 {
        let most = if peers == 0 { 0 } else { 64 };
        for bindings in 0..=most {
            let image = any(prng, peers, bindings);
            let bytes = image.bytes();
            saves(&made(&image), &bytes, around(bytes.len()));
        }
    }
}

#[test]
fn every_length_of_an_output() {
    for (peers, bindings) in [(0, 0), (1, 1), (8, 0), (3, 17), (8, 64)] {
        let image = near(peers.max(1), bindings).with(|image| image.peers.truncate(peers));
        let sides = expect("near", &image, Sides::load(&image)).expect("a good image");
        saves(&sides, &image, 0..=IMAGE_BYTES + 20);
    }
}

/// Save then load: the same endpoint, on both sides.
#[test]
fn a_save_loads_to_the_endpoint() {
    let prng = &mut Prng::new(12);
    for _ in 0..2000 {
        let (peers, bindings) = (prng.between(1, 8), prng.below(65));
        let image = any(prng, peers, bindings);
        let sides = made(&image);
        let saved = expect("save", &[], sides.save(IMAGE_BYTES)).expect("saved");
        let loaded = expect("load", &saved, Sides::load(&saved)).expect("a good image");
        assert!(loaded.library == sides.library, "{saved:02x?}");
        assert!(loaded.reference == sides.reference, "{saved:02x?}");
    }
}

/// 18 comes before 21. What a refused load gives is a refused start too.
#[test]
fn a_refused_start_is_not_saved() {
    let refused = Sides::start(0x0A00_0001, 7471, 575);
    let mut of_load = refused.clone();
    of_load.library = numbers::Endpoint::load(&near(1, 1).bytes()[1..]).0;
    for sides in [refused, of_load] {
        for length in (0..=20).chain(around(IMAGE_BYTES)) {
            let saved = expect(length, &[], sides.save(length));
            assert_eq!(saved, Err(18), "an output of {length}");
        }
    }
}

/// Segments that leave frames pending, with ages, in slots of every peer.
fn leave_pending(sides: &mut Sides, image: &Image, prng: &mut Prng) {
    let mut memories = [(); 2].map(|()| memory_contents(MEMORY_NEEDED, 1));
    let [ours, theirs] = &mut memories;
    for _ in 0..prng.between(1, 60) {
        let path = Path {
            from: prng.pick(&image.peers),
            to: image.own,
        };
        let label = Label::new(image.port, prng.below(6) as u32, 900, 100 * prng.below(9));
        let segment = packet::segment(path, label, &prng.bytes(50));
        let received = sides.library.receive(&segment, ours);
        let expected = sides.reference.receive(&segment, theirs);
        assert_eq!(received.code, expected.code);
        if prng.percent(4) {
            sides.library.tick();
            sides.reference.tick();
        }
    }
}

/// The image is that of the endpoint before any receive; the frames stay pending,
/// and what it loads to has none.
#[test]
fn pending_frames_are_no_part() {
    let prng = &mut Prng::new(13);
    let mut pending = 0;
    for _ in 0..500 {
        let (peers, bindings) = (prng.between(1, 8), prng.below(65));
        let image = any(prng, peers, bindings);
        let fresh = made(&image);
        let mut sides = fresh.clone();
        leave_pending(&mut sides, &image, prng);
        pending += usize::from(sides.library != fresh.library);
        let bytes = image.bytes();
        saves(&sides, &bytes, around(bytes.len()).take(8));
        let loaded = expect("load", &bytes, Sides::load(&bytes)).expect("a good image");
        assert!(loaded.library == fresh.library, "{bytes:02x?}");
    }
    assert!(pending > 450, "frames were pending in {pending} saves");
}

/// An output may lie anywhere.
#[test]
fn every_alignment() {
    for image in [near(1, 1), near(8, 64), any(&mut Prng::new(14), 5, 33)] {
        let (sides, image) = (made(&image), image.bytes());
        for at in 0..64 {
            let mut bytes = vec![0xAA; at + image.len() + 64];
            let saved = sides.library.save(&mut bytes[at..][..image.len() + 1]);
            assert_eq!((saved.code, saved.length), (0, image.len()));
            assert!(bytes[at..][..image.len()] == image, "at {at}");
            let others = bytes[..at].iter().chain(&bytes[at + image.len()..]);
            assert!(others.clone().all(|&byte| byte == 0xAA), "at {at}");
        }
    }
}
