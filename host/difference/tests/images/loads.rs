//! Loads of good images of every size, and of bad ones.

use crate::drawn::{any, near, IDS};
use crate::sides::{expect, goes_around};
use niulassenc::IMAGE_BYTES;
use vectors::image::{Bound, Image, BINDING, PEER, PEER_COUNT};
use vectors::prng::Prng;

/// Says that both take the image, or that both refuse it.
fn is(good: bool, what: &str, image: &[u8]) {
    let found = expect(what, image, goes_around(image));
    assert_eq!(
        found, good,
        "{what}: whether it is good\nimage {image:02x?}"
    );
}

/// How many of these are good.
fn good_of(what: &str, images: impl Iterator<Item = Vec<u8>>) -> usize {
    images
        .filter(|image| expect(what, image, goes_around(image)))
        .count()
}

/// The images that the changes below begin with: of several sizes, the longest one
/// of any numbers and of numbers near each other.
fn some() -> [Image; 7] {
    let prng = &mut Prng::new(3);
    [
        any(prng, 0, 0),
        any(prng, 1, 0),
        any(prng, 1, 1),
        near(2, 7),
        any(prng, 3, 4),
        any(prng, 8, 64),
        near(8, 64),
    ]
}

#[test]
fn every_size() {
    let prng = &mut Prng::new(1);
    for peers in 0..=8 {
        for bindings in 0..=64 {
            if peers == 0 && bindings > 0 {
                let image = any(prng, 1, bindings).with(|image| image.peers.clear());
                is(false, "bindings without a peer", &image);
                continue;
            }
            let images = [any(prng, peers, bindings), near(peers.max(1), bindings)];
            for image in images.map(|image| image.bytes()) {
                is(true, "every size", &image);
            }
        }
    }
    assert_eq!(any(prng, 8, 64).bytes().len(), IMAGE_BYTES);
}

#[test]
fn thousands_of_good_images() {
    let prng = &mut Prng::new(2);
    for _ in 0..5000 {
        let peers = prng.below(9);
        let most = if peers == 0 { 0 } else { 64 };
        let bindings = prng.below(most + 1);
        is(true, "drawn", &any(prng, peers, bindings).bytes());
    }
}

/// The copies with another value at this place.
fn changed_at(image: &[u8], at: usize) -> impl Iterator<Item = Vec<u8>> + '_ {
    let others = (0..=255).filter(move |&value| value != image[at]);
    others.map(move |value| {
        let mut changed = image.to_vec();
        changed[at] = value;
        changed
    })
}

/// Every other value at every place. Any tenant is good; letters, version and counts
/// have no other value that is.
#[test]
fn every_byte_changed() {
    for image in some() {
        let bytes = image.bytes();
        let changes = (0..bytes.len()).flat_map(|at| changed_at(&bytes, at));
        let good = good_of("a byte changed", changes);
        let bindings = image.bindings.len();
        assert!(good >= 255 * 2 * bindings, "{good} of {bindings} bindings");
        assert!(good <= 255 * (bytes.len() - 7), "{good}");
    }
}

#[test]
fn every_truncation() {
    for image in some().map(|image| image.bytes()) {
        for length in 0..image.len() {
            is(false, "cut short", &image[..length]);
        }
    }
}

#[test]
fn every_extension() {
    let prng = &mut Prng::new(4);
    for image in some().map(|image| image.bytes()) {
        for more in (1..=40).chain([255, 256, 1000, 65_536 - image.len(), 65_536]) {
            let bytes = prng.bytes(more);
            is(
                false,
                "zeros behind",
                &[&image[..], &vec![0; more]].concat(),
            );
            is(false, "bytes behind", &[&image[..], &bytes].concat());
        }
        is(false, "twice", &[&image[..], &image].concat());
    }
}

/// One peer or binding more than there may be, up to the largest count.
#[test]
fn counts_above_the_limits() {
    let prng = &mut Prng::new(5);
    for more in [9, 10, 16, 128, 255, 256, 257] {
        for bindings in [0, 1, 64] {
            let image = near(8, bindings).with(|image| {
                image.peers = (0..more).map(|number| 0x0B00_0000 + number).collect();
            });
            is(false, "peers", &image);
        }
    }
    for more in [65, 66, 128, 255, 256, 257, 320] {
        for peers in [1, 8] {
            let image = any(prng, peers, more).bytes();
            is(false, "bindings", &image);
        }
    }
}

/// Every value of each count, with as many bytes as it asks for and with as many as
/// there were.
#[test]
fn every_count() {
    let good = near(3, 5);
    let (peer_count, binding_count) = (PEER_COUNT, PEER_COUNT + 1 + 3 * PEER);
    for count in 0..=255u8 {
        let peers = (0..u32::from(count)).map(|number| 0x0B00_0000 + number);
        let listed = good.with(|image| image.peers = peers.collect());
        is((3..=8).contains(&count), "peers", &listed);
        let mut bytes = good.bytes();
        bytes[peer_count] = count;
        is(count == 3, "peer count", &bytes);
        let mut bytes = good.bytes();
        bytes[binding_count] = count;
        is(count == 5, "binding count", &bytes);
        let cut = &bytes[..=binding_count];
        is(count == 0, "no bindings behind their count", cut);
    }
}

/// A peer has the address of another one, or ours, at every place; without bindings
/// too, so that none names a peer that a reader has skipped.
#[test]
fn every_repeated_peer() {
    let any = any(&mut Prng::new(6), 8, 64);
    for full in [near(8, 64), any, near(8, 0)] {
        for to in 0..8 {
            let own = full.with(|image| image.peers[to] = image.own);
            is(false, "own", &own);
            for from in (0..8).filter(|&from| from != to) {
                let repeat = |image: &mut Image| image.peers[to] = image.peers[from];
                is(false, "a peer", &full.with(repeat));
            }
        }
    }
}

/// A binding has peer, kind and id of another one, and a tenant of its own.
#[test]
fn every_repeated_binding() {
    for full in [near(8, 64), any(&mut Prng::new(6), 8, 64)] {
        for to in 0..64 {
            for from in (0..64).filter(|&from| from != to) {
                let tenant = full.bindings[to].tenant;
                let repeated = Bound {
                    tenant,
                    ..full.bindings[from]
                };
                let image = full.with(|image| image.bindings[to] = repeated);
                is(false, "a binding", &image);
            }
        }
    }
}

/// A binding that another one differs from in one of its numbers alone is no repeat.
#[test]
fn near_misses() {
    let first = Bound {
        peer: 2,
        kind: 3,
        id: 0x4242,
        tenant: 7,
    };
    let two = |second| near(4, 2).with(|image| image.bindings = vec![first, second]);
    for peer in [0, 1, 3] {
        is(true, "peers", &two(Bound { peer, ..first }));
    }
    for kind in [1, 2] {
        is(true, "kinds", &two(Bound { kind, ..first }));
    }
    for bit in 0..64 {
        let id = first.id ^ 1 << bit;
        is(true, "ids", &two(Bound { id, ..first }));
    }
    for bit in 0..16 {
        let tenant = first.tenant ^ 1 << bit;
        is(false, "tenants", &two(Bound { tenant, ..first }));
    }
}

/// Ids around the bounds of each kind, in the binding of every number.
#[test]
fn ids_at_their_bounds() {
    let beyond = [1 << 24, 1 << 32, (1 << 32) + 0x1000, 1 << 56, 1 << 63];
    for number in 0..64 {
        for (kind, (low, high)) in (1..).zip(IDS) {
            let ends = [low.wrapping_sub(1), low, low + 1, high - 1, high];
            let ends = ends.into_iter().chain([high.wrapping_add(1)]);
            for id in ends.chain(beyond).chain([0, 1, 4095, u64::MAX]) {
                let image = near(8, 64).with(|image| {
                    image.bindings[number].kind = kind;
                    image.bindings[number].id = id;
                });
                is((low..=high).contains(&id), "an id", &image);
            }
        }
    }
}

/// Every port, every MTU, and every first byte of an address.
#[test]
fn every_setting() {
    let one = near(1, 1);
    for number in 0..=u16::MAX {
        is(number > 0, "port", &one.with(|image| image.port = number));
        let good = (576..=1600).contains(&number);
        is(good, "MTU", &one.with(|image| image.mtu = number));
    }
    for first in 0..=255u32 {
        for rest in [0, 3, 0xFF_FFFF] {
            let address = first << 24 | rest;
            let good = (1..224).contains(&first);
            is(good, "own", &one.with(|image| image.own = address));
            is(good, "peer", &one.with(|image| image.peers[0] = address));
        }
    }
}

/// Every version behind the letters.
#[test]
fn every_version() {
    let mut image = near(1, 1).bytes();
    for version in 0..=u16::MAX {
        image[3..5].copy_from_slice(&version.to_be_bytes());
        is(version == 1, "version", &image);
    }
}

/// Bytes of no meaning: alone, behind the letters and the version, and behind good
/// settings with counts that fit the length.
#[test]
fn noise() {
    let prng = &mut Prng::new(7);
    let front = near(0, 0).bytes();
    for _ in 0..20_000 {
        let length = prng.below(900);
        let bytes = prng.bytes(length);
        is(false, "noise", &bytes);
        let settings = [&front[..5], &bytes].concat();
        expect(
            "noise behind the version",
            &settings,
            goes_around(&settings),
        );
        let (peers, bindings) = (prng.below(10), prng.below(67));
        let listed = [
            &front[..13],
            &[peers as u8],
            &prng.bytes(PEER * peers),
            &[bindings as u8],
            &prng.bytes(BINDING * bindings),
        ];
        let listed = listed.concat();
        expect("noise behind the counts", &listed, goes_around(&listed));
    }
}

/// Several bytes changed at once, by little or by much.
#[test]
fn several_bytes_changed() {
    let prng = &mut Prng::new(8);
    let images = some().map(|image| image.bytes());
    let changed = (0..60_000).map(|_| {
        let mut image = images[prng.below(images.len())].clone();
        for _ in 0..prng.between(2, 5) {
            let at = prng.below(image.len());
            image[at] = match prng.below(3) {
                0 => prng.byte(),
                1 => image[at].wrapping_add(1),
                _ => image[at] ^ 1 << prng.below(8),
            };
        }
        image
    });
    let good = good_of("several bytes changed", changed);
    assert!((1000..59_000).contains(&good), "{good}");
}

/// An image may lie anywhere.
#[test]
fn every_alignment() {
    for image in some().map(|image| image.bytes()) {
        let mut bytes = vec![0xAA; image.len() + 64];
        for at in 0..64 {
            bytes[at..at + image.len()].copy_from_slice(&image);
            let (ours, code) = niulassenc::numbers::Endpoint::load(&bytes[at..][..image.len()]);
            let (expected, _) = niulassenc::numbers::Endpoint::load(&image);
            assert_eq!((code, ours == expected), (0, true), "at {at}");
        }
    }
}
