//! Images that are good, of any numbers and of numbers near each other.

use vectors::image::{Bound, Image};
use vectors::prng::Prng;

/// Bounds of the ids, by kind: VXLAN, NVGRE, STT.
pub const IDS: [(u64, u64); 3] = [(0, 0xFF_FFFF), (0x1000, 0xFF_FFFE), (0, u64::MAX)];

/// An address that an endpoint may have.
fn address(prng: &mut Prng) -> u32 {
    let first = prng.pick(&[1, 10, 127, 192, 223]);
    first << 24 | prng.draw() as u32 & 0xFF_FFFF
}

/// A number from `low` to `high`, often at one of them.
fn number(prng: &mut Prng, low: u64, high: u64) -> u64 {
    match prng.below(6) {
        0 => low,
        1 => high,
        _ => match high.wrapping_sub(low).wrapping_add(1) {
            0 => prng.draw(),
            count => low + prng.draw() % count,
        },
    }
}

fn binding(prng: &mut Prng, peers: usize) -> Bound {
    let kind = prng.between(1, 3) as u8;
    let (low, high) = IDS[usize::from(kind) - 1];
    Bound {
        peer: prng.below(peers) as u8,
        kind,
        id: number(prng, low, high),
        tenant: number(prng, 0, 65_535) as u16,
    }
}

/// A good image of so many peers and bindings, of any numbers. Without a peer there
/// is no binding.
pub fn any(prng: &mut Prng, peers: usize, bindings: usize) -> Image {
    let mut image = Image {
        own: address(prng),
        port: number(prng, 1, 65_535) as u16,
        mtu: number(prng, 576, 1600) as u16,
        peers: Vec::new(),
        bindings: Vec::new(),
    };
    while image.peers.len() < peers {
        let drawn = address(prng);
        if drawn != image.own && !image.peers.contains(&drawn) {
            image.peers.push(drawn);
        }
    }
    while image.bindings.len() < bindings {
        let drawn = binding(prng, peers);
        let key = |bound: &Bound| (bound.peer, bound.kind, bound.id);
        if image.bindings.iter().all(|bound| key(bound) != key(&drawn)) {
            image.bindings.push(drawn);
        }
    }
    image
}

/// A good image of so many peers and bindings in which one byte makes two peers, two
/// bindings, or a peer and our own address, the same.
pub fn near(peers: usize, bindings: usize) -> Image {
    let peer = |number: usize| 0x0A00_0002 + number as u32;
    let bound = |number: usize| {
        let (rest, peer) = (number / peers, number % peers);
        // Ids that differ in their lowest byte, and in the next one.
        let id = 0x4242 + (rest / 3 % 2) as u64 + ((rest / 6) as u64) * 0x100;
        Bound {
            peer: peer as u8,
            kind: (rest % 3 + 1) as u8,
            id,
            tenant: number as u16,
        }
    };
    Image {
        own: 0x0A00_0001,
        port: 7471,
        mtu: 1500,
        peers: (0..peers).map(peer).collect(),
        bindings: (0..bindings).map(bound).collect(),
    }
}
