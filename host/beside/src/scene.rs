//! An endpoint with eight peers, and frames cut into segments.

use niulassenc::limits::PEERS;
use niulassenc::numbers::Endpoint;
use std::ops::Range;
use vectors::directed::{CONTEXT, OWN, PORT, STT, VXLAN};
use vectors::packet::{segment, Label, Path};
use vectors::prng::Prng;

/// The VXLAN network of every peer.
pub const VNI: u32 = 22;

/// The way from a peer.
pub fn from(peer: usize) -> Path {
    Path {
        from: OWN + 1 + peer as u32,
        to: OWN,
    }
}

/// So many peers, each with two bindings of its own: STT, then VXLAN.
pub fn endpoint(peers: usize) -> Endpoint {
    assert!(peers <= PEERS);
    let (mut endpoint, _) = Endpoint::start(OWN, PORT.into(), 1500);
    for peer in 0..peers {
        let number = peer as u32;
        endpoint.add_peer(from(peer).from);
        endpoint.add_binding(number, STT.into(), CONTEXT, 100 + number);
        endpoint.add_binding(number, VXLAN.into(), VNI.into(), 200 + number);
    }
    endpoint
}

/// A frame on its way.
#[derive(Clone)]
pub struct Sent {
    pub path: Path,
    pub identifier: u32,
    pub frame: Vec<u8>,
}

impl Sent {
    /// The segment of these bytes.
    pub fn part(&self, bytes: Range<usize>) -> Vec<u8> {
        self.labelled(self.frame.len(), bytes.start, &self.frame[bytes])
    }

    /// A segment that says what it likes about the frame.
    pub fn labelled(&self, length: usize, offset: usize, bytes: &[u8]) -> Vec<u8> {
        let label = Label::new(PORT, self.identifier, length, offset);
        segment(self.path, label, bytes)
    }
}

/// Cuts `length` bytes into so many pieces, none of them empty.
pub fn pieces(prng: &mut Prng, length: usize, count: usize) -> Vec<Range<usize>> {
    let mut edges: Vec<usize> = (1..length).collect();
    prng.shuffle(&mut edges);
    edges.truncate(count - 1);
    edges.extend([0, length]);
    edges.sort_unstable();
    edges.windows(2).map(|edge| edge[0]..edge[1]).collect()
}

/// From the front, from the back, or in any order.
pub fn ordered(prng: &mut Prng, mut pieces: Vec<Range<usize>>) -> Vec<Range<usize>> {
    match prng.below(4) {
        0 => {}
        1 => pieces.reverse(),
        _ => prng.shuffle(&mut pieces),
    }
    pieces
}
