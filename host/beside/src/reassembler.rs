//! The reference reassembler in safe calls.

use crate::ffi;
pub use crate::ffi::{Buffer, Extent, Reassembler as Raw, SEGMENTS};
use niulassenc::limits::{PEERS, SLOTS};
use niulassenc::numbers;

/// Bytes of a block: the segments of one pending frame, end to end.
pub const BLOCK_BYTES: usize = 1536;

/// Where a complete frame is rebuilt: behind the blocks of all frames.
pub const REBUILT: usize = PEERS * SLOTS * BLOCK_BYTES;

/// Least length of the memory that the reference reassembler is lent.
pub const MEMORY_NEEDED: usize = REBUILT + BLOCK_BYTES;

/// The answer to a frame's 65th segment.
pub const TOO_MANY: u8 = 32;

/// A reference reassembler. It refers to nothing: it may be moved and copied.
#[derive(Clone, Debug)]
pub struct Reassembler {
    raw: Raw,
}

impl Reassembler {
    /// With the configuration of an endpoint, and no frame pending.
    pub fn start(endpoint: &numbers::Endpoint) -> Reassembler {
        // SAFETY: a struct goes in and one comes back, both by value; `ffi` asserts their
        // layouts. Every contract of the archive is proved for every input, so it has no
        // precondition beyond its types.
        let raw = unsafe { ffi::reference_start(*endpoint.raw()) };
        Reassembler { raw }
    }

    /// Takes one outer packet, first byte of the IP header.
    pub fn receive(&mut self, packet: &[u8], memory: &mut [u8]) -> numbers::Receipt {
        // SAFETY: both pointers come with the lengths of slices that are borrowed for the
        // whole call, the memory alone. The archive writes within the memory only and
        // keeps no pointer.
        let hearing = unsafe {
            ffi::reference_receive(
                self.raw,
                packet.as_ptr(),
                packet.len(),
                memory.as_mut_ptr(),
                memory.len(),
            )
        };
        self.raw = hearing.reassembler;
        hearing.receipt.into()
    }

    /// One tick of the clock.
    pub fn tick(&mut self) {
        // SAFETY: as in `start`.
        self.raw = unsafe { ffi::reference_tick(self.raw) };
    }

    /// The endpoint that it was started with.
    pub fn endpoint(&self) -> &numbers::Raw {
        &self.raw.endpoint
    }

    /// The pending frames of a peer, in the order in which they were opened.
    pub fn frames(&self, peer: usize) -> &[Buffer] {
        let peer = &self.raw.peers[peer];
        &peer.buffers[..peer.count.min(SLOTS)]
    }

    /// Whether the two read the same: what lies behind a count is free.
    pub fn reads_as(&self, other: &Reassembler) -> bool {
        self.raw.endpoint == other.raw.endpoint
            && (0..PEERS).all(|peer| self.frames(peer) == other.frames(peer))
    }
}
